//! The command line: commands, options, and what is wrong with it.

use std::ffi::{OsStr, OsString};
use std::os::unix::ffi::OsStrExt;

use crate::descriptors::INPUT;
use crate::failure::Failure;
use crate::files::Place;
use crate::words::list;

#[derive(Clone, Copy, Debug, PartialEq, Eq)]
pub enum Command {
    Check,
    Get,
    Put,
    Create,
    Clash,
    AfmImport,
    AfmExport,
    Assemble,
    Show,
    Where,
}

/// A command's name, of one word or two, what stands behind it, and what it does.
struct Form {
    command: Command,
    name: &'static str,
    operands: &'static [&'static str],
    brief: &'static str,
    help: &'static str,
}

impl Form {
    /// Whether something is told beside a result, and can be left out.
    fn tells_more(&self) -> bool {
        matches!(self.command, Command::Put | Command::Clash)
    }

    fn words(&self) -> impl Iterator<Item = &'static str> {
        self.name.split(' ')
    }

    /// Which files it takes.
    fn files(&self) -> &'static str {
        match self.command {
            Command::AfmImport | Command::AfmExport => TEXTS,
            _ => FILES,
        }
    }
}

/// Every other operand is a file.
const NODE: &str = "NODE";

#[rustfmt::skip]
const FORMS: [Form; 10] = [
    Form {
        command: Command::Check,
        name: "check",
        operands: &["PROGRAM"],
        brief: "tells whether the engine takes a program",
        help: "Writes 'ok', the number of nodes, and the positions of the whole program in the\n\
               source and in the sheet. A program that is refused is told with its line, and an\n\
               ambiguous one with a text that can be read in two ways ('clash' writes it).",
    },
    Form {
        command: Command::Get,
        name: "get",
        operands: &["PROGRAM", "SOURCE"],
        brief: "takes the sheet from a source",
        help: "Writes the sheet, byte for byte.",
    },
    Form {
        command: Command::Put,
        name: "put",
        operands: &["PROGRAM", "SHEET", "SOURCE"],
        brief: "puts an edited sheet back onto its source",
        help: "Writes the new source, byte for byte. To replace the old one:\n\
               noontrough put PROGRAM SHEET SOURCE -o SOURCE\n\n\
               Entries are found by their keys, in which spaces at the end do not count.\n\n\
               Then it tells on standard error what became of the entries, in one line such as\n\
               'kept 1 made 1 dropped 1': entries of the sheet that took an old entry, entries of\n\
               the sheet that took none, and old entries left unused.",
    },
    Form {
        command: Command::Create,
        name: "create",
        operands: &["PROGRAM", "SHEET"],
        brief: "makes a source from a sheet alone",
        help: "Writes the source, byte for byte, with the defaults for what the sheet hides.",
    },
    Form {
        command: Command::Clash,
        name: "clash",
        operands: &["PROGRAM"],
        brief: "writes a text that a program could read in two ways",
        help: "Writes the text, byte for byte: of those that show why the program is refused (7 to\n\
               11) a shortest one, and of these the lowest in byte order. It can be empty, and has\n\
               16,512 bytes at most. A program that the engine takes has no such text: that is\n\
               told, and is no result.\n\n\
               Then it tells on standard error the line of the program, and the two ways.",
    },
    Form {
        command: Command::AfmImport,
        name: "afm import",
        operands: &["SECTION"],
        brief: "takes a sheet from the kerning of Adobe's metrics",
        help: "Writes a line 'left;right;value' for each pair, byte for byte and in their order.\n\n\
               SECTION is the part of an AFM file from the line 'StartKernPairs' with its count to\n\
               the line 'EndKernPairs', and between them 'KPX left right value' in each line. One\n\
               space or more separate the words; no other spaces, no tabs and no empty lines stand\n\
               there, and every line ends in a newline. A name has 1 to 63 bytes from 0x21 to 0x7E\n\
               without ';', a value is a whole number from -32768 to 32767.",
    },
    Form {
        command: Command::AfmExport,
        name: "afm export",
        operands: &["SHEET"],
        brief: "makes the kerning of Adobe's metrics from a sheet",
        help: "Writes the lines from 'StartKernPairs', with its count, to 'EndKernPairs', and\n\
               'KPX left right value' for each line of the sheet, in their order. 'afm import' takes\n\
               the same sheet from it.\n\n\
               SHEET has any number of lines 'left;right;value', each with a newline and without\n\
               spaces. A name has 1 to 63 bytes from 0x21 to 0x7E without ';', a value is a whole\n\
               number from -32768 to 32767.",
    },
    Form {
        command: Command::Assemble,
        name: "assemble",
        operands: &["PROGRAM"],
        brief: "makes the table of a program's text",
        help: "Writes the table's bytes. Whether the program is right is for 'check' to say.",
    },
    Form {
        command: Command::Show,
        name: "show",
        operands: &["PROGRAM"],
        brief: "writes a program as text, a node a line",
        help: "Writes one line for each node, n0, n1 and so on; assembling it gives the same table.\n\
               For a program's text it shows what its short forms stand for.",
    },
    Form {
        command: Command::Where,
        name: "where",
        operands: &["PROGRAM", NODE],
        brief: "tells which line of a program made a node",
        help: "Writes the place in the program's text, and the name.",
    },
];

const FILES: &str = "\
PROGRAM is a program's text (program.lens) or its table (program.table): which of them
is told by its bytes. '-' is standard input, for one of the files.";

/// Of the commands that take no program.
const TEXTS: &str = "\
A text and the result have 65,535 bytes at most. '-' is standard input.";

const OPTIONS: &str = "  -o, --output FILE   write the result to FILE ('-': standard output, as without it).
                      FILE is replaced whole, and only by a result; otherwise it stays
                      as it was. A file that the result is made from is not replaced,
                      save the SOURCE of put
  -h, --help          this text";

/// Only put and clash tell anything beside a result.
const QUIET: &str = "  -q, --quiet         put, clash: don't tell anything beside the result";

const VERSION: &str = "  -V, --version       the version";

const STATUS: &str = "\
Exit status: 0 a result, 1 a refusal or no clash (nothing is written), 2 wrong usage or a
file that can't be read or written. What was refused, and where, is told on standard error.";

/// A command with its operands.
#[derive(Debug)]
pub struct Call {
    pub command: Command,
    pub files: Vec<Place>,
    /// Only `where` has one.
    pub node: Option<usize>,
    pub output: Place,
    /// What is known beside a result is not told.
    pub is_quiet: bool,
}

#[derive(Debug)]
pub enum Request {
    /// Help or the version.
    Tell(String),
    Run(Call),
}

pub fn read(words: &[OsString]) -> Result<Request, Failure> {
    let Some((first, rest)) = words.split_first() else {
        return Err(Failure::Trouble(format!("noontrough: a command is missing\n{}", usage_of_all())));
    };
    if is_one_of(first, ["-h", "--help", "help"]) {
        return help(rest).map(Request::Tell);
    }
    if is_one_of(first, ["-V", "--version", "version"]) {
        let version = format!("noontrough {}\n", env!("CARGO_PKG_VERSION"));
        return rest.first().map_or(Ok(Request::Tell(version)), |extra| Err(too_many(extra)));
    }
    match rest {
        // Also behind the first word of a name that has two.
        [word] if is_one_of(word, ["-h", "--help"]) => help(&words[..1]).map(Request::Tell),
        _ => form(words).and_then(|(form, rest)| read_call(form, rest)),
    }
}

/// The command whose name the words begin with, and what stands behind it.
fn form(words: &[OsString]) -> Result<(&'static Form, &[OsString]), Failure> {
    let behind = |form: &Form| {
        let (name, rest) = words.split_at_checked(form.words().count())?;
        form.words().eq(name.iter()).then_some(rest)
    };
    let found = FORMS.iter().find_map(|form| behind(form).map(|rest| (form, rest)));
    found.ok_or_else(|| Failure::Trouble(format!("noontrough: {}\n{}", no_command(words), usage_of_all())))
}

fn too_many(extra: &OsStr) -> Failure {
    let extra = extra.to_string_lossy();
    Failure::Trouble(format!("noontrough: '{extra}' is one argument too many\n{}", usage_of_all()))
}

fn no_command(words: &[OsString]) -> String {
    let shown = |place: usize| words.get(place).map(|word| word.to_string_lossy().into_owned()).unwrap_or_default();
    let (first, second) = (shown(0), shown(1));
    let seconds: Vec<String> = family(&first).map(|form| form.words().skip(1).collect()).collect();
    if first.starts_with('-') {
        return format!("'{first}' stands before the command; options come behind it");
    }
    match (seconds.is_empty(), second.as_str()) {
        (true, _) => format!("there is no command '{first}'"),
        (false, "") => format!("behind '{first}' {} is missing", list(&seconds, "or")),
        (false, _) => format!("behind '{first}' stands {}, and not '{second}'", list(&seconds, "or")),
    }
}

/// The commands whose names begin with this word and have one more.
fn family(word: &str) -> impl Iterator<Item = &'static Form> + '_ {
    FORMS.iter().filter(move |form| form.words().count() > 1 && form.words().next() == Some(word))
}

/// The pages of the commands whose names begin with these words.
fn help(words: &[OsString]) -> Result<String, Failure> {
    if words.is_empty() {
        return Ok(help_of_all());
    }
    let is_asked = |form: &&Form| form.words().zip(words).filter(|(part, word)| part == word).count() == words.len();
    let pages: Vec<String> = FORMS.iter().filter(is_asked).map(help_of).collect();
    if !pages.is_empty() {
        return Ok(pages.join("\n"));
    }
    // There is no such command, or it is named and something stands behind it.
    let (_, rest) = form(words)?;
    Err(too_many(rest.first().map_or(OsStr::new(""), |extra| extra)))
}

/// What a command's words say, before it is known whether they are right.
#[derive(Default)]
struct Words<'a> {
    operands: Vec<&'a OsStr>,
    outputs: Vec<&'a OsStr>,
    is_help: bool,
    is_quiet: bool,
}

fn read_call(form: &Form, words: &[OsString]) -> Result<Request, Failure> {
    let wrong = |message: String| Failure::Trouble(format!("noontrough {}: {message}\n{}", form.name, usage(form)));
    let found = sort(form, words).map_err(wrong)?;
    if found.is_help {
        return Ok(Request::Tell(help_of(form)));
    }
    if let Some(missing) = form.operands.get(found.operands.len()) {
        return Err(wrong(format!("{missing} is missing")));
    }
    if let Some(extra) = found.operands.get(form.operands.len()) {
        return Err(wrong(format!("'{}' is one argument too many", extra.to_string_lossy())));
    }
    if let [_, second, ..] = found.outputs[..] {
        return Err(wrong(format!("a second -o, '{}', and there is one result", second.to_string_lossy())));
    }
    let output = found.outputs.first().map_or(Place::Standard, |file| Place::of(file));
    let (files, node) = operands(form, &found.operands).map_err(wrong)?;
    Ok(Request::Run(Call { command: form.command, files, node, output, is_quiet: found.is_quiet }))
}

/// Options and operands told apart; behind `--` all are operands.
fn sort<'a>(form: &Form, words: &'a [OsString]) -> Result<Words<'a>, String> {
    let mut found = Words::default();
    let mut rest = words.iter();
    while let Some(word) = rest.next() {
        let shown = word.to_string_lossy();
        if word == "--" {
            found.operands.extend(rest.by_ref().map(OsString::as_os_str));
        } else if is_one_of(word, ["-h", "--help"]) {
            found.is_help = true;
        } else if form.tells_more() && is_one_of(word, ["-q", "--quiet"]) {
            found.is_quiet = true;
        } else if is_one_of(word, ["-o", "--output"]) {
            let file = rest.next().filter(|file| !file.is_empty());
            found.outputs.push(file.ok_or(format!("behind {shown} a file is missing"))?);
        } else if let Some(file) = word.as_bytes().strip_prefix(b"--output=").filter(|file| !file.is_empty()) {
            found.outputs.push(OsStr::from_bytes(file));
        } else if shown.starts_with('-') && word != "-" {
            return Err(format!("there is no option '{shown}' (a file of that name is './{shown}')"));
        } else {
            found.operands.push(word);
        }
    }
    Ok(found)
}

fn operands(form: &Form, words: &[&OsStr]) -> Result<(Vec<Place>, Option<usize>), String> {
    let named = || form.operands.iter().zip(words);
    let files = || named().filter(|(name, _)| **name != NODE).map(|(name, word)| (*name, Place::of(word)));
    let on_standard: Vec<&str> =
        files().filter(|(_, place)| place.descriptor(INPUT) == Some(INPUT)).map(|(name, _)| name).collect();
    if let [first, second, ..] = on_standard[..] {
        return Err(format!("standard input is to be {first} and {second}, and is one file"));
    }
    let node = named().find(|(name, _)| **name == NODE).map(|(_, word)| node_number(&word.to_string_lossy()));
    Ok((files().map(|(_, place)| place).collect(), node.transpose()?))
}

fn node_number(word: &str) -> Result<usize, String> {
    let is_number = word.bytes().all(|byte| byte.is_ascii_digit());
    let number = is_number.then(|| word.parse().ok()).flatten();
    number.ok_or(format!("'{word}' is no node's number"))
}

fn is_one_of<const N: usize>(word: &OsStr, words: [&str; N]) -> bool {
    words.iter().any(|one| word == *one)
}

fn usage(form: &Form) -> String {
    let quiet = if form.tells_more() { " [-q]" } else { "" };
    format!("usage: noontrough {} {} [-o FILE]{quiet}", form.name, form.operands.join(" "))
}

fn usage_of_all() -> String {
    let names: Vec<&str> = FORMS.iter().map(|form| form.name).collect();
    format!("usage: noontrough {} ...\n       noontrough --help", names.join("|"))
}

fn help_of(form: &Form) -> String {
    let brief = sentence_case(form.brief);
    let quiet = if form.tells_more() { format!("\n{QUIET}") } else { String::new() };
    format!("{}\n{brief}.\n\n{}\n\n{}\n\n{OPTIONS}{quiet}\n\n{STATUS}\n", usage(form), form.help, form.files())
}

fn help_of_all() -> String {
    let lines: Vec<String> = FORMS
        .iter()
        .map(|form| format!("  {:32}{}", format!("{} {}", form.name, form.operands.join(" ")), form.brief))
        .collect();
    format!(
        "usage: noontrough COMMAND ... [-o FILE]\nSheets from kerning sources, and edited sheets back into sources.\n\n{}\n\n\
         'noontrough COMMAND --help' tells more of a command.\n\n{FILES}\n\n{OPTIONS}\n{QUIET}\n{VERSION}\n\n{STATUS}\n",
        lines.join("\n")
    )
}

fn sentence_case(words: &str) -> String {
    let mut letters = words.chars();
    letters.next().map_or_else(String::new, |first| first.to_uppercase().chain(letters).collect())
}
