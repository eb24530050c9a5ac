//! Every program and every call of docs/GUIDE.md is run, so that the guide says
//! what happens.
//!
//! A block marked `lens` is a program's text, one marked `table` a table's bytes
//! as numbers. The `calls` block behind it has a call a line:
//!
//! ```text
//! check                              ok 15
//! check                              refused 7 4 in both
//! get "AB1;"                         gives "AB;"
//! put "C;" on 2 times "C1;"          gives "C1;"
//! put "C;" on "C1;D2;"               gives "C1;"     kept 1 made 0 dropped 1
//! create "AB;" into 2                refused 16 0
//! clash                              shows "abcd" cut at 1 and 2
//! clash                              shows "M" of first and second
//! clash                              shows none
//! clash into 3                       refused 17 0
//! import "StartKernPairs 0\nx\n"      refused 18 2
//! export ""                          gives "StartKernPairs 0\nEndKernPairs\n"
//! ```
//!
//! `in both` says which line of the text made the node, `of first and second` which
//! lines made the arms. `into 2` lends a buffer of 2 bytes; otherwise it is 4,096
//! bytes long, for a clash 16,512, and for import and export, which need no program,
//! 65,535. A put's tally may be said or not. A line that ends in a backslash goes on
//! in the next. Each call is made on the linked engine and on the reference, and both
//! must do what the line says.
//!
//! A block marked `console k` is run in a copy of the folder examples/k: each line
//! behind `$ ` is a command, and below it stands all that it writes, standard
//! output first and then standard error.

mod common;
#[allow(dead_code)] // Other tests run on a thread of its making.
#[path = "../../tests/common/mod.rs"]
mod linked;

use std::collections::BTreeSet;

use common::*;
use linked::Engine;
use noontrough::{afm, Answer, MAX_CLASH};
use noontrough_assembler::line::{quote_text, tokens, Token};
use noontrough_assembler::{assemble, Origin};
use noontrough_reference::afm::{AfmCalls, Answer as AfmAnswer, Refusal as AfmRefusal};
use noontrough_reference::answer::UNION_OVERLAPS;
use noontrough_reference::{Calls, Reference, Refusal, Shown, Tally};

const BUFFER: usize = 4096;

/// What makes the calls of a line.
trait AllCalls: Calls + AfmCalls {}

impl AllCalls for Engine {}
impl AllCalls for Reference {}

impl AfmCalls for Engine {
    fn import(&self, section: &[u8], out: &mut [u8]) -> AfmAnswer {
        as_reference(afm::import_into(section, out))
    }

    fn export(&self, sheet: &[u8], out: &mut [u8]) -> AfmAnswer {
        as_reference(afm::export_into(sheet, out))
    }
}

fn as_reference(answer: Answer) -> AfmAnswer {
    match answer {
        Answer::Result { length } => Ok(length),
        Answer::Refusal { number, node } => Err(AfmRefusal { number: number as u8, node: node as usize }),
    }
}

struct Block {
    /// The line in the guide where it begins.
    line: usize,
    language: String,
    text: String,
    /// The number in the heading above, as in `### 7. A join …`.
    heading: Option<u8>,
}

fn page(name: &str) -> String {
    String::from_utf8(read(&in_repository(name))).expect("the page is UTF-8")
}

fn blocks(guide: &str) -> Vec<Block> {
    let mut found: Vec<Block> = Vec::new();
    let mut heading = None;
    let mut open = false;
    for (index, line) in guide.lines().enumerate() {
        if let Some(language) = line.strip_prefix("```") {
            open = !open;
            if open {
                let language = language.to_string();
                found.push(Block { line: index + 1, language, text: String::new(), heading });
            }
        } else if open {
            let text = &mut found.last_mut().expect("a block is open").text;
            *text += line;
            text.push('\n');
        } else if line.starts_with('#') {
            heading = line.trim_start_matches('#').trim().split('.').next().and_then(|number| number.parse().ok());
        }
    }
    assert!(!open, "the last block is not closed");
    found
}

/// A program of the guide; a table given in bytes has no origins.
struct Subject {
    table: Vec<u8>,
    origins: Vec<Origin>,
}

/// What a line says of a call, or what came of it.
#[derive(Debug, PartialEq, Eq)]
enum Saying {
    Ok(usize),
    /// With a tally if it is a put's; a line need not say it.
    Gives(Vec<u8>, Option<Tally>),
    /// A clash's text, and the two ways to read it in the words of a line.
    Shows(Vec<u8>, String),
    ShowsNone,
    Refused(Refusal),
}

impl Saying {
    /// Whether it is what happened, as far as it says.
    fn holds(&self, happened: &Saying) -> bool {
        match (self, happened) {
            (Saying::Gives(text, None), Saying::Gives(given, _)) => text == given,
            _ => self == happened,
        }
    }
}

/// Reads a line's tokens from left to right.
struct Reader<'a> {
    rest: &'a [Token],
}

impl Reader<'_> {
    fn word(&mut self, wanted: &str) -> bool {
        match self.rest {
            [Token::Name(word), rest @ ..] if word == wanted => {
                self.rest = rest;
                true
            }
            _ => false,
        }
    }

    fn number(&mut self) -> usize {
        match self.rest {
            [Token::Number(number), rest @ ..] => {
                self.rest = rest;
                *number
            }
            other => panic!("a number is wanted: {other:?}"),
        }
    }

    /// A text in quotes, or `3 times` and one.
    fn text(&mut self) -> Vec<u8> {
        let times = match self.rest {
            [Token::Number(_), ..] => {
                let times = self.number();
                assert!(self.word("times"), "'times' is wanted: {:?}", self.rest);
                times
            }
            _ => 1,
        };
        match self.rest {
            [Token::Text(text), rest @ ..] => {
                self.rest = rest;
                text.repeat(times)
            }
            other => panic!("a text is wanted: {other:?}"),
        }
    }

    /// `kept 1 made 1 dropped 1`, if it is there.
    fn tally(&mut self) -> Option<Tally> {
        let mut count = |name: &str| self.word(name).then(|| self.number());
        Some(Tally { kept: count("kept")?, made: count("made")?, dropped: count("dropped")? })
    }

    /// `cut at 1 and 2` or `of first and second`: the rest of the line.
    fn ways(&mut self) -> String {
        let words = self.rest.iter().map(|token| match token {
            Token::Name(word) => word.clone(),
            Token::Number(number) => number.to_string(),
            other => panic!("a word or a number is wanted: {other:?}"),
        });
        let words: Vec<String> = words.collect();
        self.rest = &[];
        words.join(" ")
    }

    fn lent(&mut self, usual: usize) -> usize {
        if self.word("into") {
            self.number()
        } else {
            usual
        }
    }
}

/// A call of a line, with its texts and the length of the lent buffer.
enum Wanted {
    Check,
    Get(Vec<u8>, usize),
    Put(Vec<u8>, Vec<u8>, usize),
    Create(Vec<u8>, usize),
    Clash(usize),
    Import(Vec<u8>, usize),
    Export(Vec<u8>, usize),
}

/// The call at the start of a line.
fn wanted(reader: &mut Reader) -> Wanted {
    if reader.word("check") {
        Wanted::Check
    } else if reader.word("get") {
        Wanted::Get(reader.text(), reader.lent(BUFFER))
    } else if reader.word("put") {
        let sheet = reader.text();
        assert!(reader.word("on"), "'on' is wanted: {:?}", reader.rest);
        Wanted::Put(sheet, reader.text(), reader.lent(BUFFER))
    } else if reader.word("create") {
        Wanted::Create(reader.text(), reader.lent(BUFFER))
    } else if reader.word("clash") {
        Wanted::Clash(reader.lent(MAX_CLASH))
    } else if reader.word("import") {
        Wanted::Import(reader.text(), reader.lent(afm::MAX_TEXT))
    } else if reader.word("export") {
        Wanted::Export(reader.text(), reader.lent(afm::MAX_TEXT))
    } else {
        panic!("a call is wanted: {:?}", reader.rest)
    }
}

/// What comes of a call, which both must agree on.
fn outcome_by_both(subject: &Subject, wanted: &Wanted) -> Saying {
    let happened = outcome(&Engine, subject, wanted);
    assert_eq!(happened, outcome(&Reference, subject, wanted), "by the reference");
    happened
}

fn outcome(calls: &dyn AllCalls, subject: &Subject, wanted: &Wanted) -> Saying {
    let table = &subject.table;
    let mut out = vec![b'?'; afm::MAX_TEXT];
    let answer = match wanted {
        Wanted::Check => return calls.check(table).map_or_else(Saying::Refused, Saying::Ok),
        Wanted::Get(source, lent) => calls.get(table, source, &mut out[..*lent]).map(|length| (length, None)),
        Wanted::Put(sheet, source, lent) => {
            calls.put(table, sheet, source, &mut out[..*lent]).map(|put| (put.length, Some(put.tally)))
        }
        Wanted::Create(sheet, lent) => calls.create(table, sheet, &mut out[..*lent]).map(|length| (length, None)),
        Wanted::Clash(lent) => return clash_outcome(calls, subject, &mut out[..*lent]),
        Wanted::Import(section, lent) => without_program(calls.import(section, &mut out[..*lent])),
        Wanted::Export(sheet, lent) => without_program(calls.export(sheet, &mut out[..*lent])),
    };
    answer.map_or_else(Saying::Refused, |(length, tally)| Saying::Gives(out[..length].to_vec(), tally))
}

fn without_program(answer: AfmAnswer) -> Result<(usize, Option<Tally>), Refusal> {
    let line = |node: usize| u8::try_from(node).expect("the texts of the guide have few lines");
    let refusal = |AfmRefusal { number, node }| Refusal { number, node: line(node) };
    answer.map(|length| (length, None)).map_err(refusal)
}

fn clash_outcome(calls: &dyn AllCalls, subject: &Subject, out: &mut [u8]) -> Saying {
    match calls.clash(&subject.table, out) {
        Ok(None) => Saying::ShowsNone,
        Ok(Some(Shown { rule, length, numbers: [a, b] })) => {
            let name = |node: usize| &subject.origins[node].name;
            let ways = match rule.number {
                UNION_OVERLAPS => format!("of {} and {}", name(a), name(b)),
                _ => format!("cut at {a} and {b}"),
            };
            Saying::Shows(out[..length].to_vec(), ways)
        }
        Err(refusal) => Saying::Refused(refusal),
    }
}

/// What the rest of a line says; a refusal of a node must name its line.
fn saying(reader: &mut Reader, subject: &Subject) -> Result<Saying, String> {
    let said = if reader.word("ok") {
        Saying::Ok(reader.number())
    } else if reader.word("gives") {
        Saying::Gives(reader.text(), reader.tally())
    } else if reader.word("shows") {
        if reader.word("none") {
            Saying::ShowsNone
        } else {
            Saying::Shows(reader.text(), reader.ways())
        }
    } else if reader.word("refused") {
        let refusal = Refusal { number: reader.number() as u8, node: reader.number() as u8 };
        let name = match reader.rest {
            [Token::Name(word), Token::Name(name)] if word == "in" => Some(name.as_str()),
            _ => None,
        };
        let wanted =
            (2..=11).contains(&refusal.number).then(|| subject.origins[usize::from(refusal.node)].name.as_str());
        if name != wanted {
            return Err(format!("node {} is of line {wanted:?}, not {name:?}", refusal.node));
        }
        reader.rest = &[];
        Saying::Refused(refusal)
    } else {
        return Err(format!("ok, gives, shows or refused is wanted: {:?}", reader.rest));
    };
    if reader.rest.is_empty() {
        Ok(said)
    } else {
        Err(format!("too much in this line: {:?}", reader.rest))
    }
}

fn told(saying: &Saying) -> String {
    match saying {
        Saying::Ok(count) => format!("ok {count}"),
        Saying::Gives(text, None) => format!("gives {}", quote_text(text)),
        Saying::Gives(text, Some(Tally { kept, made, dropped })) => {
            format!("gives {} kept {kept} made {made} dropped {dropped}", quote_text(text))
        }
        Saying::Shows(text, ways) => format!("shows {} {ways}", quote_text(text)),
        Saying::ShowsNone => "shows none".to_string(),
        Saying::Refused(refusal) => format!("refused {} {}", refusal.number, refusal.node),
    }
}

/// What came of the calls of the guide so far.
#[derive(Default)]
struct Run {
    count: usize,
    faults: Vec<String>,
    /// The refusals that were shown under a heading with their number.
    shown: BTreeSet<u8>,
}

impl Run {
    fn call(&mut self, block: &Block, subject: &Subject, call: &str) {
        let tokens = tokens(call.as_bytes()).unwrap_or_else(|error| panic!("{call}: {error}"));
        if tokens.is_empty() {
            return;
        }
        self.count += 1;
        let mut reader = Reader { rest: &tokens };
        let wanted = wanted(&mut reader);
        let happened = outcome_by_both(subject, &wanted);
        if let (Saying::Refused(refusal), Some(heading)) = (&happened, block.heading) {
            self.shown.extend((refusal.number == heading).then_some(heading));
        }
        let wrong = match saying(&mut reader, subject) {
            Ok(said) if said.holds(&happened) => return,
            Ok(_) => "but".to_string(),
            Err(error) => format!("{error};"),
        };
        self.faults.push(format!("behind line {}: {call}\n    {wrong} it {}", block.line, told(&happened)));
    }
}

#[test]
fn programs_and_calls() {
    let mut run = Run::default();
    let mut subject: Option<Subject> = None;
    let mut waiting = false;
    for block in blocks(&page("docs/GUIDE.md")) {
        match block.language.as_str() {
            "lens" | "table" => {
                assert!(!waiting, "line {}: the program before has no calls", block.line);
                waiting = true;
                subject = Some(read_program(&block));
            }
            "calls" => {
                waiting = false;
                let subject = subject.as_ref().expect("a program stands above the calls");
                block.text.replace("\\\n", " ").lines().for_each(|call| run.call(&block, subject, call));
            }
            console if console.starts_with("console ") => (),
            other => panic!("line {}: a block marked '{other}' is not run", block.line),
        }
    }
    assert!(!waiting, "the last program has no calls");
    assert!(run.faults.is_empty(), "\n{}", run.faults.join("\n"));
    assert_eq!(run.shown, (1..=19).collect(), "every refusal is shown under its own heading");
    println!("{} calls", run.count);
}

fn read_program(block: &Block) -> Subject {
    if block.language == "table" {
        let table = block.text.split_whitespace().map(|byte| byte.parse().expect("a byte as a number")).collect();
        return Subject { table, origins: Vec::new() };
    }
    match assemble(block.text.as_bytes()) {
        Ok(assembled) => Subject { table: assembled.table, origins: assembled.origins },
        Err(mistake) => panic!("the program behind line {}: {mistake}", block.line),
    }
}

/// What a command writes, as the guide prints it.
fn printed(folder: &Folder, command: &str) -> String {
    let done = folder.sh(command);
    let mut both = done.stdout;
    if !both.is_empty() && !both.ends_with('\n') {
        both.push('\n');
    }
    both + &done.stderr
}

/// Runs the commands of a block one after the other in one folder.
fn run_console(block: &Block, example: &str) {
    let folder = Folder::of_example(example);
    let mut happened = String::new();
    for command in block.text.lines().filter_map(|line| line.strip_prefix("$ ")) {
        happened += &format!("$ {command}\n{}", printed(&folder, command));
    }
    assert_eq!(happened, block.text, "the block behind line {}", block.line);
}

fn console_blocks(page: &str) -> usize {
    let blocks = blocks(page);
    let consoles = blocks.iter().filter_map(|block| block.language.strip_prefix("console ").map(|name| (block, name)));
    consoles.map(|(block, example)| run_console(block, example)).count()
}

#[test]
fn commands() {
    assert!(console_blocks(&page("docs/GUIDE.md")) >= 5);
}
