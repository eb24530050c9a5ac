//! `noontrough afm import` and `afm export`: what they write, and what they tell of a
//! line that is not of its form. Expected results and places are from document 02's
//! request (v) and the readings of its open points.

mod common;

use common::*;

const FORM: &str = "The line of this number is not of its form: see what lines a section and a sheet have, and end each with a newline.";
const COUNT: &str =
    "The count behind StartKernPairs is not the number of KPX lines: correct it, or look for lines that are missing.";

/// A text that is refused with 18: the line, and all that is told of it.
fn not_of_its_form(way: &str, text: impl AsRef<[u8]>, line: usize, told: &str) {
    let folder = Folder::new();
    folder.write("text", text.as_ref());
    let done = folder.sh(&format!("noontrough afm {way} text"));
    let wanted = format!("noontrough: refused 18 {line}: {FORM}\ntext: line {line}: {told}\n");
    assert_eq!((done.status, done.stdout, done.stderr), (1, String::new(), wanted));
}

/// A wrong line among right ones, in a section: shown in quotes with no escapes.
fn no_pair(line: &str, why: &str) {
    let text = format!("StartKernPairs 2\nKPX A V -80\n{line}\nEndKernPairs\n");
    not_of_its_form("import", text, 3, &format!("\"{line}\": {why}"));
}

/// In a sheet.
fn no_line(line: &str, why: &str) {
    not_of_its_form("export", format!("A;V;-80\n{line}\nV;A;-80\n"), 2, &format!("\"{line}\": {why}"));
}

#[test]
fn the_example() {
    let folder = Folder::of_example("afm");
    let text = |name: &str| String::from_utf8(folder.read(name)).expect("the example is ASCII");
    folder.gives("noontrough afm import section", &text("sheet"));
    folder.gives("noontrough afm export edited", &text("result"));
    folder.gives("noontrough afm import - < result", &text("edited"));
    folder.gives(
        "noontrough afm import section -o new && noontrough afm export new --output=back && cat new",
        &text("sheet"),
    );
    // Every pair in its order, and one space where there were more.
    folder.gives("tr -s ' ' < section | cmp - back", "");
    folder.gives("cat edited | noontrough afm export - | noontrough afm import /dev/stdin -o - | cmp - edited", "");
    folder.gives("noontrough afm export -- sheet | cmp - back", "");
}

#[test]
fn an_empty_sheet() {
    let folder = Folder::new();
    folder.gives("noontrough afm export /dev/null", "StartKernPairs 0\nEndKernPairs\n");
    folder.gives("noontrough afm export - < /dev/null | noontrough afm import -", "");
}

#[test]
fn first_lines() {
    let first = |line: &str, why: &str| {
        not_of_its_form("import", format!("{line}\nEndKernPairs\n"), 1, &format!("\"{line}\": {why}"));
    };
    let begins =
        "a section begins with StartKernPairs and its count: cut it out of its file, from there to EndKernPairs";
    for line in
        ["StartFontMetrics 4.1", "StartKernData", "StartKernPairs0 0", "startkernpairs 0", "KPX A V -80", "", "0"]
    {
        first(line, begins);
    }
    let alone = "behind StartKernPairs stands the count, and nothing else";
    first("StartKernPairs", alone);
    first("StartKernPairs 1 1", alone);
    for (count, why) in [
        ("65536", "lies outside"),
        ("-1", "lies outside"),
        ("99999999999999999999", "lies outside"),
        ("-0", "is minus nought"),
        ("+1", "has a plus sign"),
        ("00", "has leading zeros"),
        ("1.0", "is no whole number"),
        ("x", "is no whole number"),
    ] {
        let why = format!("a count is a whole number from 0 to 65535, and \"{count}\" {why}");
        first(&format!("StartKernPairs {count}"), &why);
    }
    first(" StartKernPairs 0", "no space stands at the beginning of a line");
    first("StartKernPairs 0 ", "no space stands at the end of a line");
    not_of_its_form(
        "import",
        "\u{feff}StartKernPairs 0\nEndKernPairs\n",
        1,
        "\"\\xEF\\xBB\\xBFStartKernPairs 0\": the file begins with a byte order mark: save it without one",
    );
}

#[test]
fn pairs() {
    no_pair("", "no line is empty");
    no_pair(" ", "no space stands at the beginning of a line");
    no_pair(" KPX T o 5", "no space stands at the beginning of a line");
    no_pair("KPX T o 5 ", "no space stands at the end of a line");
    let words = |count: &str| format!("behind KPX stand two names and a value: 3 words, and not {count}");
    no_pair("KPX", &words("0"));
    no_pair("KPX T 5", &words("2"));
    no_pair("KPX T  o   5 6", &words("4"));
    for line in ["KP T o 5 0", "KPH <54> <6f> 5", "KPY T o 5", "KPXT o 5"] {
        no_pair(line, "of pairs only those with KPX are read");
    }
    for line in ["Comment T o", "StartKernPairs 2", "kpx T o 5", "T;o;5", "\u{7e}"] {
        no_pair(line, "a line is KPX with two names and a value, or EndKernPairs");
    }
    for line in ["EndKernPairs x", "EndKernPairsx", "EndKernPairs;"] {
        no_pair(line, "EndKernPairs stands alone in its line");
    }
}

#[test]
fn blanks_that_are_no_spaces() {
    let section = |line: &str| format!("StartKernPairs 1\n{line}\nEndKernPairs\n");
    let has =
        |shown: &str, byte: &str| format!("\"{shown}\": tabs and carriage returns are no spaces, and it has '{byte}'");
    not_of_its_form("import", section("KPX\tT o 5"), 2, &has("KPX\\tT o 5", "\\t"));
    not_of_its_form("import", section("KPX T\ro 5"), 2, &has("KPX T\\ro 5", "\\r"));
    not_of_its_form("import", section("EndKernPairs\t"), 2, &has("EndKernPairs\\t", "\\t"));
    let ends = "it ends in a carriage return, which is no space: save the file with LF";
    not_of_its_form(
        "import",
        section("KPX T o 5").replace('\n', "\r\n"),
        1,
        &format!("\"StartKernPairs 1\\r\": {ends}"),
    );
    not_of_its_form("import", section("KPX T o 5\r"), 2, &format!("\"KPX T o 5\\r\": {ends}"));
    not_of_its_form("export", "T;o;5\r\n", 1, &format!("\"T;o;5\\r\": {ends}"));
}

#[test]
fn names() {
    let name = "a name has 1 to 63 bytes from 0x21 to 0x7E without ';', and the";
    no_pair("KPX T;h o 5", &format!("{name} left one has ';'"));
    no_pair("KPX T o;h 5", &format!("{name} right one has ';'"));
    no_line(";o;5", &format!("{name} left one is empty"));
    no_line("T;;5", &format!("{name} right one is empty"));
    let section = |line: &[u8]| [b"StartKernPairs 1\n", line, b"\nEndKernPairs\n"].concat();
    not_of_its_form("import", section(b"KPX \xC4 o 5"), 2, &format!("\"KPX \\xC4 o 5\": {name} left one has '\\xC4'"));
    not_of_its_form("import", section(b"KPX T \x7F 5"), 2, &format!("\"KPX T \\x7F 5\": {name} right one has '\\x7F'"));
    not_of_its_form("export", b"T;\x00;5\n", 1, &format!("\"T;\\x00;5\": {name} right one has '\\x00'"));
    not_of_its_form("export", b"T;o\t;5\n", 1, &format!("\"T;o\\t;5\": {name} right one has '\\t'"));

    let folder = Folder::new();
    let longest = "n".repeat(63);
    folder.write("text", format!("{longest};{longest};5\n"));
    folder.gives("noontrough afm export text | tail -n 2", &format!("KPX {longest} {longest} 5\nEndKernPairs\n"));
    // A long line is shown by its beginning and its end.
    let shown = format!("\"n{}\"...\"{}o;5\" (68 bytes)", "n".repeat(39), "n".repeat(12) + ";");
    not_of_its_form("export", format!("n{longest};o;5\n"), 1, &format!("{shown}: {name} left one has 64"));
}

#[test]
fn values() {
    for (value, why) in [
        ("32768", "lies outside"),
        ("-32769", "lies outside"),
        ("100000000000000000000", "lies outside"),
        ("-0", "is minus nought"),
        ("+1", "has a plus sign"),
        ("007", "has leading zeros"),
        ("-01", "has leading zeros"),
        ("-00", "has leading zeros"),
        ("-", "is no whole number"),
        ("1.5", "is no whole number"),
        ("--1", "is no whole number"),
        ("x", "is no whole number"),
    ] {
        let why = format!("a value is a whole number from -32768 to 32767, and \"{value}\" {why}");
        no_pair(&format!("KPX T o {value}"), &why);
        no_line(&format!("T;o;{value}"), &why);
    }
    no_line("T;o;", "a value is a whole number from -32768 to 32767, and \"\" is no whole number");
    let (first, last) = ("1".repeat(36), "1".repeat(16));
    let ones = format!("\"1111{first}\"...\"{last}\" (65,000 bytes)");
    not_of_its_form(
        "export",
        format!("T;o;{}\n", "1".repeat(65_000)),
        1,
        &format!(
            "\"T;o;{first}\"...\"{last}\" (65,004 bytes): a value is a whole number from -32768 to 32767, and {ones} lies outside"
        ),
    );
}

#[test]
fn lines_of_a_sheet() {
    no_line("", "no line is empty");
    for line in [" T;o;5", "T; o;5", "T;o;5 ", "T o 5"] {
        no_line(line, "no space stands in a line of a sheet");
    }
    for (line, count) in [("T", 1), ("T;o", 2), ("T;o;5;", 4), ("T;o;5;6;7", 5)] {
        no_line(line, &format!("a line is left;right;value: 3 parts, and not {count}"));
    }
}

#[test]
fn lines_that_are_missing_or_too_many() {
    not_of_its_form("import", "", 1, "the text is empty; a section begins with StartKernPairs and its count");
    not_of_its_form("import", "StartKernPairs 0\n", 2, "the text ends here; the line EndKernPairs is missing");
    let unfinished = "StartKernPairs 2\nKPX A V -80\nKPX V A -80\n";
    not_of_its_form("import", unfinished, 4, "the text ends here; the line EndKernPairs is missing");
    for (behind, shown) in
        [("\n", ""), ("KPX A V 1\n", "KPX A V 1"), ("EndKernPairs\n", "EndKernPairs"), ("EndKernData\n", "EndKernData")]
    {
        let text = format!("StartKernPairs 1\nKPX A V -80\nEndKernPairs\n{behind}");
        not_of_its_form("import", text, 4, &format!("\"{shown}\": nothing stands behind EndKernPairs"));
    }
}

#[test]
fn newlines_that_are_missing() {
    let missing = "the newline at its end is missing";
    not_of_its_form("import", "StartKernPairs 0\nEndKernPairs", 2, &format!("\"EndKernPairs\": {missing}"));
    not_of_its_form("import", "StartKernPairs 0", 1, &format!("\"StartKernPairs 0\": {missing}"));
    not_of_its_form("import", "StartKernPairs 1\nKPX A V -8", 2, &format!("\"KPX A V -8\": {missing}"));
    let torn = "\"KPX A\": behind KPX stand two names and a value: 3 words, and not 1";
    not_of_its_form("import", "StartKernPairs 1\nKPX A", 2, &format!("{torn}; {missing}"));
    not_of_its_form("export", "A;V;-80\nV;A;-80", 2, &format!("\"V;A;-80\": {missing}"));
    let torn = "\"V;A\": a line is left;right;value: 3 parts, and not 2";
    not_of_its_form("export", "A;V;-80\nV;A", 2, &format!("{torn}; {missing}"));
    let behind = "\"x\": nothing stands behind EndKernPairs";
    not_of_its_form("import", "StartKernPairs 0\nEndKernPairs\nx", 3, &format!("{behind}; {missing}"));
}

#[test]
fn the_wrong_one_of_the_two_commands() {
    let folder = Folder::of_example("afm");
    folder.fails(
        "noontrough afm export section",
        1,
        &[
            "refused 18 1: ",
            "\nsection: line 1: \"StartKernPairs   10\": this is a line of a section, and 'afm import' takes sections\n",
        ],
    );
    folder.fails(
        "noontrough afm import sheet",
        1,
        &["refused 18 1: ", "\nsheet: line 1: \"A;V;-80\": this is a line of a sheet, and 'afm export' takes sheets\n"],
    );
}

#[test]
fn counts() {
    let folder = Folder::new();
    let pair = "KPX A V -80\n";
    for (count, pairs, told) in [
        (3, 2, "the count says 3, and there are 2 pairs"),
        (1, 2, "the count says 1, and there are 2 pairs"),
        (65_535, 1, "the count says 65535, and there is 1 pair"),
        (1, 0, "the count says 1, and there are 0 pairs"),
    ] {
        folder.write("text", format!("StartKernPairs  {count}\n{}EndKernPairs\n", pair.repeat(pairs)));
        let done = folder.sh("noontrough afm import text -o out");
        let wanted = format!("noontrough: refused 19 0: {COUNT}\ntext: {told}\n");
        assert_eq!((done.status, done.stdout, done.stderr), (1, String::new(), wanted));
    }
    assert_eq!(folder.names(), ["text"]);
    // Another wrong line comes first.
    not_of_its_form("import", format!("StartKernPairs 3\n{pair}\n"), 3, "\"\": no line is empty");
}

#[test]
fn long_texts() {
    let folder = Folder::new();
    let most = b"A;V;1\n".repeat(6550);
    folder.write("most", &most);
    folder.gives("noontrough afm export most | noontrough afm import - | cmp - most", "");
    folder.write("more", [&most[..], b"A;V;1\n"].concat());
    folder.fails(
        "noontrough afm export more",
        1,
        &["noontrough: refused 16 0: The result would be longer than 65,535 bytes: divide the sheet between two lines, and export each part.\nthe result would have 65,543 bytes\n"],
    );
    let long = "noontrough: refused 12 0: The section or the sheet is longer than 65,535 bytes: divide it between two lines, and give each section its own count.\ntext: ";
    for way in ["import", "export"] {
        folder.write("text", [b'x'; 65_536]);
        folder.fails(&format!("noontrough afm {way} text"), 1, &[&format!("{long}65,536 bytes\n")]);
        folder.write("text", vec![b'x'; (1 << 20) + 2]);
        folder.fails(&format!("noontrough afm {way} text"), 1, &[&format!("{long}over 1,048,576 bytes\n")]);
        folder.write("text", [b'x'; 65_535]);
        folder.fails(&format!("noontrough afm {way} text"), 1, &["refused 18 1: "]);
    }
}

/// As for every other command.
#[test]
fn files_and_usage() {
    let folder = Folder::of_example("afm");
    let before = folder.names();
    folder.fails(
        "noontrough afm import section -o section",
        2,
        &["the result would replace section, which it is made from"],
    );
    folder.fails("noontrough afm export - -o sheet < sheet", 2, &["the result would replace "]);
    folder.fails(
        "noontrough afm export sheet >> sheet",
        2,
        &["the output goes into sheet, which the result is made from"],
    );
    folder.fails("noontrough afm import no-such-file", 2, &["noontrough: no-such-file can't be read: No such file"]);
    folder.fails("noontrough afm import section > /dev/full", 2, &["standard output can't be written: No space left"]);
    folder.fails("noontrough afm import sheet -o new", 1, &["refused 18 1"]);
    for (line, said) in [
        ("noontrough afm", "noontrough: behind 'afm' import or export is missing\nusage: noontrough check|"),
        ("noontrough afm section", "noontrough: behind 'afm' stands import or export, and not 'section'\nusage:"),
        ("noontrough import section", "noontrough: there is no command 'import'\nusage:"),
        (
            "noontrough afm import",
            "noontrough afm import: SECTION is missing\nusage: noontrough afm import SECTION [-o FILE]\n",
        ),
        (
            "noontrough afm export",
            "noontrough afm export: SHEET is missing\nusage: noontrough afm export SHEET [-o FILE]\n",
        ),
        ("noontrough afm import section sheet", "noontrough afm import: 'sheet' is one argument too many"),
        ("noontrough afm import section -q", "noontrough afm import: there is no option '-q'"),
        ("noontrough help afm import section", "noontrough: 'section' is one argument too many"),
        ("noontrough help afm section", "noontrough: behind 'afm' stands import or export, and not 'section'"),
        ("noontrough help get section", "noontrough: 'section' is one argument too many"),
    ] {
        folder.fails(line, 2, &[said]);
    }
    assert_eq!(folder.names(), before);
}

#[test]
fn help() {
    let folder = Folder::new();
    let all = folder.sh("noontrough --help").stdout;
    let mut pages = Vec::new();
    for (way, operand) in [("import", "SECTION"), ("export", "SHEET")] {
        assert!(all.contains(&format!("\n  afm {way} {operand}")), "{all}");
        let page = folder.sh(&format!("noontrough afm {way} --help"));
        assert!(
            page.stdout.starts_with(&format!("usage: noontrough afm {way} {operand} [-o FILE]\n")),
            "{}",
            page.stdout
        );
        for said in ["65,535 bytes", "1 to 63 bytes from 0x21 to 0x7E", "-32768 to 32767", "Exit status: 0 a result"] {
            assert!(page.stdout.contains(said), "{}", page.stdout);
        }
        assert!(!page.stdout.contains("PROGRAM") && !page.stdout.contains("--quiet"), "{}", page.stdout);
        assert_eq!((page.status, page.stderr.as_str()), (0, ""));
        folder.gives(&format!("noontrough help afm {way}"), &page.stdout);
        pages.push(page.stdout);
    }
    for both in ["noontrough afm --help", "noontrough afm -h", "noontrough help afm"] {
        folder.gives(both, &pages.join("\n"));
    }
}

/// Texts that are a little wrong: whatever the engine turns down, a reason is told for.
#[test]
fn a_reason_for_every_wrong_line() {
    let folder = Folder::new();
    let section = b"StartKernPairs 2\nKPX A V -80\nKPX T o 0\nEndKernPairs\n";
    let sheet = b"A;V;-80\nT;o;0\n";
    let bytes = b" \t\r\n;-+0A\x00\x7F\xFF";
    let mut refused = 0;
    for (way, text) in [("import", &section[..]), ("export", sheet)] {
        for place in 0..=text.len() {
            // A byte more, or another one in this place, and the byte left out.
            let byte = [bytes[place % bytes.len()]];
            let behind = &text[(place + 1).min(text.len())..];
            for wrong in [
                [&text[..place], &byte, &text[place..]],
                [&text[..place], &byte, behind],
                [&text[..place], b"", behind],
            ] {
                folder.write("text", wrong.concat());
                let done = folder.sh(&format!("noontrough afm {way} text"));
                let shown = String::from_utf8_lossy(&wrong.concat()).into_owned();
                assert!(!done.stderr.contains("it is not of its form"), "{way} {shown:?}: {}", done.stderr);
                assert_eq!(done.status == 0, done.stderr.is_empty(), "{way} {shown:?}: {}", done.stderr);
                refused += usize::from(done.stderr.starts_with("noontrough: refused 18 "));
            }
        }
    }
    assert!(refused > 100, "{refused}");
}
