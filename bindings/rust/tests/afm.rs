//! Adobe's metrics in and out, by the linked engine. What is expected is worked out by
//! hand from document 02's request (v) and the readings of its open points.

use noontrough::afm::{export, export_into, import, import_into, Refusal, MAX_TEXT};
use noontrough::Answer;

const UNTOUCHED: u8 = 0xAA;

/// The text stands in a buffer that is just long enough, and the bytes of a longer
/// one behind it are as they were.
fn gives(call: fn(&[u8], &mut [u8]) -> Answer, text: &[u8], result: &[u8]) {
    for spare in [0, 3] {
        let mut out = vec![UNTOUCHED; result.len() + spare];
        assert_eq!(call(text, &mut out), Answer::Result { length: result.len() }, "{}", shown(text));
        assert_eq!(out, [result, &vec![UNTOUCHED; spare]].concat(), "{}", shown(text));
    }
    if let Some(less) = result.len().checked_sub(1) {
        refuses(call, text, less, 16, 0);
    }
}

/// The buffer is as it was.
fn refuses(call: fn(&[u8], &mut [u8]) -> Answer, text: &[u8], lent: usize, number: u64, node: u64) {
    let mut out = vec![UNTOUCHED; lent];
    assert_eq!(call(text, &mut out), Answer::Refusal { number, node }, "{}", shown(text));
    assert_eq!(out, vec![UNTOUCHED; lent], "{}", shown(text));
}

fn shown(text: &[u8]) -> String {
    text.iter().take(200).flat_map(|&byte| std::ascii::escape_default(byte)).map(char::from).collect()
}

/// A section gives this sheet, and the sheet gives that section with every run of
/// spaces made one.
fn imports(section: &[u8], sheet: &[u8]) {
    gives(import_into, section, sheet);
    assert_eq!(import(section).as_deref(), Ok(sheet));
    let squeezed = squeezed(section);
    gives(export_into, sheet, &squeezed);
    assert_eq!(export(sheet), Ok(squeezed));
}

fn squeezed(section: &[u8]) -> Vec<u8> {
    let mut text = section.to_vec();
    text.dedup_by(|next, before| *next == b' ' && *before == b' ');
    text
}

/// No import, whatever is lent: 18 and 19 come before 16.
fn no_section(section: &[u8], number: u64, node: u64) {
    [0, MAX_TEXT].iter().for_each(|&lent| refuses(import_into, section, lent, number, node));
    assert_eq!(import(section), Err(Refusal { number, node }));
}

fn no_sheet(sheet: &[u8], number: u64, node: u64) {
    [0, MAX_TEXT].iter().for_each(|&lent| refuses(export_into, sheet, lent, number, node));
    assert_eq!(export(sheet), Err(Refusal { number, node }));
}

/// A section with these lines between its first and its last, and their number.
fn section_of(lines: &[&str]) -> Vec<u8> {
    let lines: String = lines.iter().map(|line| format!("{line}\n")).collect();
    format!("StartKernPairs {}\n{lines}EndKernPairs\n", lines.lines().count()).into_bytes()
}

/// The third line is the one in question: good ones stand before it and behind it.
fn no_pair(line: &str) {
    no_section(&section_of(&["KPX A V -80", line, "KPX V A -80"]), 18, 3);
}

/// In a sheet, the second line.
fn no_line(line: &str) {
    no_sheet(format!("A;V;-80\n{line}\nV;A;-80\n").as_bytes(), 18, 2);
}

#[test]
fn pairs_both_ways() {
    imports(b"StartKernPairs 2\nKPX A V -80\nKPX T comma -110\nEndKernPairs\n", b"A;V;-80\nT;comma;-110\n");
    imports(b"StartKernPairs   2\nKPX  A   V -80\nKPX T comma    -110\nEndKernPairs\n", b"A;V;-80\nT;comma;-110\n");
    // Twice, in this order, and with values that differ: nothing is put in order or left out.
    imports(
        b"StartKernPairs 4\nKPX V A 1\nKPX A V 2\nKPX V A 1\nKPX V A 3\nEndKernPairs\n",
        b"V;A;1\nA;V;2\nV;A;1\nV;A;3\n",
    );
    // Words of the form are names like any other.
    imports(b"StartKernPairs 1\nKPX KPX EndKernPairs 0\nEndKernPairs\n", b"KPX;EndKernPairs;0\n");
    imports(b"StartKernPairs 1\nKPX -1 0 7\nEndKernPairs\n", b"-1;0;7\n");
}

#[test]
fn no_pairs() {
    imports(b"StartKernPairs 0\nEndKernPairs\n", b"");
    assert_eq!(export(b"").map(|section| section.len()), Ok(30));
    let mut out = [UNTOUCHED; 29];
    assert_eq!(export_into(b"", &mut out), Answer::Refusal { number: 16, node: 0 });
    assert_eq!(out, [UNTOUCHED; 29]);
    // An empty result fits a buffer of no bytes.
    assert_eq!(import_into(b"StartKernPairs 0\nEndKernPairs\n", &mut []), Answer::Result { length: 0 });
}

#[test]
fn missing_lines() {
    no_section(b"", 18, 1);
    no_section(b"StartKernPairs 0\n", 18, 2);
    no_section(b"StartKernPairs 2\nKPX A V -80\nKPX V A -80\n", 18, 4);
    no_section(b"EndKernPairs\n", 18, 1);
    no_section(b"KPX A V -80\nEndKernPairs\n", 18, 1);
    no_section(b"StartKernPairs 1\nStartKernPairs 1\nKPX A V -80\nEndKernPairs\n", 18, 2);
}

#[test]
fn lines_behind_the_last() {
    for behind in ["\n", "KPX A V -80\n", "EndKernPairs\n", "StartKernPairs 0\n", "x", " ", "\0"] {
        no_section(format!("StartKernPairs 0\nEndKernPairs\n{behind}").as_bytes(), 18, 3);
        no_section(format!("StartKernPairs 1\nKPX A V -80\nEndKernPairs\n{behind}").as_bytes(), 18, 4);
    }
}

#[test]
fn a_newline_ends_every_line() {
    no_section(b"StartKernPairs 0", 18, 1);
    no_section(b"StartKernPairs 0\nEndKernPairs", 18, 2);
    no_section(b"StartKernPairs 1\nKPX A V -80", 18, 2);
    no_section(b"StartKernPairs 1\nKPX A V -80\nEndKernPairs", 18, 3);
    no_sheet(b"A;V;-80", 18, 1);
    no_sheet(b"A;V;-80\nV;A;-80", 18, 2);
    no_sheet(b"\n", 18, 1);
    no_sheet(b"A;V;-80\n\n", 18, 2);
}

/// Values that are written as a value is, from the least to the most, and others.
#[test]
fn values() {
    for value in ["0", "1", "-1", "9", "10", "-10", "100", "32767", "-32768", "32766", "-32767", "-9999", "10000"] {
        let section = format!("StartKernPairs 1\nKPX A V {value}\nEndKernPairs\n");
        imports(section.as_bytes(), format!("A;V;{value}\n").as_bytes());
    }
    let none = [
        "32768",
        "-32769",
        "65536",
        "-65536",
        "65535",
        "100000",
        "-0",
        "+1",
        "+0",
        "007",
        "00",
        "01",
        "-01",
        "--1",
        "-",
        "1.5",
        "1.0",
        "1e2",
        "0x1",
        "1,000",
        "1_000",
        "x",
        "-x",
        "1-",
        "18446744073709551616",
        "-18446744073709551617",
    ];
    for value in none {
        no_pair(&format!("KPX T o {value}"));
        no_line(&format!("T;o;{value}"));
    }
    no_line("T;o;");
}

/// Digits that no number could hold are counted first.
#[test]
fn a_value_of_65_000_digits() {
    for digit in ["1", "0", "9"] {
        let value = digit.repeat(65_000);
        no_section(&section_of(&["KPX A V 1", &format!("KPX A V {value}")]), 18, 3);
        no_section(&section_of(&[&format!("KPX A V -{value}")]), 18, 2);
        no_section(format!("StartKernPairs {value}\nEndKernPairs\n").as_bytes(), 18, 1);
        no_sheet(format!("A;V;1\nA;V;{value}\n").as_bytes(), 18, 2);
    }
}

#[test]
fn names() {
    let longest: String = (0x21..=0x7E).map(char::from).filter(|&letter| letter != ';').take(63).collect();
    let rest: String = (0x21..=0x7E).map(char::from).filter(|&letter| letter != ';').skip(63).collect();
    assert_eq!((longest.len(), rest.len(), &rest[29..]), (63, 30, "~"));
    for (left, right) in [(&longest, &rest), (&rest, &longest), (&longest, &longest)] {
        let section = format!("StartKernPairs 1\nKPX {left} {right} 5\nEndKernPairs\n");
        imports(section.as_bytes(), format!("{left};{right};5\n").as_bytes());
    }
    for name in [format!("{longest}~"), "A;B".to_string(), ";".to_string(), "A\x7F".to_string(), "\0".to_string()] {
        no_pair(&format!("KPX {name} o 5"));
        no_pair(&format!("KPX T {name} 5"));
        no_line(&format!("{name};o;5"));
        no_line(&format!("T;{name};5"));
    }
    for wrong in [";o;5", "T;;5", ";;5", ";;", "T;o", "T;o;5;", "T;o;5;6", ";T;o;5", "T o 5", "T"] {
        no_line(wrong);
    }
}

/// Every byte in a name, and in the place of a byte between names.
#[test]
fn bytes_of_every_value() {
    for byte in 0..=u8::MAX {
        let [section, sheet] = [&b"KPX A? o 5"[..], b"A?;o;5"].map(|line| {
            let with = line.iter().map(|&letter| if letter == b'?' { byte } else { letter });
            with.collect::<Vec<u8>>()
        });
        let section = [b"StartKernPairs 1\n", &section[..], b"\nEndKernPairs\n"].concat();
        let sheet = [&sheet[..], b"\n"].concat();
        match byte {
            // The name is then A alone, and two spaces stand behind it.
            b' ' => {
                gives(import_into, &section, b"A;o;5\n");
                no_sheet(&sheet, 18, 1);
            }
            0x21..=0x7E if byte != b';' => imports(&section, &sheet),
            _ => {
                no_section(&section, 18, 2);
                no_sheet(&sheet, 18, 1);
            }
        }
    }
}

#[test]
fn only_spaces_separate_words_and_only_there() {
    let pairs = [" KPX T o 5", "KPX T o 5 ", "KPX\tT o 5", "KPX T\to 5", "KPX T o\t5", "KPX T o 5\r", "KPX T o 5\t"];
    let others = ["KPX T o 5\x0B", " ", "EndKernPairs ", " EndKernPairs", "EndKernPairs\r"];
    pairs.into_iter().chain(others).for_each(no_pair);
    let lines = [" T;o;5", "T ;o;5", "T; o;5", "T;o; 5", "T;o;5 ", "T;o;5\r", "\tT;o;5", "T;o;5\t", " ", "KPX T o 5"];
    lines.into_iter().for_each(no_line);
}

#[test]
fn other_words() {
    let pairs =
        ["KPX T o", "KPX T 5", "KPX T o 5 6", "KPX", "KPXT o 5", "kpx T o 5", "KPY T o 5", "KP T o 5 0", "KPH T o 5"];
    let ends = ["EndKernPairs 1", "EndKernPair", "endkernpairs", "EndKernPairsX"];
    let others = ["", "Comment", "StartKernPairs 1", "KPX;T;o;5", "T;o;5"];
    pairs.into_iter().chain(ends).chain(others).for_each(no_pair);
    no_line("");
}

/// What stands behind `StartKernPairs`, with no pair.
fn no_first_line(line: &str) {
    no_section(format!("{line}\nEndKernPairs\n").as_bytes(), 18, 1);
    // Whatever is wrong later.
    no_section(format!("{line}\nKPX\n").as_bytes(), 18, 1);
}

#[test]
fn first_lines() {
    for count in ["65536", "65537", "100000", "00", "-0", "-1", "+1", "+0", "01", "x", "1.0", "", "0 0"] {
        no_first_line(&format!("StartKernPairs {count}"));
    }
    for line in [
        "StartKernPairs",
        "StartKernPairs0",
        "StartKernPairs0 0",
        " StartKernPairs 0",
        "StartKernPairs 0 ",
        "StartKernPairs\t0",
        "StartKernPairs 0\r",
        "startkernpairs 0",
        "StartKernData",
        "0",
        "",
        "EndKernPairs",
        "KPX A V 0",
    ] {
        no_first_line(line);
    }
}

#[test]
fn counts_that_are_not_the_number_of_pairs() {
    for count in ["0", "1", "3", "4", "256", "258", "65535", "32768"] {
        no_section(format!("StartKernPairs {count}\nKPX A V -80\nKPX V A -80\nEndKernPairs\n").as_bytes(), 19, 0);
    }
    no_section(b"StartKernPairs 1\nEndKernPairs\n", 19, 0);
    // A line not of its form comes first, wherever it stands.
    no_section(b"StartKernPairs 3\nKPX A V -80\nKPX V A -0\nEndKernPairs\n", 18, 3);
    no_section(b"StartKernPairs 3\nKPX A V -80\nEndKernPairs\n\n", 18, 4);
    no_section(b"StartKernPairs 3\nKPX A V -80\n", 18, 3);
}

#[test]
fn the_first_wrong_line_is_named() {
    no_section(b"StartKernPairs x\nKPX A V x\nEndKernPairs\n", 18, 1);
    no_section(b"StartKernPairs 3\nKPX A V 1\nKPX A V x\nKPX A V x\nEndKernPairs", 18, 3);
    no_sheet(b"A;V;1\nA;V;x\nA;V", 18, 2);
}

/// Sheets whose lines have ten bytes each; the last one has more.
fn sheet_of_length(length: usize) -> Vec<u8> {
    let count = length / 10 - 1;
    let lines = b"A;Vu;-123\n".repeat(count);
    let name = vec![b'x'; length - lines.len() - b"A;;-1\n".len()];
    [&lines[..], b"A;", &name, b";-1\n"].concat()
}

/// 12 comes before all else, 16 behind it.
#[test]
fn texts_of_just_65_535_bytes() {
    let spaces = |count: usize| format!("StartKernPairs{}0\nEndKernPairs\n", " ".repeat(count)).into_bytes();
    // The longest run of spaces that fits.
    assert_eq!(spaces(65_506).len(), 65_535);
    gives(import_into, &spaces(65_506), b"");
    no_section(&spaces(65_507), 12, 0);
    let wide = format!("StartKernPairs 1\nKPX A V{}-80\nEndKernPairs\n", " ".repeat(65_494));
    assert_eq!(wide.len(), 65_535);
    gives(import_into, wide.as_bytes(), b"A;V;-80\n");

    let sheet = sheet_of_length(65_535);
    assert_eq!(sheet.len(), 65_535);
    refuses(export_into, &sheet, 1 << 17, 16, 0);
    assert_eq!(export(&sheet), Err(Refusal { number: 16, node: 0 }));
    no_sheet(&[&sheet[..], b"\n"].concat(), 12, 0);
    no_sheet(&[b'x'; 65_536], 12, 0);
    no_sheet(&[b'x'; 65_535], 18, 1);
    no_section(&[b'\n'; 65_536], 12, 0);
    no_section(&[b'\n'; 65_535], 18, 1);
}

/// 6,550 pairs are the most: their section has 65,533 bytes, and the next pair at
/// least ten.
#[test]
fn the_most_pairs_both_ways() {
    let section = [b"StartKernPairs 6550\n", &b"KPX A V 1\n".repeat(6550)[..], b"EndKernPairs\n"].concat();
    assert_eq!(section.len(), 65_533);
    imports(&section, &b"A;V;1\n".repeat(6550));
    no_section(&[&section[..20], &b"KPX A V 1\n".repeat(6551), b"EndKernPairs\n"].concat(), 12, 0);

    // Of the two bytes that are left, a longer value takes both.
    let full = [b"StartKernPairs 6550\nKPX A V -11\n", &b"KPX A V 1\n".repeat(6549)[..], b"EndKernPairs\n"].concat();
    assert_eq!(full.len(), 65_535);
    imports(&full, &[b"A;V;-11\n", &b"A;V;1\n".repeat(6549)[..]].concat());

    // One more, and the section is too long: that is 16, since the sheet is not.
    let sheet = [b"A;V;-111\n", &b"A;V;1\n".repeat(6549)[..]].concat();
    assert_eq!(sheet.len(), 39_303);
    refuses(export_into, &sheet, 65_536, 16, 0);
    refuses(export_into, &b"A;V;1\n".repeat(6551), 65_536, 16, 0);
    refuses(export_into, &b"A;V;1\n".repeat(10_922), 65_536, 16, 0);
}

/// Lines beyond 255: a byte could not hold the number.
#[test]
fn late_lines() {
    let lines = b"A;V;1\n".repeat(10_922);
    no_sheet(&[&lines[..], b"A;V"].concat(), 18, 10_923);
    no_sheet(&[&lines[..256 * 6], b"A;V;\n", &lines[..6]].concat(), 18, 257);
    let pairs = b"KPX A V 1\n".repeat(6551);
    no_section(&[b"StartKernPairs 6551\n", &pairs[..]].concat(), 18, 6553);
    no_section(&[b"StartKernPairs 6551\n", &pairs[..655 * 10], b"x\n"].concat(), 18, 657);
}

/// The calls are made where they stand, also on a thread with hardly any stack.
#[test]
fn next_to_no_stack_is_needed() {
    let thread = std::thread::Builder::new().stack_size(64 * 1024).spawn(|| {
        let sheet = b"A;V;1\n".repeat(6550);
        export(&sheet).and_then(|section| import(&section)).map(|again| again == sheet)
    });
    assert_eq!(thread.expect("a thread can be started").join().expect("it comes back"), Ok(true));
}
