//! Calls of import and export by hand, with what document 02 and its readings say
//! of each: extremes, order of refusals, and each rule on either side of its border.

use noontrough_reference::afm::{AfmCalls, Refusal};
use noontrough_reference::afm_trial::{run, shown, Outcome};
use noontrough_reference::generator::afm::Way;
use noontrough_reference::trial::lent_buffer;

/// The longest text and result.
pub const MOST: usize = 65_535;

pub struct HandCase {
    pub name: String,
    pub way: Way,
    pub text: Vec<u8>,
    pub lent: usize,
    pub gives: Result<Vec<u8>, Refusal>,
}

impl HandCase {
    /// Makes the call by some implementation; panics at any other answer, and at a byte
    /// of the buffer that is not as it should be.
    pub fn make(&self, calls: &dyn AfmCalls) {
        let HandCase { name, way, text, lent, gives } = self;
        let mut buffer = lent_buffer(*lent);
        if let Ok(expected) = gives {
            buffer[..expected.len()].copy_from_slice(expected);
        }
        let expected = Outcome { answer: gives.as_ref().map(Vec::len).map_err(|refusal| *refusal), buffer };
        let found = run(calls, *way, text, *lent);
        let difference = || format!("expected {:?}, found {:?} or other bytes", expected.answer, found.answer);
        assert!(found == expected, "{way:?}, {name}: {}: {}", difference(), shown(text));
    }
}

/// A call with a buffer that is long enough for every result.
fn case(name: &str, way: Way, text: impl Into<Vec<u8>>, gives: Result<Vec<u8>, Refusal>) -> HandCase {
    HandCase { name: name.to_string(), way, text: text.into(), lent: MOST, gives }
}

/// The same with a buffer that is longer than any result.
fn with_more_room(case: HandCase) -> HandCase {
    HandCase { lent: 2 * MOST, ..case }
}

fn text(text: impl Into<Vec<u8>>) -> Result<Vec<u8>, Refusal> {
    Ok(text.into())
}

/// 18 at a line.
fn bad_line(line: usize) -> Result<Vec<u8>, Refusal> {
    Err(Refusal { number: 18, node: line })
}

fn refused(number: u8) -> Result<Vec<u8>, Refusal> {
    Err(Refusal { number, node: 0 })
}

/// A section of these lines, each without its newline, and a count that is written as
/// given.
fn section(count: &str, lines: &[&str]) -> String {
    let lines: String = lines.iter().map(|line| format!("{line}\n")).collect();
    format!("StartKernPairs {count}\n{lines}EndKernPairs\n")
}

/// So many of the shortest pairs, as a sheet and as a section.
fn shortest_sheet(pairs: usize) -> String {
    "a;b;0\n".repeat(pairs)
}

fn shortest_section(pairs: usize) -> String {
    format!("StartKernPairs {pairs}\n{}EndKernPairs\n", "KPX a b 0\n".repeat(pairs))
}

pub fn all() -> Vec<HandCase> {
    let of_import = [whole_sections(), counts(), missing_lines(), lines_behind(), spaces()];
    let of_both = [names(), values(), order(), lengths(), extremes()];
    of_import.into_iter().chain([sheets()]).chain(of_both).flatten().collect()
}

/// A pair in a section and in a sheet, each with another pair before it: both calls
/// give the same, or both say 18 at the pair's line.
fn pair_both_ways(name: &str, [left, right, value]: [&str; 3], is_good: bool) -> [HandCase; 2] {
    let section = section("2", &["KPX A V -80", &format!("KPX {left} {right} {value}")]);
    let sheet = format!("A;V;-80\n{left};{right};{value}\n");
    let gives = |good: &str, line| if is_good { text(good) } else { bad_line(line) };
    [
        case(name, Way::Import, section.clone(), gives(&sheet, 3)),
        case(name, Way::Export, sheet.clone(), gives(&section, 2)),
    ]
}

fn whole_sections() -> Vec<HandCase> {
    let twice = section("2", &["KPX A V -80", "KPX A V 3"]);
    let empty = "StartKernPairs 0\nEndKernPairs\n";
    assert_eq!(empty.len(), 30);
    vec![
        case("no pair", Way::Import, empty, text("")),
        case("the same pair twice", Way::Import, twice, text("A;V;-80\nA;V;3\n")),
        case(
            "names like other fields",
            Way::Import,
            section("1", &["KPX KPX EndKernPairs 1"]),
            text("KPX;EndKernPairs;1\n"),
        ),
        case("the empty text", Way::Import, "", bad_line(1)),
        case("a newline", Way::Import, "\n", bad_line(1)),
        case("a space", Way::Import, " ", bad_line(1)),
        case("a byte outside ASCII", Way::Import, *b"\xFF", bad_line(1)),
        case("a zero byte", Way::Import, *b"StartKernPairs 0\nEndKernPairs\n\0", bad_line(3)),
        case("pairs first", Way::Import, "KPX A V -80\nStartKernPairs 1\nEndKernPairs\n", bad_line(1)),
        case("small letters", Way::Import, "startkernpairs 0\nEndKernPairs\n", bad_line(1)),
        case("a longer keyword", Way::Import, "StartKernPairs0 0\nEndKernPairs\n", bad_line(1)),
        case("KPY", Way::Import, section("1", &["KPY A 1 2"]), bad_line(2)),
        case("a comment", Way::Import, section("1", &["KPX A V -80", "Comment x"]), bad_line(3)),
        case("a name less", Way::Import, section("1", &["KPX A -80"]), bad_line(2)),
        case("a field more", Way::Import, section("1", &["KPX A V -80 0"]), bad_line(2)),
        case("a field behind the count", Way::Import, "StartKernPairs 0 0\nEndKernPairs\n", bad_line(1)),
        case("two starts", Way::Import, format!("StartKernPairs 0\n{empty}"), bad_line(2)),
    ]
}

fn counts() -> Vec<HandCase> {
    let with = |count: &str| section(count, &["KPX A V -80"]);
    let wrong =
        ["0", "2", "257", "65535", "10"].map(|count| case("another count", Way::Import, with(count), refused(19)));
    let not_of_form =
        ["65536", "65537", "00", "01", "-0", "-1", "+1", "", "1.0", "x", "18446744073709551617", "1 ", " "];
    let bad = not_of_form.map(|count| case(&format!("count {count:?}"), Way::Import, with(count), bad_line(1)));
    let no_count = case("no count and no space", Way::Import, "StartKernPairs\nEndKernPairs\n", bad_line(1));
    let none = case("a count and no pair", Way::Import, section("1", &[]), refused(19));
    let most = case("65535 and no pair", Way::Import, section("65535", &[]), refused(19));
    let right = case("the right count", Way::Import, with("1"), text("A;V;-80\n"));
    wrong.into_iter().chain(bad).chain([no_count, none, most, right]).collect()
}

/// The end is missing behind so many pairs: 18 at that number and two.
fn missing_lines() -> Vec<HandCase> {
    let without_end = |pairs: usize| format!("StartKernPairs {pairs}\n{}", "KPX A V -80\n".repeat(pairs));
    let ends = |pairs: usize, end: &str, line| {
        let text = without_end(pairs) + end;
        case(&format!("{end:?} behind {pairs} pairs"), Way::Import, text, bad_line(line))
    };
    let mut cases = Vec::new();
    for pairs in [0, 1, 2, 254, 255, 256, 1000] {
        for end in
            ["", "EndKernPairs", "EndKernPair\n", "EndKernPairs \n", " EndKernPairs\n", "EndKernPairs\r\n", "KPX"]
        {
            cases.push(ends(pairs, end, pairs + 2));
        }
    }
    cases.push(case("the start without a newline", Way::Import, "StartKernPairs 0", bad_line(1)));
    cases.push(case("a pair without a newline", Way::Import, "StartKernPairs 1\nKPX A V -80", bad_line(2)));
    cases
}

/// Something behind the end of so many pairs: 18 at that number and three.
fn lines_behind() -> Vec<HandCase> {
    let behind =
        ["\n", " ", "\n\n", "\r\n", "x", "KPX A V -80\n", "EndKernPairs\n", "StartKernPairs 0\nEndKernPairs\n", "\0"];
    let with = |pairs: usize, more: &str| {
        let whole = section(&pairs.to_string(), &vec!["KPX A V -80"; pairs]);
        case(&format!("{more:?} behind {pairs} pairs"), Way::Import, whole + more, bad_line(pairs + 3))
    };
    behind.iter().flat_map(|more| [0, 1, 3, 300].map(|pairs| with(pairs, more))).collect()
}

/// Runs of spaces stand between fields and nowhere else; other blanks do nowhere.
fn spaces() -> Vec<HandCase> {
    let runs = "StartKernPairs   1\nKPX  A     V    -80\nEndKernPairs\n";
    let bad = [
        "KPX A V -80 ",
        " KPX A V -80",
        "KPX\tA V -80",
        "KPX A\tV -80",
        "KPX A V \t-80",
        "KPX A V -80\t",
        "KPX A V -80\r",
    ];
    let bad = bad.map(|line| case(&format!("{line:?}"), Way::Import, section("1", &[line]), bad_line(2)));
    let starts = [" StartKernPairs 0\n", "StartKernPairs 0 \n", "StartKernPairs\t0\n", "StartKernPairs 0\r\n"];
    let starts = starts.map(|line| case(line, Way::Import, format!("{line}EndKernPairs\n"), bad_line(1)));
    let all = case("every line with a carriage return", Way::Import, runs.replace('\n', "\r\n"), bad_line(1));
    let blank = case("a blank line", Way::Import, section("1", &["", "KPX A V -80"]), bad_line(2));
    let spaced = case("a line of spaces", Way::Import, section("1", &["KPX A V -80", "  "]), bad_line(3));
    let cut = case("a newline in a pair", Way::Import, section("1", &["KPX A", "V -80"]), bad_line(2));
    let good = case("runs of spaces", Way::Import, runs, text("A;V;-80\n"));
    bad.into_iter().chain(starts).chain([all, blank, spaced, cut, good]).collect()
}

fn sheets() -> Vec<HandCase> {
    let at = |line: usize, sheet: &str| case(&format!("{sheet:?}"), Way::Export, sheet, bad_line(line));
    vec![
        case("the empty sheet", Way::Export, "", text("StartKernPairs 0\nEndKernPairs\n")),
        case("the same pair twice", Way::Export, "A;V;1\nA;V;2\n", text(section("2", &["KPX A V 1", "KPX A V 2"]))),
        at(1, "A;V;1"),
        at(2, "A;V;1\nA;V;2"),
        at(2, "A;V;1\n\n"),
        at(1, "\n"),
        at(2, "A;V;1\n "),
        at(1, "A;V;1\r\n"),
        at(1, "A;V\n"),
        at(1, "A;V;1;\n"),
        at(1, "A;V;1;2\n"),
        at(1, "A V 1\n"),
        at(1, " A;V;1\n"),
        at(1, "A;V;1 \n"),
        at(1, "A; V;1\n"),
        at(1, "A;V ;1\n"),
        at(1, "A;;V;1\n"),
        at(1, "A,V,1\n"),
        at(1, "A;V;\t1\n"),
        at(2, "A;V;1\nA;V;2\0\n"),
        at(1, "StartKernPairs 0\nEndKernPairs\n"),
    ]
}

fn names() -> Vec<HandCase> {
    let [longest, longer] = [63, 64].map(|length| "n".repeat(length));
    let good = ["!", "~", ":", "<", "-", "KPX", "0", &longest];
    // 0x7F, 0x80 and a letter outside ASCII
    let bad = ["", ";", "a;b", ";a", "\t", "a\tb", "\u{7F}", "\u{80}", "é", "\0", "\r", &longer];
    let on_both_sides = |name: &str, is_good| {
        let told = format!("name {name:?}");
        [pair_both_ways(&told, [name, "V", "1"], is_good), pair_both_ways(&told, ["A", name, "1"], is_good)]
    };
    let cases = good.iter().map(|name| (name, true)).chain(bad.iter().map(|name| (name, false)));
    cases.flat_map(|(name, is_good)| on_both_sides(name, is_good)).flatten().collect()
}

fn values() -> Vec<HandCase> {
    let good = ["0", "1", "-1", "9", "10", "-10", "999", "32767", "-32767", "-32768", "10000", "-9999"];
    let bad = [
        "",
        "-",
        "-0",
        "+0",
        "+1",
        "00",
        "007",
        "-01",
        "-00",
        "32768",
        "-32769",
        "40000",
        "65535",
        "65536",
        "-65536",
        "99999",
        "100000",
        "032767",
        "1-",
        "--1",
        "1.5",
        "0x1",
        "1e3",
        "/",
        ":",
        "1:",
        "18446744073709551617",
        "4294967296",
    ];
    let tried = good.iter().map(|value| (value, true)).chain(bad.iter().map(|value| (value, false)));
    tried.flat_map(|(value, is_good)| pair_both_ways(&format!("value {value:?}"), ["A", "V", value], is_good)).collect()
}

/// 12, then 18 at the first line, then 19, then 16.
fn order() -> Vec<HandCase> {
    let short = |lent: usize, case: HandCase| HandCase { lent, ..case };
    let good = section("1", &["KPX A V -80"]);
    let sheet = "A;V;-80\n";
    let wrong_count = section("7", &["KPX A V -80"]);
    let wrong_both = section("7", &["KPX A V -80", "KPX A V -0"]);
    let two_bad = section("2", &["KPX A V +1", "KPX A V -0"]);
    let too_long = wrong_both.clone() + &" ".repeat(MOST);
    vec![
        case("a count and a later line", Way::Import, wrong_both, bad_line(3)),
        case("a count and a line behind", Way::Import, wrong_count.clone() + "\n", bad_line(4)),
        case("a count and no end", Way::Import, "StartKernPairs 7\nKPX A V -80\n", bad_line(3)),
        case("two lines", Way::Import, two_bad, bad_line(2)),
        case("all, and too long", Way::Import, too_long, refused(12)),
        short(0, case("19 before 16", Way::Import, wrong_count, refused(19))),
        short(0, case("18 before 16", Way::Import, good.clone() + "\n", bad_line(4))),
        short(0, case("no room", Way::Import, good.clone(), refused(16))),
        short(7, case("a byte too few", Way::Import, good.clone(), refused(16))),
        short(8, case("just enough", Way::Import, good.clone(), text(sheet))),
        short(9, case("one byte more", Way::Import, good.clone(), text(sheet))),
        short(0, case("nothing fits nothing", Way::Import, section("0", &[]), text(""))),
        short(0, case("18 before 16", Way::Export, "A;V;-0\n", bad_line(1))),
        short(good.len() - 1, case("a byte too few", Way::Export, sheet, refused(16))),
        short(good.len(), case("just enough", Way::Export, sheet, text(good))),
        short(29, case("no pair, 29 bytes", Way::Export, "", refused(16))),
        short(30, case("no pair, 30 bytes", Way::Export, "", text(section("0", &[])))),
    ]
}

/// Texts of 65,535 and 65,536 bytes, and buffers that are longer.
fn lengths() -> Vec<HandCase> {
    let around = |spaces: usize| format!("StartKernPairs{}0\nEndKernPairs\n", " ".repeat(spaces));
    let in_pair = |spaces: usize| section("1", &[&format!("KPX A V{}-80", " ".repeat(spaces))]);
    let fixed = in_pair(0).len();
    let sheet_of = |length: usize| shortest_sheet(length / 6 - 1) + &format!("{};b;0\n", "a".repeat(1 + length % 6));
    let [longest, over] = [MOST, MOST + 1].map(sheet_of);
    assert_eq!([longest.len(), over.len()], [MOST, MOST + 1]);
    vec![
        case("a run of 65,506 spaces", Way::Import, around(65_506), text("")),
        case("a run of 65,507 spaces", Way::Import, around(65_507), refused(12)),
        case("a run of spaces up to the limit", Way::Import, in_pair(MOST - fixed), text("A;V;-80\n")),
        case("one space more", Way::Import, in_pair(MOST + 1 - fixed), refused(12)),
        case("65,536 bytes of nothing", Way::Import, vec![0; MOST + 1], refused(12)),
        case("65,535 bytes of nothing", Way::Import, vec![0; MOST], bad_line(1)),
        case("131,072 bytes", Way::Import, vec![b'\n'; 2 * MOST + 2], refused(12)),
        case("a sheet of 65,535 bytes", Way::Export, longest.clone(), refused(16)),
        with_more_room(case("a sheet of 65,535 bytes, more room", Way::Export, longest, refused(16))),
        case("a sheet of 65,536 bytes", Way::Export, over, refused(12)),
        case("65,536 newlines", Way::Export, vec![b'\n'; MOST + 1], refused(12)),
        case("65,535 newlines", Way::Export, vec![b'\n'; MOST], bad_line(1)),
    ]
}

/// The most pairs, the lines with the highest numbers, and values of many digits.
fn extremes() -> Vec<HandCase> {
    let digits = |digit: &str| digit.repeat(65_000);
    let [long, zeros] = [digits("9"), digits("0")].map(|value| section("1", &[&format!("KPX A V {value}")]));
    let without_end = |pairs: usize| format!("StartKernPairs {pairs}\n{}", "KPX a b 0\n".repeat(pairs));
    let with_a_last_name = |length: usize| shortest_sheet(6549) + &format!("{};b;0\n", "a".repeat(length));
    let [fitting, over] = [3, 4].map(with_a_last_name);
    assert_eq!([fitting.len(), over.len()], [39_302, 39_303]);
    let section_of_fitting = shortest_section(6550).replace("KPX a b 0\nEnd", "KPX aaa b 0\nEnd");
    assert_eq!(section_of_fitting.len(), MOST);
    vec![
        case("a value of 65,000 digits", Way::Import, long, bad_line(2)),
        case("a value of 65,000 zeros", Way::Import, zeros, bad_line(2)),
        case("the same in a sheet", Way::Export, format!("A;V;{}\n", digits("9")), bad_line(1)),
        case("a name of 65,000 bytes", Way::Export, format!("{};V;1\n", digits("n")), bad_line(1)),
        case("6,550 pairs", Way::Import, shortest_section(6550), text(shortest_sheet(6550))),
        case("6,550 pairs", Way::Export, shortest_sheet(6550), text(shortest_section(6550))),
        case("a sheet of 39,302 bytes", Way::Export, fitting.clone(), text(section_of_fitting.clone())),
        case("its section", Way::Import, section_of_fitting, text(fitting)),
        case("a sheet of 39,303 bytes", Way::Export, over.clone(), refused(16)),
        with_more_room(case("a sheet of 39,303 bytes, more room", Way::Export, over, refused(16))),
        case("6,551 of the shortest pairs", Way::Export, shortest_sheet(6551), refused(16)),
        case("no end behind 6,551 pairs", Way::Import, without_end(6551), bad_line(6553)),
        case("a piece behind 6,550 pairs", Way::Import, shortest_section(6550) + "x", bad_line(6553)),
        case("a piece behind 10,922 lines", Way::Export, shortest_sheet(10_922) + "x", bad_line(10_923)),
        case("the last line of 10,922", Way::Export, shortest_sheet(10_921) + "a;b;-\n", bad_line(10_922)),
    ]
}
