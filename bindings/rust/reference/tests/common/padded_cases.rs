//! Calls with padded names and what they give, from document 02 and by hand.

use noontrough_reference::generator::cases::{Call, Case};
use noontrough_reference::generator::draft::{Draft, NodeNumber};
use noontrough_reference::trial::run;
use noontrough_reference::{Calls, Tally};

const BUFFER: usize = 4096;

/// A call into 4,096 bytes, the text that it gives, and a put's tally.
pub struct PaddedCase {
    pub name: &'static str,
    pub call: Call,
    pub table: Vec<u8>,
    pub sheet: Vec<u8>,
    pub source: Vec<u8>,
    pub text: Vec<u8>,
    pub tally: Option<Tally>,
}

impl PaddedCase {
    /// Makes the call by some implementation; panics at any other answer.
    pub fn make(&self, calls: &dyn Calls) {
        let (table, sheet, source) = (self.table.clone(), self.sheet.clone(), self.source.clone());
        let outcome = run(calls, &Case { call: self.call, table, sheet, source, lent: BUFFER });
        let shown = |text: &[u8]| text[..text.len().min(40)].escape_ascii().to_string();
        let what = format!("{}: {} on {}", self.name, shown(&self.sheet), shown(&self.source));
        assert!(outcome.text() == Ok(&self.text), "{what}: {:?} in place of {}", outcome.answer, shown(&self.text));
        assert_eq!(outcome.tally, self.tally, "{what}");
    }
}

pub fn all() -> Vec<PaddedCase> {
    let short = [of_names(), of_other_calls(), of_twins(), of_two_names(), of_children(), of_arms(), without_key()];
    let long = [of_long_spaces(), of_long_inner_spaces(), of_long_sheets(), of_several_long()];
    let at_the_edge = [of_4095_and_4096(), of_4097()];
    short.into_iter().chain(long).chain(at_the_edge).flatten().collect()
}

/// Sheet, old source and new source, and the entries kept, made and dropped.
type Row<'a> = (&'a [u8], &'a [u8], &'a [u8], [usize; 3]);

fn puts(name: &'static str, draft: &Draft, rows: &[Row]) -> Vec<PaddedCase> {
    let case = |&(sheet, old, new, [kept, made, dropped]): &Row| PaddedCase {
        name,
        call: Call::Put,
        table: draft.table(),
        sheet: sheet.to_vec(),
        source: old.to_vec(),
        text: new.to_vec(),
        tally: Some(Tally { kept, made, dropped }),
    };
    rows.iter().map(case).collect()
}

const KEPT: [usize; 3] = [1, 0, 0];
const REPLACED: [usize; 3] = [0, 1, 1];

/// Any number of capitals, spaces and tabs.
fn name(draft: &mut Draft) -> NodeNumber {
    let class = draft.set(&[(b'A', b'Z'), (b' ', b' '), (b'\t', b'\t')]);
    draft.pattern_repeat(class)
}

/// A lens, hidden digits and a semicolon.
fn line(draft: &mut Draft, lens: NodeNumber) -> NodeNumber {
    let digit = draft.range(b'0', b'9');
    let digits = draft.pattern_repeat(digit);
    let row = [lens, draft.delete(digits, b"0"), draft.copy_word(b";")];
    draft.lens_row(&row)
}

fn listed(draft: &mut Draft, child: NodeNumber) -> NodeNumber {
    let entry = draft.matched(child);
    draft.lens_repeat(entry)
}

/// K with names that may be padded, or have spaces and tabs anywhere.
pub fn padded_k() -> Draft {
    let mut draft = Draft::new();
    let name = name(&mut draft);
    let label = draft.key(name);
    let line = line(&mut draft, label);
    listed(&mut draft, line);
    draft
}

fn of_names() -> Vec<PaddedCase> {
    let rows: [Row; 17] = [
        (b"AB  ;", b"AB1;", b"AB  1;", KEPT), // as the readings of document 02 have it
        (b"AB;", b"AB  1;", b"AB1;", KEPT),
        (b"AB ;", b"AB    1;", b"AB 1;", KEPT),
        (b"C ;AB   ;", b"AB 1;C22;", b"C 22;AB   1;", [2, 0, 0]),
        (b"AB  ;D;", b"AB1;C2;", b"AB  1;D0;", [1, 1, 1]),
        // A key of spaces is the empty key.
        (b"  ;", b"7;", b"  7;", KEPT),
        (b";", b"   7;", b"7;", KEPT),
        (b" ;", b"   7;", b" 7;", KEPT),
        (b";", b"A7;", b"0;", REPLACED),
        // Spaces in front and inside stay.
        (b" A;", b"A1;", b" A0;", REPLACED),
        (b" A ;", b"A1; A2;", b" A 2;", [1, 0, 1]),
        (b"A B;", b"AB1;A  B2;A B  3;", b"A B3;", [1, 0, 2]),
        (b"AB;", b"A B1;", b"AB0;", REPLACED),
        // A tab is no space, and what stands before it is not at the end.
        (b"A\t;", b"A1;", b"A\t0;", REPLACED),
        (b"A;", b"A\t1;A \t2;", b"A0;", [0, 1, 2]),
        (b"A \t;", b"A\t1;A \t  2;", b"A \t2;", [1, 0, 1]),
        (b"\t;", b"1; 2;", b"\t0;", [0, 1, 2]),
    ];
    puts("names", &padded_k(), &rows)
}

/// Key text is copied untouched.
fn of_other_calls() -> Vec<PaddedCase> {
    let of = |call, sheet: &[u8], source: &[u8], text: &[u8]| PaddedCase {
        name: "get and create",
        call,
        table: padded_k().table(),
        sheet: sheet.to_vec(),
        source: source.to_vec(),
        text: text.to_vec(),
        tally: None,
    };
    vec![
        of(Call::Get, b"", b"AB  1; C 2;  3;", b"AB  ; C ;  ;"),
        of(Call::Create, b"AB  ; C ;  ;", b"", b"AB  0; C 0;  0;"),
    ]
}

/// Entries whose names differ by trailing spaces: each takes the first that is left.
fn of_twins() -> Vec<PaddedCase> {
    let old: &[u8] = b"A  1;A2;A 3;B4;";
    let rows: [Row; 6] = [
        (b"A;A ;", b"A1;A 2;", b"A1;A 2;", [2, 0, 0]),
        (b"A ;A;", b"A1;A 2;", b"A 1;A2;", [2, 0, 0]),
        (b"A  ;A;A ;B;", old, old, [4, 0, 0]),
        (b"B;A ;A;A  ;", old, b"B4;A 1;A2;A  3;", [4, 0, 0]),
        (b"A ;", old, b"A 1;", [1, 0, 3]),
        (b"A ;A;A  ;A;", b"A1;A 2;", b"A 1;A2;A  0;A0;", [2, 2, 0]),
    ];
    puts("names that differ by spaces", &padded_k(), &rows)
}

/// Two names with a comma between them that is no key text: the whole key is cut, and
/// not each of its parts.
fn of_two_names() -> Vec<PaddedCase> {
    let mut draft = Draft::new();
    let name = name(&mut draft);
    let (label, comma) = (draft.key(name), draft.copy_word(b","));
    let both = draft.lens_row(&[label, comma, label]);
    let line = line(&mut draft, both);
    listed(&mut draft, line);
    let rows: [Row; 7] = [
        (b"A,B;", b"A ,B1;", b"A,B0;", REPLACED),
        (b"A ,B;", b"A,B1;A, B2;", b"A ,B2;", [1, 0, 1]),
        (b"A,B ;", b"A ,B1;A,B2;", b"A,B 2;", [1, 0, 1]),
        (b"A ,B  ;", b"A ,B1;", b"A ,B  1;", KEPT),
        (b"A ,  ;", b",A1;", b"A ,  1;", KEPT),
        (b" , ;", b",7;", b" , 7;", KEPT),
        (b" ,A;", b",A1;", b" ,A0;", REPLACED),
    ];
    puts("two names", &draft, &rows)
}

/// Lists before and behind a sign, of two children: each has its own keys.
fn of_children() -> Vec<PaddedCase> {
    let mut draft = Draft::new();
    let lists = [&b""[..], b"#"].map(|sign| {
        let (name, sign) = (name(&mut draft), draft.copy_word(sign));
        let label = draft.key(name);
        let named = draft.lens_join(label, sign);
        let line = line(&mut draft, named);
        listed(&mut draft, line)
    });
    let end = draft.copy_word(b"\n");
    draft.lens_row(&[lists[0], end, lists[1]]);
    let rows: [Row; 2] =
        [(b"A ;\nA #;", b"A1;\nA#2;", b"A 1;\nA #2;", [2, 0, 0]), (b"A ;\n", b"\nA#2;", b"A 0;\n", REPLACED)];
    puts("two children", &draft, &rows)
}

/// The left arm reads the padding as key text, the right arm shows two hyphens as
/// spaces behind a name that it copies.
fn of_arms() -> Vec<PaddedCase> {
    let mut draft = Draft::new();
    let blanks = name(&mut draft);
    let left = draft.key(blanks);
    let capital = draft.range(b'A', b'Z');
    let capitals = draft.pattern_some(capital);
    let (copied, padding) = (draft.copy(capitals), draft.replace(b"--", b"  "));
    let right = draft.lens_join(copied, padding);
    let either = draft.lens_union(left, right);
    let line = line(&mut draft, either);
    listed(&mut draft, line);
    let rows: [Row; 3] = [
        (b"A  ;", b"A--1;", b"A--1;", KEPT),
        (b"A ;", b"A--1;", b"A 1;", KEPT), // no sheet of the right arm
        (b"A  ;B  ;", b"B 1;A--2;", b"A--2;B  1;", [2, 0, 0]),
    ];
    puts("arms", &draft, &rows)
}

/// Padding that is copied beside the name is no key text, now as before.
fn without_key() -> Vec<PaddedCase> {
    let mut draft = Draft::new();
    let (capital, space) = (draft.range(b'A', b'Z'), draft.word(b" "));
    let (capitals, spaces) = (draft.pattern_some(capital), draft.pattern_repeat(space));
    let (label, padding) = (draft.key(capitals), draft.copy(spaces));
    let named = draft.lens_join(label, padding);
    let line = line(&mut draft, named);
    listed(&mut draft, line);
    let rows: [Row; 2] = [(b"AB  ;", b"AB1;", b"AB  1;", KEPT), (b"B ;A;", b"A  1;B2;", b"B 2;A1;", [2, 0, 0])];
    puts("padding that is copied", &draft, &rows)
}

/// Entries of two arms: the left one is a key of `a`, `b` and spaces, the right one
/// shows `y` as the head, each `x` as the wide word, `z` as the tail if there is one, and
/// each `s` as 50 spaces. So the left arm reads every sheet of the right one as its key.
struct Long {
    head: &'static [u8],
    wide: Vec<u8>,
    tail: &'static [u8],
    padded: bool,
}

impl Long {
    fn spaces(head: &'static [u8], count: usize, tail: &'static [u8]) -> Long {
        Long { head, wide: vec![b' '; count], tail, padded: false }
    }

    fn arms(&self, draft: &mut Draft) -> NodeNumber {
        let class = draft.set(&[(b'a', b'b'), (b' ', b' ')]);
        let many = draft.pattern_repeat(class);
        let left = draft.key(many);
        let wide = draft.replace(b"x", &self.wide);
        let mut row = vec![draft.replace(b"y", self.head), draft.lens_repeat(wide)];
        if !self.tail.is_empty() {
            row.push(draft.replace(b"z", self.tail));
        }
        if self.padded {
            let padding = draft.replace(b"s", &[b' '; 50]);
            row.push(draft.lens_repeat(padding));
        }
        let right = draft.lens_row(&row);
        draft.lens_union(left, right)
    }

    /// One entry, and nothing beside it.
    fn single(&self) -> Draft {
        let mut draft = Draft::new();
        let either = self.arms(&mut draft);
        draft.matched(either);
        draft
    }

    fn puts(&self, name: &'static str, rows: &[Row]) -> Vec<PaddedCase> {
        puts(name, &self.single(), rows)
    }

    /// A source of the right arm with so many wide words and so many words of padding.
    fn right(&self, wides: usize, paddings: usize) -> Vec<u8> {
        let tail: &[u8] = if self.tail.is_empty() { b"" } else { b"z" };
        [b"y", &b"x".repeat(wides)[..], tail, &b"s".repeat(paddings)].concat()
    }

    /// Its key without what pads it.
    fn key(&self, wides: usize) -> Vec<u8> {
        [self.head, &self.wide.repeat(wides), self.tail].concat()
    }
}

/// A key of 262,081 bytes is `a`, and one of 262,080 spaces is empty.
fn of_long_spaces() -> Vec<PaddedCase> {
    let (of_name, of_nothing) = (Long::spaces(b"a", 64, b""), Long::spaces(b"", 64, b""));
    let longest = of_name.right(4095, 0);
    let one_word = [b"a", &b" ".repeat(64)[..]].concat();
    let rows: [Row; 7] = [
        (b"a", &longest, b"y", KEPT),
        (&one_word, &longest, b"yx", KEPT),
        (b"a   ", &longest, b"a   ", KEPT), // no sheet of the right arm
        (b" a", &longest, b" a", REPLACED),
        (b"ab", &longest, b"ab", REPLACED),
        (b"", &longest, b"", REPLACED),
        (b"a", &of_name.right(64, 0), b"y", KEPT),
    ];
    let empty: [Row; 3] = [(b"", &longest, b"y", KEPT), (b" ", &longest, b" ", KEPT), (b"a", &longest, b"a", REPLACED)];
    let named = of_name.puts("a long key of a name", &rows);
    named.into_iter().chain(of_nothing.puts("a long key of spaces", &empty)).collect()
}

/// Over 4,096 bytes, with spaces up to there and another byte behind them: no sheet has
/// such a key.
fn of_long_inner_spaces() -> Vec<PaddedCase> {
    let nearly = [b"a", &b" ".repeat(4094)[..], b"b"].concat();
    let full = [b"a", &b" ".repeat(4095)[..]].concat();
    let (program, mut cases) = (Long::spaces(b"a", 64, b"b"), Vec::new());
    for wides in [64, 65, 128, 4094] {
        let old = program.right(wides, 0);
        let rows: [Row; 4] = [
            (b"a", &old, b"a", REPLACED),
            (b"ab", &old, b"ab", REPLACED), // a sheet of both arms, created by the left one
            (&nearly, &old, &nearly, REPLACED),
            (&full, &old, &full, REPLACED),
        ];
        cases.extend(program.puts("spaces inside a long key", &rows));
    }
    cases
}

/// Letters, or spaces and a letter, with padding behind them.
fn edge(head: &'static [u8], byte: u8, count: usize) -> Long {
    Long { head, wide: vec![byte; count], tail: if byte == b' ' { b"b" } else { b"" }, padded: true }
}

/// Words of padding behind a key: none, some, and nearly as many as a source can show.
const PADDINGS: [usize; 5] = [0, 1, 2, 500, 4000];

/// Keys of 4,095 and 4,096 bytes before their trailing spaces.
fn of_4095_and_4096() -> Vec<PaddedCase> {
    let programs = [(edge(b"", b'b', 63), 65), (edge(b"", b'b', 64), 64), (edge(b"a", b'b', 63), 65)];
    let inner = [(edge(b"", b' ', 63), 65), (edge(b"ab", b' ', 62), 66), (edge(b"a", b' ', 46), 89)];
    let mut cases = Vec::new();
    for (program, wides) in programs.into_iter().chain(inner) {
        let (key, new) = (program.key(wides), program.right(wides, 0));
        assert!((4095..=4096).contains(&key.len()));
        let less = &key[..key.len() - 1];
        for old in PADDINGS.map(|paddings| program.right(wides, paddings)) {
            let rows: [Row; 2] = [(&key, &old, &new, KEPT), (less, &old, less, REPLACED)];
            cases.extend(program.puts("a key that a sheet can have", &rows));
        }
    }
    cases
}

/// Keys of 4,097 bytes before their trailing spaces, which no sheet can ask for.
fn of_4097() -> Vec<PaddedCase> {
    let programs = [(edge(b"a", b'b', 64), 64), (edge(b"ab", b'b', 63), 65)];
    let inner = [(edge(b"a", b' ', 63), 65), (edge(b"", b' ', 64), 64)];
    let mut cases = Vec::new();
    for (program, wides) in programs.into_iter().chain(inner) {
        let key = program.key(wides);
        assert_eq!(key.len(), 4097);
        let (first, last) = (&key[..4096], &key[1..]);
        for old in PADDINGS.map(|paddings| program.right(wides, paddings)) {
            let rows: [Row; 2] = [(first, &old, first, REPLACED), (last, &old, last, REPLACED)];
            cases.extend(program.puts("a key that no sheet can have", &rows));
        }
    }
    cases
}

/// A sheet of 4,096 bytes whose key is short.
fn of_long_sheets() -> Vec<PaddedCase> {
    let program = Long::spaces(b"a", 64, b"");
    let full = [b"a", &b" ".repeat(4095)[..]].concat();
    let blank = b" ".repeat(4096);
    let rows: [Row; 4] = [
        (&full, b"a", &full, KEPT),
        (&full, &program.right(4095, 0), &full, KEPT),
        (&blank, b"", &blank, KEPT),
        (&blank, b"a", &blank, REPLACED),
    ];
    program.puts("a long sheet", &rows)
}

/// Long and short old keys that are equal, each with a digit to be known by.
fn of_several_long() -> Vec<PaddedCase> {
    let mut draft = Draft::new();
    let program = Long::spaces(b"a", 64, b"");
    let either = program.arms(&mut draft);
    let line = line(&mut draft, either);
    listed(&mut draft, line);
    let entry = |wides: usize, digit: u8| [&program.right(wides, 0)[..], &[digit, b';']].concat();
    let old = [entry(1800, b'1'), b"a  2;".to_vec(), entry(65, b'3'), b"b4;".to_vec(), entry(2000, b'5')].concat();
    let unedited = [entry(20, b'1'), b"a  2;".to_vec(), entry(21, b'3'), b"a4;".to_vec()].concat();
    let sheet = [b"a", &b" ".repeat(20 * 64)[..], b";a  ;a", &b" ".repeat(21 * 64), b";a;"].concat();
    let rows: [Row; 5] = [
        (b"a;a;a;a;a;", &old, b"y1;a2;y3;y5;a0;", [4, 1, 1]),
        (b"b ;a;", &old, b"b 4;y1;", [2, 0, 3]),
        (b"a ;a;", &old, b"a 1;a2;", [2, 0, 3]), // the first is no sheet of the right arm
        (b" a;", &old, b" a0;", [0, 1, 5]),
        (&sheet, &unedited, &unedited, [4, 0, 0]),
    ];
    puts("several long keys", &draft, &rows)
}
