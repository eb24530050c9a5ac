//! Calls of programs with sets (kind 5) and their answers, from document 02 and by
//! hand.

use noontrough_reference::generator::cases::{Call, Case};
use noontrough_reference::generator::draft::{Draft, NodeNumber};
use noontrough_reference::generator::sets::clash;
use noontrough_reference::trial::run;
use noontrough_reference::{Calls, Refusal};

const BUFFER: usize = 4096;

/// A call into 4,096 bytes, and what it answers.
pub struct SetCase {
    pub name: &'static str,
    pub call: Call,
    pub table: Vec<u8>,
    pub sheet: &'static [u8],
    pub source: &'static [u8],
    pub expected: Expected,
}

#[derive(Clone, Copy, Debug, PartialEq, Eq)]
pub enum Expected {
    /// A check of so many nodes.
    Accepted(usize),
    Text(&'static [u8]),
    /// A number and a node.
    Refused(u8, u8),
}

use Expected::{Accepted, Refused, Text};

impl SetCase {
    /// Makes the call by some implementation; panics at any other answer.
    pub fn make(&self, calls: &dyn Calls) {
        let &SetCase { name, call, sheet, source, expected, .. } = self;
        let (sheet, source) = (sheet.to_vec(), source.to_vec());
        let case = Case { call, table: self.table.clone(), sheet, source, lent: BUFFER };
        let outcome = run(calls, &case);
        match expected {
            Accepted(nodes) => assert_eq!(outcome.answer, Ok(nodes), "{name}"),
            Text(text) => assert_eq!(outcome.text(), Ok(text), "{name}"),
            Refused(number, node) => assert_eq!(outcome.answer, Err(Refusal { number, node }), "{name}"),
        }
    }
}

pub fn all() -> Vec<SetCase> {
    let of_programs = [accented_capitals(), printed_table(), members(), clashes()];
    let of_operands = [counts_and_places(), reversed_pairs(), other_kinds(), words_and_defaults(), limits()];
    of_programs.into_iter().chain(of_operands).flatten().collect()
}

fn check(name: &'static str, draft: &Draft, expected: Expected) -> SetCase {
    SetCase { name, call: Call::Check, table: draft.table(), sheet: b"", source: b"", expected }
}

fn get(name: &'static str, draft: &Draft, source: &'static [u8], expected: Expected) -> SetCase {
    SetCase { name, call: Call::Get, table: draft.table(), sheet: b"", source, expected }
}

/// K with names of a set in place of capitals.
fn names_of(pairs: &[(u8, u8)]) -> Draft {
    let mut draft = Draft::new();
    let (letter, digit) = (draft.set(pairs), draft.range(b'0', b'9'));
    let (name, digits) = (draft.pattern_some(letter), draft.pattern_repeat(digit));
    let row = [draft.key(name), draft.delete(digits, b"0"), draft.copy_word(b";")];
    let line = draft.lens_row(&row);
    let entry = draft.matched(line);
    draft.lens_repeat(entry);
    draft
}

/// The same bytes by different pairs: in order, out of order, overlapping, equal,
/// and single ones.
const SAME_CAPITALS: [&[(u8, u8)]; 4] = [
    &[(0xC0, 0xD6), (0xD8, 0xDE)],
    &[(0xD8, 0xDE), (0xC0, 0xD6)],
    &[(0xD0, 0xD6), (0xC0, 0xD4), (0xD8, 0xDE), (0xC8, 0xD2), (0xDA, 0xDA)],
    &[(0xDE, 0xDE), (0xC0, 0xD6), (0xC0, 0xD6), (0xD8, 0xDD), (0xDE, 0xDE)],
];

fn accented_capitals() -> Vec<SetCase> {
    SAME_CAPITALS.into_iter().flat_map(accented_capitals_of).collect()
}

fn accented_capitals_of(pairs: &[(u8, u8)]) -> Vec<SetCase> {
    let draft = names_of(pairs);
    let name = "accented capitals";
    let with = |call, sheet, source, expected| SetCase { name, call, table: draft.table(), sheet, source, expected };
    vec![
        check(name, &draft, Accepted(15)),
        get(name, &draft, b"\xC0\xD61;\xD8\xDE22;", Text(b"\xC0\xD6;\xD8\xDE;")),
        get(name, &draft, b"\xD2\xD4\xDA7;", Text(b"\xD2\xD4\xDA;")),
        get("the sign between the runs", &draft, b"\xC0\xD71;", Refused(13, 0)),
        get("the byte below", &draft, b"\xBF1;", Refused(13, 0)),
        get("the byte above", &draft, b"\xDF1;", Refused(13, 0)),
        with(Call::Put, b"\xDE;\xC0;", b"\xC01;\xDE22;", Text(b"\xDE22;\xC01;")),
        with(Call::Put, b"\xD6;\xC0;", b"\xC01;\xD822;", Text(b"\xD60;\xC01;")),
        with(Call::Put, b"\xD7;", b"\xC01;", Refused(14, 0)),
        with(Call::Create, b"\xD6\xD8;", b"", Text(b"\xD6\xD80;")),
        with(Call::Create, b"\xD7;", b"", Refused(14, 0)),
    ]
}

/// A copy of the accented capitals, byte for byte.
fn printed_table() -> Vec<SetCase> {
    let table = [&[2, 0, 4][..], &[5, 16], &[0, 0, 2, 0, 0, 0], &[0xC0, 0xD6, 0xD8, 0xDE]].concat();
    let name = "a table in bytes";
    let of = |call, source, expected| SetCase { name, call, table: table.clone(), sheet: b"", source, expected };
    vec![
        of(Call::Check, b"", Accepted(2)),
        of(Call::Get, b"\xD6", Text(b"\xD6")),
        of(Call::Get, b"\xD8", Text(b"\xD8")),
        of(Call::Get, b"\xD7", Refused(13, 0)),
        of(Call::Get, b"", Refused(13, 0)),
        of(Call::Get, b"\xC0\xD8", Refused(13, 0)),
    ]
}

fn copy_of(pairs: &[(u8, u8)]) -> Draft {
    let mut draft = Draft::new();
    let set = draft.set(pairs);
    draft.copy(set);
    draft
}

fn members() -> Vec<SetCase> {
    let single = copy_of(&[(b'm', b'm'), (b'z', b'z'), (b'a', b'a')]);
    let every = copy_of(&[(0, 255)]);
    let ends = copy_of(&[(255, 255), (0, 0)]);
    let one_more = copy_of(&[(b'k', b'k'), (0, 255)]);
    let of_single = [b"a", b"m", b"z"].map(|byte| get("single bytes", &single, byte, Text(byte)));
    let beside = [b"`", b"b", b"l", b"n", b"y", b"{"].map(|byte| get("beside them", &single, byte, Refused(13, 0)));
    let of_every = [b"\x00", b"\xFF", b"\xD7"].map(|byte| get("every byte", &every, byte, Text(byte)));
    let of_ends = [b"\x00", b"\xFF"].map(|byte| get("the ends", &ends, byte, Text(byte)));
    let others = vec![
        get("between the ends", &ends, b"\x01", Refused(13, 0)),
        get("between the ends", &ends, b"\xFE", Refused(13, 0)),
        get("one pair within another", &one_more, b"k", Text(b"k")),
        get("one pair within another", &one_more, b"\xD7", Text(b"\xD7")),
    ];
    of_single.into_iter().chain(beside).chain(of_every).chain(of_ends).chain(others).collect()
}

/// Classes apart, though `m` lies between `a` and `z`, and with a byte in common:
/// 7 to 11 each at the node that is the root.
fn clashes() -> Vec<SetCase> {
    let apart: [&[(u8, u8)]; 2] = [&[(b'a', b'a'), (b'z', b'z')], &[(b'm', b'm')]];
    let runs: [&[(u8, u8)]; 2] = [&[(b'x', b'z'), (b'a', b'c')], &[(b'p', b'w'), (b'd', b'g')]];
    let meeting: [&[(u8, u8)]; 2] = [&[(b'z', b'z'), (b'a', b'a')], &[(b'm', b'm'), (b'z', b'z')]];
    let at_ends: [&[(u8, u8)]; 2] = [&[(b'x', b'z'), (b'a', b'c')], &[(b'p', b'x'), (b'd', b'g')]];
    let shape = |number: u8, classes: [&[(u8, u8)]; 2]| {
        let mut draft = Draft::new();
        let sets = classes.map(|pairs| draft.set(pairs));
        let root = clash(&mut draft, number, sets);
        (draft, root)
    };
    let mut cases = Vec::new();
    for number in 7..=11 {
        for classes in [apart, runs] {
            let (draft, root) = shape(number, classes);
            cases.push(check("hulls that meet", &draft, Accepted(usize::from(root) + 1)));
        }
        for classes in [meeting, at_ends] {
            let (draft, root) = shape(number, classes);
            cases.push(check("one byte in common", &draft, Refused(number, root)));
        }
    }
    cases
}

/// A set with these operands over this pool, under a copy.
fn raw(pool: Vec<u8>, start: usize, count: usize) -> Draft {
    let mut draft = Draft { pool, ..Draft::new() };
    let set = draft.set_at(start, count);
    draft.copy(set);
    draft
}

fn counts_and_places() -> Vec<SetCase> {
    let pool = |length: usize| b"az".repeat(length / 2 + 1)[..length].to_vec();
    let of = |name, length, start, count, expected| check(name, &raw(pool(length), start, count), expected);
    let (fits, refused) = (Accepted(2), Refused(3, 0));
    let mut high = vec![b'z'; 300];
    high[256..258].copy_from_slice(b"az");
    vec![
        of("no pair", 8, 0, 0, refused),
        of("no pair and no pool", 0, 0, 0, refused),
        of("32 pairs", 64, 0, 32, fits),
        of("33 pairs", 66, 0, 33, refused),
        of("255 pairs", 512, 0, 255, refused),
        of("at the pool's end", 8, 6, 1, fits),
        of("a byte too far", 8, 7, 1, refused),
        of("behind the pool", 8, 8, 1, refused),
        of("as many pairs as pool bytes", 4, 0, 4, refused),
        of("only one byte a pair would fit", 8, 4, 3, refused),
        of("the longest pool's end", 512, 448, 32, fits),
        of("two bytes too far there", 512, 450, 32, refused),
        of("a start over 65,000", 512, 65_535, 1, refused),
        of("no pool", 0, 0, 1, refused),
        get("a start over 255", &raw(high.clone(), 256, 1), b"m", Text(b"m")),
        get("a start over 255", &raw(high, 254, 1), b"m", Refused(13, 0)),
    ]
}

fn reversed_pairs() -> Vec<SetCase> {
    let with = |name, pool: &[u8], count| check(name, &raw(pool.to_vec(), 0, count), Refused(3, 0));
    let mut last = b"az".repeat(32);
    last[62..].copy_from_slice(b"za");
    let unused = raw(b"azza".to_vec(), 0, 1);
    vec![
        with("the first is reversed", b"baaz", 2),
        with("the second is reversed", b"azba", 2),
        with("the last of 32 is reversed", &last, 32),
        check("the reversed one is not the set's", &unused, Accepted(2)),
    ]
}

fn other_kinds() -> Vec<SetCase> {
    let of = |kind| {
        let mut draft = Draft { pool: b"az".to_vec(), ..Draft::new() };
        let node = draft.add(kind, [0, 0, 1]);
        draft.copy(node);
        check("kinds 6 to 15", &draft, Refused(2, 0))
    };
    let mut both = Draft { pool: b"za".to_vec(), ..Draft::new() };
    both.set_at(0, 1);
    both.add(6, [0, 0, 0]);
    let mut root = Draft::new();
    root.copy_word(b"a");
    root.set(&[(b'a', b'z')]);
    let others = [check("a fault before it", &both, Refused(3, 0)), check("a set as the root", &root, Refused(3, 2))];
    (6..=15).map(of).chain(others).collect()
}

/// A set is no word, also if it holds one byte; what a default is in may be one.
fn words_and_defaults() -> Vec<SetCase> {
    let constant = |choose: fn([NodeNumber; 3]) -> [NodeNumber; 3]| {
        let mut draft = Draft::new();
        let nodes = [draft.set(&[(b'a', b'a'), (b'z', b'z')]), draft.set(&[(b'a', b'a')]), draft.word(b"a")];
        let [pattern, sheet, default] = choose(nodes);
        draft.constant(pattern, sheet, default);
        draft
    };
    let mut between = Draft::new();
    let nodes = [between.set(&[(b'a', b'a'), (b'z', b'z')]), between.word(b""), between.word(b"m")];
    between.constant(nodes[0], nodes[1], nodes[2]);
    vec![
        check("a set as the pattern", &constant(|[set, _, word]| [set, word, word]), Accepted(4)),
        check("a set as the sheet's word", &constant(|[set, one, word]| [set, one, word]), Refused(3, 3)),
        check("a set as the default", &constant(|[set, one, word]| [set, word, one]), Refused(3, 3)),
        check("a default between the runs", &between, Refused(6, 3)),
    ]
}

/// A set is one position on both sides, and its size is 1 however many pairs it has.
fn limits() -> Vec<SetCase> {
    let mut draft = Draft::new();
    let mut row = draft.set(&[(b'a', b'b'); 32]);
    for _ in 0..7 {
        row = draft.pattern_join(row, row);
    }
    let full = draft.copy(row);
    let fits = check("128 positions", &draft, Accepted(9));
    let more = draft.set(&[(b'a', b'b')]);
    let more = draft.copy(more);
    let join = draft.lens_join(full, more);
    vec![fits, check("129 positions", &draft, Refused(5, join))]
}
