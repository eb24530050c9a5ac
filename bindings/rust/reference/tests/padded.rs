//! Keys that are equal once their trailing spaces are cut: the cases by hand, what is
//! cut of a key, and how often random calls depend on it.

mod common;
#[path = "common/padded_cases.rs"]
mod padded_cases;

use common::*;
use noontrough_reference::generator::draft::Draft;
use noontrough_reference::lens::{has_padded_twins, trimmed};
use noontrough_reference::{Program, Reference};

#[test]
fn cases_by_hand() {
    padded_cases::all().iter().for_each(|case| case.make(&Reference));
}

#[test]
fn trailing_spaces_are_cut_and_nothing_else() {
    let cut: [(&[u8], &[u8]); 12] = [
        (b"AB", b"AB"),
        (b"AB ", b"AB"),
        (b"AB    ", b"AB"),
        (b"A B ", b"A B"),
        (b" AB", b" AB"),
        (b"  ", b""),
        (b"", b""),
        (b"AB\t", b"AB\t"),
        (b"AB\t ", b"AB\t"),
        (b"AB \t", b"AB \t"),
        (b"AB\n\x0B\x0C\r\xA0\0", b"AB\n\x0B\x0C\r\xA0\0"),
        (b"AB\x1F\x21 ", b"AB\x1F\x21"),
    ];
    for (key, short) in cut {
        assert_eq!(trimmed(key), short, "{key:?}");
    }
    let long = [b"a", &b" ".repeat(262_000)[..]].concat();
    assert_eq!(trimmed(&long), b"a");
}

fn key_of(draft: &Draft, sheet: &[u8]) -> Vec<u8> {
    let program = Program::read(&draft.table()).expect("accepted");
    program.key(program.root(), sheet)
}

#[test]
fn the_key_itself_keeps_its_spaces() {
    assert_eq!(key_of(&padded_cases::padded_k(), b"A ;"), b"A ");
    assert_eq!(key_of(&padded_cases::padded_k(), b"A ;B;"), b"A B", "joined, and cut as a whole");
    let program = Program::read(&padded_cases::padded_k().table()).expect("accepted");
    let book = program.book(b"A 1;  2;");
    let keys: Vec<&[u8]> = book.entries().iter().map(|entry| &entry.key[..]).collect();
    assert_eq!(keys, [&b"A "[..], b"  "]);
}

#[test]
fn entries_that_differ_by_spaces_only() {
    let program = Program::read(&padded_cases::padded_k().table()).expect("accepted");
    let differ = |source: &[u8]| has_padded_twins(program.book(source).entries());
    assert!(differ(b"A1;A 2;"));
    assert!(differ(b"A1;A\t3;A 2;"));
    assert!(differ(b"1; 2;"));
    assert!(!differ(b"A1;A1;"), "these are the same");
    assert!(!differ(b"A1; A2;A\t3;B 4;"));
}

/// Unedited, such entries stay; in another order they have equal keys.
#[test]
fn shuffled_entries_need_keys_that_differ_without_their_spaces() {
    let table = padded_cases::padded_k().table();
    let source = b"A1;A 2;";
    assert_eq!(put(&table, &get(&table, source).expect("a sheet"), source), Ok(source.to_vec()));
    assert_eq!(put(&table, b"A ;A;", source), text("A 1;A2;"), "not `A 2;A1;`");
    assert_eq!(put(&table, b"B ;A;", b"A1;B 2;"), text("B 2;A1;"));
}
