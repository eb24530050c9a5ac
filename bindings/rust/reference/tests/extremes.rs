//! What stands just inside the limits and breaks a careless design.

mod common;

use common::*;
use noontrough_reference::generator::cases::Call;
use noontrough_reference::generator::draft::{Draft, NodeNumber};
use noontrough_reference::Program;

/// One source byte `a`, `length` sheet bytes `b` (at most 128).
fn widened(draft: &mut Draft, length: usize) -> NodeNumber {
    let first = draft.replace(b"a", &b"b".repeat(length / 2));
    let second = draft.replace(b"", &b"b".repeat(length - length / 2));
    draft.lens_join(first, second)
}

#[test]
fn the_sheet_of_one_old_entry_can_have_524288_bytes() {
    let mut draft = Draft::new();
    let wide = widened(&mut draft, 128);
    let many = draft.lens_repeat(wide);
    draft.matched(many);
    let table = draft.table();
    let old = b"a".repeat(4096);
    assert_eq!(Program::read(&table).expect("accepted").get(&old).len(), 524_288);
    assert_eq!(get(&table, &old), refused(16));
    assert_eq!(put(&table, &b"b".repeat(4096), &old), Ok(b"a".repeat(32)));
}

#[test]
fn the_key_of_an_old_entry_can_be_as_long() {
    // Left: key b*. Right: a* and a mark, shown as so many b that the left arm
    // reads them as its key.
    let mut draft = Draft::new();
    let byte = draft.word(b"b");
    let many = draft.pattern_repeat(byte);
    let left = draft.key(many);
    let wide = widened(&mut draft, 127);
    let wides = draft.lens_repeat(wide);
    let mark = draft.replace(b"c", b"");
    let right = draft.lens_join(wides, mark);
    let either = draft.lens_union(left, right);
    draft.matched(either);
    let table = draft.table();
    let program = Program::read(&table).expect("accepted");

    let longest = [&b"a".repeat(4095)[..], b"c"].concat();
    assert_eq!(program.key(program.root(), &program.get(&longest)).len(), 520_065);
    assert_eq!(put(&table, b"bb", &longest), text("bb"), "no entry has this key, so the left arm creates");

    let shorter = [&b"a".repeat(32)[..], b"c"].concat();
    assert_eq!(put(&table, &program.get(&shorter), &shorter), Ok(shorter));
}

#[test]
fn a_source_can_have_520192_entries() {
    // 127 empty entries in front of each byte.
    let mut draft = Draft::new();
    let nothing = draft.copy_word(b"");
    let mut doubled = draft.matched(nothing);
    let mut all = doubled;
    for _ in 0..6 {
        doubled = draft.lens_join(doubled, doubled);
        all = draft.lens_join(all, doubled);
    }
    let byte = draft.copy_word(b"a");
    let part = draft.lens_join(all, byte);
    draft.lens_repeat(part);
    let table = draft.table();
    let source = b"a".repeat(4096);
    assert_eq!(Program::read(&table).expect("accepted").count_entries(&source), 520_192);
    assert_eq!(get(&table, &source), Ok(source.clone()));
    assert_eq!(put(&table, &source, &source), refused(15));
    assert_eq!(put(&table, &source, b"aa"), Ok(source.clone()), "254 old entries, 520,192 new ones");
    assert_eq!(create(&table, &source), Ok(source));
}

#[test]
fn a_create_can_come_to_16257024_bytes() {
    // 62 hidden runs of 64 bytes for each byte of the sheet.
    let mut draft = Draft::new();
    let hidden = |draft: &mut Draft, byte: u8| {
        let class = draft.range(byte, byte);
        let some = draft.pattern_some(class);
        draft.delete(some, &[byte; 64])
    };
    let (b, c) = (hidden(&mut draft, b'b'), hidden(&mut draft, b'c'));
    let mut doubled = draft.lens_join(b, c);
    let mut all = doubled;
    for _ in 0..4 {
        doubled = draft.lens_join(doubled, doubled);
        all = draft.lens_join(all, doubled);
    }
    let byte = draft.copy_word(b"a");
    let part = draft.lens_join(byte, all);
    draft.lens_repeat(part);
    let table = draft.table();
    let sheet = b"a".repeat(4096);
    assert_eq!(Program::read(&table).expect("accepted").create(&sheet).len(), 16_257_024);
    assert_eq!(create(&table, &sheet), refused(16));
    assert_eq!(create(&table, b"a").expect("fits").len(), 3969);
}

#[test]
fn a_cut_may_depend_on_the_end_of_the_text() {
    let mut draft = Draft::new();
    let [a, ab, bb] =
        [(b"a".as_slice(), b"1"), (b"ab", b"2"), (b"bb", b"3")].map(|(source, sheet)| draft.replace(source, sheet));
    let either = draft.lens_union(a, ab);
    let part = draft.lens_union(either, bb);
    draft.lens_repeat(part);
    let table = draft.table();
    for (count, first) in [(4095, "2"), (4094, "1")] {
        let source = [b"a", &b"b".repeat(count)[..]].concat();
        assert_eq!(get(&table, &source), text(&format!("{first}{}", "3".repeat(2047))));
    }
}

#[test]
fn automata_are_not_made_deterministic() {
    // (a|b)* a (a|b)^60, as an entry that ends in a semicolon.
    let mut draft = Draft::new();
    let (a, b) = (draft.word(b"a"), draft.word(b"b"));
    let either = draft.pattern_union(a, b);
    let many = draft.pattern_repeat(either);
    let sixty = (1..60).fold(either, |row, _| draft.pattern_join(row, either));
    let tail = draft.pattern_join(a, sixty);
    let pattern = draft.pattern_join(many, tail);
    let key = draft.key(pattern);
    let end = draft.copy_word(b";");
    let line = draft.lens_join(key, end);
    let entry = draft.matched(line);
    draft.lens_repeat(entry);
    let table = draft.table();
    assert_eq!(check(&table), Ok(draft.len()));
    let mut source = b"ab".repeat(2000);
    source.extend(b"a;");
    assert_eq!(get(&table, &source), Ok(source.clone()));
    assert_eq!(put(&table, &source, &source), Ok(source.clone()));
    source[4001 - 61] = b'b';
    assert_eq!(get(&table, &source), refused(13));
}

#[test]
fn long_texts_with_two_cuts_are_found() {
    // The shortest has 3,723 bytes; with both moduli even there is none.
    let table = two_moduli(61, 62);
    assert_eq!(check(&table), refuses(10, table[0] - 1));
    let table = two_moduli(60, 62);
    assert_eq!(check(&table), Ok(usize::from(table[0])));
    // One cut at 0 and one at 4,095, and no other.
    let table = joined_powers(63, 65);
    assert_eq!(check(&table), refuses(7, table[0] - 1));
}

#[test]
fn dense_programs_are_checked_in_time() {
    // 64 positions that all follow each other, on both halves of a join.
    let mut draft = Draft::new();
    let class = draft.range(0, 127);
    let mut union = class;
    for _ in 0..5 {
        union = draft.pattern_union(union, union);
    }
    let many = draft.pattern_repeat(union);
    let end = draft.range(128, 255);
    let first = draft.copy(many);
    let end = draft.copy(end);
    let part = draft.lens_join(first, end);
    let entry = draft.matched(part);
    draft.lens_repeat(entry);
    let table = draft.table();
    assert_eq!(check(&table), Ok(draft.len()));
    let source = [b"\x7f".repeat(4095), vec![255]].concat();
    assert_eq!(outcome(Call::Put, &table, &source, &source, 4096).answer, Ok(4096));
}
