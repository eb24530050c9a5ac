//! The cases of document 01, with the values printed there.

mod common;

use common::*;
use noontrough_reference::calls::lenscheck;
use noontrough_reference::generator::cases::Call;
use noontrough_reference::generator::draft::Draft;
use noontrough_reference::trial::lent_buffer;
use noontrough_reference::Program;

#[test]
fn program_k_has_the_printed_measures() {
    let table = program_k();
    assert_eq!(table.len(), 65);
    let program = Program::read(&table).expect("K is accepted");
    let root = program.table().measures[14];
    assert_eq!((root.size, root.source_positions, root.sheet_positions), (16, 4, 3));
    assert_eq!(check(&table), Ok(15));
    assert_eq!(lenscheck(&table), "ok 15 4 3");
    assert_eq!(lenscheck(b""), "refused 1 0");
}

#[test]
fn get_of_k() {
    assert_eq!(get(&program_k(), b"AB1;C22;"), text("AB;C;"));
    assert_eq!(get(&program_k(), b""), text(""));
}

#[test]
fn put_of_k() {
    let k = program_k();
    let old = b"AB1;C22;";
    assert_eq!(put(&k, b"C;AB;", old), text("C22;AB1;"));
    assert_eq!(put(&k, b"C;D;", old), text("C22;D0;"));
    assert_eq!(put(&k, b"AB;AB;", old), text("AB1;AB0;"));
    assert_eq!(put(&k, b"A;A;", b"A1;A2;"), text("A1;A2;"));
}

#[test]
fn create_of_k() {
    assert_eq!(create(&program_k(), b"AB;"), text("AB0;"));
}

#[test]
fn eight_bytes_are_enough_and_seven_are_not() {
    let put_into = |lent| outcome(Call::Put, &program_k(), b"C;AB;", b"AB1;C22;", lent);
    assert_eq!(put_into(8).buffer, b"C22;AB1;");
    assert_eq!(put_into(8).answer, Ok(8));
    assert_eq!(put_into(7).answer, refuses(16, 0));
    assert_eq!(put_into(7).buffer, lent_buffer(7), "a refusal leaves the buffer unchanged");
    let longer = put_into(12).buffer;
    assert_eq!(&longer[..8], b"C22;AB1;");
    assert_eq!(longer[8..], lent_buffer(12)[8..], "a result changes only its own bytes");
}

#[test]
fn both_ends_of_a_range_belong_to_it() {
    let k = program_k();
    assert_eq!(get(&k, b"Z;"), text("Z;"));
    assert_eq!(get(&k, b"A;"), text("A;"));
    assert_eq!(get(&k, b"[;"), refused(13));
    assert_eq!(get(&k, b"@;"), refused(13));
    assert_eq!(create(&k, b"AB1;"), refused(14));
    assert_eq!(put(&k, b"AB1;", b"AB1;"), refused(14));
    assert_eq!(put(&k, b"AB1;", b"[;"), refused(13), "the source comes before the sheet");
}

#[test]
fn without_a_key_entries_meet_in_order() {
    let mut table = program_k();
    table[3 + 8] = 16;
    assert_eq!(put(&table, b"C;AB;", b"AB1;C22;"), text("C1;AB22;"));
}

#[test]
fn joins_and_unions_are_typed() {
    let mut draft = Draft::new();
    let byte = draft.word(b"a");
    let many = draft.pattern_repeat(byte);
    let copy = draft.copy(many);
    let join = draft.lens_join(copy, copy);
    assert_eq!(check(&draft.table()), refuses(7, join));

    for (first, answer) in [(b'M', refuses(9, 4)), (b'N', Ok(5))] {
        let mut draft = Draft::new();
        let (low, high) = (draft.range(b'A', b'M'), draft.range(first, b'Z'));
        let (low, high) = (draft.copy(low), draft.copy(high));
        draft.lens_union(low, high);
        assert_eq!(check(&draft.table()), answer);
    }
}

#[test]
fn repeats_are_typed() {
    let mut draft = Draft::new();
    let nothing = draft.replace(b"a", b"");
    let repeat = draft.lens_repeat(nothing);
    assert_eq!(check(&draft.table()), refuses(11, repeat));

    let mut draft = Draft::new();
    let byte = draft.word(b"a");
    let many = draft.pattern_repeat(byte);
    let copy = draft.copy(many);
    let repeat = draft.lens_repeat(copy);
    assert_eq!(check(&draft.table()), refuses(10, repeat));
}

#[test]
fn a_pattern_may_be_ambiguous_within_a_copy() {
    let mut draft = Draft::new();
    let byte = draft.word(b"a");
    let either = draft.pattern_union(byte, byte);
    draft.copy(either);
    assert_eq!(check(&draft.table()), Ok(3));
}

#[test]
fn the_number_of_entries_is_limited_in_put_only() {
    let k = program_k();
    let (source, sheet) = (b"A;".repeat(257), b"A;".repeat(257));
    assert_eq!(get(&k, &source), Ok(sheet.clone()));
    assert_eq!(put(&k, &sheet, &source), refused(15));
    assert_eq!(outcome(Call::Put, &k, &sheet, &source, 0).answer, refuses(15, 0), "15 comes before 16");
    assert_eq!(put(&k, &sheet[..512], &source[..512]), Ok(source[..512].to_vec()));
    assert_eq!(put(&k, b"", &source[..512]), text(""));
}

#[test]
fn texts_of_4097_bytes_are_refused() {
    let k = program_k();
    let long = [&b"A".repeat(4096)[..], b";"].concat();
    assert_eq!(long.len(), 4097);
    assert_eq!(get(&k, &long), refused(12));
    assert_eq!(create(&k, &long), refused(12));
    assert_eq!(put(&k, &long, b""), refused(12));
    assert_eq!(put(&k, b"", &long), refused(12));
    assert_eq!(put(&k, &long, b"["), refused(12), "12 comes before 13");
    assert_eq!(get(&k, &long[1..]), Ok(long[1..].to_vec()));
    // Create adds a 0 here, which is one byte over the longest result.
    assert_eq!(outcome(Call::Create, &k, &long[1..], b"", 5000).answer, refuses(16, 0));
}

#[test]
fn the_first_round_comes_before_the_root_and_the_root_before_the_second_round() {
    // A join with two cuts at node 3, an unknown kind at node 4.
    let mut draft = Draft::new();
    let byte = draft.word(b"a");
    let many = draft.pattern_repeat(byte);
    let copy = draft.copy(many);
    let join = draft.lens_join(copy, copy);
    let mut unknown = draft.clone();
    unknown.add(6, [0, 0, 0]);
    assert_eq!(check(&unknown.table()), refuses(2, 4));
    draft.word(b"a");
    assert_eq!(check(&draft.table()), refuses(3, 4));
    draft.copy(byte);
    assert_eq!(check(&draft.table()), refuses(7, join), "nodes that the root does not reach are checked too");
}

#[test]
fn the_readings_of_the_first_round() {
    let table_with = |kind, operands| {
        let mut draft = Draft::new();
        let word = draft.word(b"ab"); // node 0
        let copy = draft.copy(word); // node 1
        draft.matched(copy); // node 2
        draft.range(b'a', b'a'); // node 3
        draft.add(kind, operands); // node 4
        draft.copy(word);
        check(&draft.table())
    };
    assert_eq!(table_with(22, [2, 0, 0]), refuses(4, 4), "a match over a match");
    assert_eq!(table_with(22, [0, 0, 0]), refuses(3, 4), "a match over a pattern");
    assert_eq!(table_with(22, [4, 0, 0]), refuses(3, 4), "a node over itself");
    assert_eq!(table_with(17, [0, 3, 0]), refuses(3, 4), "a range is no word");
    assert_eq!(table_with(17, [0, 0, 0]), Ok(6));
    assert_eq!(table_with(1, [98, 97, 0]), refuses(3, 4));
    assert_eq!(table_with(1, [97, 97, 1]), refuses(3, 4));
    assert_eq!(table_with(0, [0, 0, 3]), refuses(3, 4), "a word longer than the pool");
    assert_eq!(table_with(0, [0, 3, 0]), refuses(3, 4), "an empty word behind the pool's end");
    assert_eq!(table_with(0, [0, 2, 0]), Ok(6));
    assert_eq!(table_with(0, [0, 0, 65]), refuses(3, 4));
    assert_eq!(table_with(5, [0, 0, 1]), Ok(6), "the pool's two bytes as a pair");
    assert_eq!(table_with(6, [0, 0, 0]), refuses(2, 4));
    assert_eq!(table_with(15, [0, 0, 0]), refuses(2, 4));
    assert_eq!(table_with(23, [1, 0, 0]), refuses(2, 4));
    for kind in [2, 3] {
        assert_eq!(table_with(kind, [0, 1, 0]), refuses(3, 4));
        assert_eq!(table_with(kind, [0, 3, 1]), refuses(3, 4));
    }
    for kind in [4, 16, 18] {
        assert_eq!(table_with(kind, [1, 0, 0]), refuses(3, 4));
        assert_eq!(table_with(kind, [0, 1, 0]), refuses(3, 4));
        assert_eq!(table_with(kind, [0, 0, 1]), refuses(3, 4));
    }
    for kind in [19, 20, 21, 22] {
        assert_eq!(table_with(kind, [0, 0, 0]), refuses(3, 4));
        assert_eq!(table_with(kind, [1, 1, 1]), refuses(3, 4));
    }
}

#[test]
fn limits_of_size_and_positions_are_sharp() {
    // Nothing but empty words: 1, 3, 7 .. 511 nodes written out, then 1023.
    let mut draft = Draft::new();
    let mut node = draft.word(b"");
    for _ in 0..8 {
        node = draft.pattern_join(node, node);
    }
    let copy = draft.copy(node);
    assert_eq!(check(&draft.table()), Ok(10), "a size of 512");
    let matched = draft.matched(copy);
    assert_eq!(check(&draft.table()), refuses(5, matched));

    let mut draft = Draft::new();
    let word = draft.word(&[b'a'; 64]);
    let double = draft.pattern_join(word, word);
    let copy = draft.copy(double);
    assert_eq!(check(&draft.table()), Ok(3), "128 positions");
    let more = draft.copy_word(b"a");
    let join = draft.lens_join(copy, more);
    assert_eq!(check(&draft.table()), refuses(5, join));
}
