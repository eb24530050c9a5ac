//! The printed examples of the report (003) that the kinds of document 01 can
//! express, with the values printed there.

mod common;

use common::*;
use noontrough_reference::generator::draft::{Draft, NodeNumber};
use noontrough_reference::Program;

/// [A-Za-z ]+
fn alpha(draft: &mut Draft) -> NodeNumber {
    let (upper, lower, space) = (draft.range(b'A', b'Z'), draft.range(b'a', b'z'), draft.word(b" "));
    let letter = draft.pattern_union(upper, lower);
    let class = draft.pattern_union(letter, space);
    draft.pattern_some(class)
}

/// [0-9]{4} . "-" . [0-9]{4}
fn years(draft: &mut Draft) -> NodeNumber {
    let digit = draft.range(b'0', b'9');
    let two = draft.pattern_join(digit, digit);
    let four = draft.pattern_join(two, two);
    let dash = draft.word(b"-");
    let second = draft.pattern_join(dash, four);
    draft.pattern_join(four, second)
}

/// copy "" | comp . (copy "\n" . comp)*
fn list_of(draft: &mut Draft, comp: NodeNumber) {
    let nothing = draft.copy_word(b"");
    let newline = draft.copy_word(b"\n");
    let line = draft.lens_join(newline, comp);
    let lines = draft.lens_repeat(line);
    let some = draft.lens_join(comp, lines);
    draft.lens_union(nothing, some);
}

fn composers_by_place() -> Vec<u8> {
    let mut draft = Draft::new();
    let (alpha, years, comma) = (alpha(&mut draft), years(&mut draft), draft.word(b", "));
    let name = draft.copy(alpha);
    let row = [name, draft.copy(comma), draft.delete(years, b"0000-0000"), draft.delete(comma, b", "), name];
    let comp = draft.lens_row(&row);
    list_of(&mut draft, comp);
    draft.table()
}

fn composers_by_key() -> Vec<u8> {
    let mut draft = Draft::new();
    let (alpha, years, comma) = (alpha(&mut draft), years(&mut draft), draft.word(b", "));
    let hidden = draft.pattern_join(years, comma);
    let row = [draft.key(alpha), draft.copy(comma), draft.delete(hidden, b"0000-0000, "), draft.copy(alpha)];
    let comp = draft.lens_row(&row);
    let entry = draft.matched(comp);
    list_of(&mut draft, entry);
    draft.table()
}

const COMPOSERS: &str = "Jean Sibelius, 1865-1957, Finnish
Aaron Copland, 1910-1990, American
Benjamin Britten, 1913-1976, English";

const NATIONALITIES: &str = "Jean Sibelius, Finnish
Aaron Copland, American
Benjamin Britten, English";

const REORDERED: &str = "Jean Sibelius, Finnish
Benjamin Britten, English
Aaron Copland, American";

#[test]
fn composers_show_names_and_nationalities() {
    for table in [composers_by_place(), composers_by_key()] {
        assert_eq!(get(&table, COMPOSERS.as_bytes()), text(NATIONALITIES));
        assert_eq!(get(&table, b""), text(""));
        assert_eq!(put(&table, NATIONALITIES.as_bytes(), COMPOSERS.as_bytes()), text(COMPOSERS));
    }
}

#[test]
fn composers_edited_and_added() {
    let sheet = "Jean Sibelius, Finnish
Aaron Copland, American
Benjamin Britten, British
Alexandre Tansman, Polish";
    let source = "Jean Sibelius, 1865-1957, Finnish
Aaron Copland, 1910-1990, American
Benjamin Britten, 1913-1976, British
Alexandre Tansman, 0000-0000, Polish";
    for table in [composers_by_place(), composers_by_key()] {
        assert_eq!(put(&table, sheet.as_bytes(), COMPOSERS.as_bytes()), text(source));
    }
}

#[test]
fn composers_reordered_are_mangled_by_place_and_kept_by_key() {
    let mangled = "Jean Sibelius, 1865-1957, Finnish
Benjamin Britten, 1910-1990, English
Aaron Copland, 1913-1976, American";
    let kept = "Jean Sibelius, 1865-1957, Finnish
Benjamin Britten, 1913-1976, English
Aaron Copland, 1910-1990, American";
    let put_reordered = |table: &[u8]| put(table, REORDERED.as_bytes(), COMPOSERS.as_bytes());
    assert_eq!(put_reordered(&composers_by_place()), text(mangled));
    assert_eq!(put_reordered(&composers_by_key()), text(kept));
}

#[test]
fn keys_of_dollar() {
    let mut draft = Draft::new();
    dollar(&mut draft);
    let program = Program::read(&draft.table()).expect("l$ is accepted");
    assert_eq!(program.get(b"xxyzz$"), b"xxzz$");
    assert_eq!(program.key(program.root(), &program.get(b"xxyzz$")), b"xx");
    assert_eq!(program.key(program.root(), b"xxz$"), b"xx");
}

#[test]
fn repeated_dollar_with_and_without_match() {
    let mut by_place = Draft::new();
    let lens = dollar(&mut by_place);
    let mut by_key = by_place.clone();
    by_place.lens_repeat(lens);
    let entry = by_key.matched(lens);
    by_key.lens_repeat(entry);

    let (sheet, old) = (b"xxzzz$x$", b"xyz$xxyyzz$");
    assert_eq!(put(&by_key.table(), sheet, old), text("xxyyzzz$xy$"));
    assert_eq!(put(&by_place.table(), sheet, old), text("xxyzzz$xyy$"));
}

#[test]
fn crossing_the_arms_of_a_union_keeps_entries() {
    let one_or_two = |matching: bool| {
        let mut draft = Draft::new();
        let mut lens = dollar(&mut draft);
        if matching {
            lens = draft.matched(lens);
        }
        let two = draft.lens_join(lens, lens);
        draft.lens_union(lens, two);
        draft.table()
    };
    let old = b"xyz$xxyyzz$";
    assert_eq!(get(&one_or_two(true), old), text("xz$xxzz$"));
    assert_eq!(put(&one_or_two(false), b"xxzz$", old), text("xxzz$"));
    assert_eq!(put(&one_or_two(true), b"xxzz$", old), text("xxyyzz$"));
}

fn union_of_replacements(draft: &mut Draft, pairs: &[(&[u8], &[u8])]) -> NodeNumber {
    let arms: Vec<NodeNumber> = pairs.iter().map(|(source, sheet)| draft.replace(source, sheet)).collect();
    let (&last, before) = arms.split_last().expect("there is a pair");
    before.iter().rev().fold(last, |union, &arm| draft.lens_union(arm, union))
}

#[test]
fn the_ambiguous_lens_is_refused() {
    let mut draft = Draft::new();
    let first = union_of_replacements(&mut draft, &[(b"a", b"a"), (b"aa", b"aa")]);
    let second = union_of_replacements(&mut draft, &[(b"a", b"b"), (b"aa", b"b")]);
    let join = draft.lens_join(first, second);
    assert_eq!(check(&draft.table()), refuses(7, join));
}

#[test]
fn the_bogus_lens_is_refused() {
    let mut draft = Draft::new();
    let k = union_of_replacements(&mut draft, &[(b"a", b"bb"), (b"aa", b"a"), (b"b", b"b"), (b"ba", b"ba")]);
    let join = draft.lens_join(k, k);
    assert_eq!(check(&draft.table()), refuses(7, join));
}
