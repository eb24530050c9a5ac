//! Why a program is refused with 7 to 11, by the linked engine. What is expected is
//! worked out by hand from document 02's rule: a shortest text that breaks the rule,
//! the lowest in byte order among these, and the two smallest ends of all its cuts.

use noontrough::{check, clash, in_place, Answer, Clash, ClashAnswer, Ways, MAX_CLASH, MAX_TEXT};
use noontrough_reference::generator::draft::{Draft, NodeNumber};

/// What the buffer holds where nothing is written.
const UNTOUCHED: u8 = b'?';

/// A clash with a buffer of every length that matters: long enough, just long
/// enough, and one byte too short. Its number and its node are those of check.
fn shows(draft: &Draft, number: u64, node: NodeNumber, text: &[u8], ways: Ways) {
    let (table, node) = (draft.table(), u64::from(node));
    assert_eq!(check(&table), Answer::Refusal { number, node });
    for length in [text.len(), text.len() + 1, MAX_CLASH, 2 * MAX_CLASH] {
        let mut out = vec![UNTOUCHED; length];
        assert_eq!(clash(&table, &mut out), ClashAnswer::Clash(Clash { number, node, text, ways }), "{length} bytes");
        assert!(out[text.len()..].iter().all(|&byte| byte == UNTOUCHED), "only the text is written");
    }
    if let Some(short) = text.len().checked_sub(1) {
        refuses(&table, short, 17, 0);
        refuses(&table, 0, 17, 0);
    }
}

/// A refusal with a buffer of this length, which stays as it was.
fn refuses(table: &[u8], length: usize, number: u64, node: u64) {
    for call in [clash, in_place::clash] {
        let mut out = vec![UNTOUCHED; length];
        assert_eq!(call(table, &mut out), ClashAnswer::Refusal { number, node });
        assert_eq!(out, vec![UNTOUCHED; length]);
    }
}

/// A copy of any of these words.
fn any_of(draft: &mut Draft, words: &[&str]) -> NodeNumber {
    let mut words = words.iter().map(|word| word.as_bytes());
    let first = draft.word(words.next().expect("there are words"));
    let all = words.fold(first, |before, word| {
        let next = draft.word(word);
        draft.pattern_union(before, next)
    });
    draft.copy(all)
}

/// A lens with these sheets, each of a source of its own that no other begins with.
fn shown_as(draft: &mut Draft, sheets: &[&str]) -> NodeNumber {
    let mut sources = b'0'..;
    let mut next = |sheet: &&str| draft.replace(&[sources.next().expect("few sheets")], sheet.as_bytes());
    let lenses: Vec<NodeNumber> = sheets.iter().map(&mut next).collect();
    lenses.into_iter().reduce(|before, lens| draft.lens_union(before, lens)).expect("there are sheets")
}

fn joined(first: &[&str], second: &[&str]) -> (Draft, NodeNumber) {
    let mut draft = Draft::new();
    let (a, b) = (any_of(&mut draft, first), any_of(&mut draft, second));
    let join = draft.lens_join(a, b);
    (draft, join)
}

#[test]
fn joins_show_the_two_smallest_ends_of_all_cuts() {
    let (draft, join) = joined(&["a", "ab", "abc"], &["bcd", "cd", "d"]);
    shows(&draft, 7, join, b"abcd", Ways::Ends(1, 2));
    let (draft, join) = joined(&["abc", "", "ab"], &["d", "abcd", "cd"]);
    shows(&draft, 7, join, b"abcd", Ways::Ends(0, 2));
    let (draft, join) = joined(&["ab", "a"], &["", "b"]);
    shows(&draft, 7, join, b"ab", Ways::Ends(1, 2));
}

#[test]
fn the_lowest_of_the_shortest_texts_is_shown() {
    // Lower than bxx are only longer ones, which begin with aaaa.
    let (draft, join) = joined(&["c", "b", "cx", "bx", "aaaa", "aaaax"], &["xx", "x"]);
    shows(&draft, 7, join, b"bxx", Ways::Ends(1, 2));
    // Both begin with a; the second byte decides, whatever arm it comes from.
    let mut draft = Draft::new();
    let (a, b) = (any_of(&mut draft, &["ac", "ab", "b"]), any_of(&mut draft, &["ac", "a", "ab"]));
    let union = draft.lens_union(a, b);
    shows(&draft, 9, union, b"ab", Ways::Arms(a.into(), b.into()));
}

#[test]
fn unions_show_their_children_in_the_order_of_their_operands() {
    let mut draft = Draft::new();
    let (low, high) = (any_of(&mut draft, &["m", "b", "ax"]), any_of(&mut draft, &["ax", "m"]));
    let union = draft.lens_union(high, low);
    shows(&draft, 9, union, b"m", Ways::Arms(high.into(), low.into()));

    let mut draft = Draft::new();
    let child = any_of(&mut draft, &["bb", "ba", "aaa"]);
    let union = draft.lens_union(child, child);
    shows(&draft, 9, union, b"ba", Ways::Arms(child.into(), child.into()));

    let mut draft = Draft::new();
    let (a, b) = (any_of(&mut draft, &["a", ""]), any_of(&mut draft, &["", "a"]));
    let union = draft.lens_union(a, b);
    shows(&draft, 9, union, b"", Ways::Arms(a.into(), b.into()));
}

/// The sets share e, f and y; e is in the second pair of each.
#[test]
fn the_lowest_byte_of_two_sets() {
    let mut draft = Draft::new();
    let (one, other) =
        (draft.set(&[(b'x', b'z'), (b'c', b'f')]), draft.set(&[(b'q', b'r'), (b'e', b'h'), (b'y', b'y')]));
    let (a, b) = (draft.copy(one), draft.copy(other));
    let union = draft.lens_union(a, b);
    shows(&draft, 9, union, b"e", Ways::Arms(a.into(), b.into()));
}

#[test]
fn repeats_show_their_first_part() {
    let mut draft = Draft::new();
    let part = any_of(&mut draft, &["ab", "c", "abc", "abcc"]);
    let repeat = draft.lens_repeat(part);
    shows(&draft, 10, repeat, b"abc", Ways::Ends(2, 3));
}

#[test]
fn a_part_that_can_be_empty_is_shown_by_the_empty_text() {
    // Also if other texts can be cut in two ways.
    let mut draft = Draft::new();
    let part = any_of(&mut draft, &["a", "aa", ""]);
    let repeat = draft.lens_repeat(part);
    shows(&draft, 10, repeat, b"", Ways::Ends(0, 0));

    let mut draft = Draft::new();
    let hidden = draft.replace(b"a", b"");
    let repeat = draft.lens_repeat(hidden);
    shows(&draft, 11, repeat, b"", Ways::Ends(0, 0));
}

#[test]
fn sheets_are_shown_where_only_they_break_the_rule() {
    let mut draft = Draft::new();
    let lens = shown_as(&mut draft, &["x", "xx"]);
    let join = draft.lens_join(lens, lens);
    shows(&draft, 8, join, b"xxx", Ways::Ends(1, 2));

    let mut draft = Draft::new();
    let lens = shown_as(&mut draft, &["ab", "c", "abc"]);
    let repeat = draft.lens_repeat(lens);
    shows(&draft, 11, repeat, b"abc", Ways::Ends(2, 3));
}

/// In the sheet the shorter text xx would be one.
#[test]
fn the_source_is_shown_where_both_break_the_rule() {
    let mut draft = Draft::new();
    let (x, xx) = (draft.replace(b"abc", b"x"), draft.replace(b"abcabc", b"xx"));
    let part = draft.lens_union(x, xx);
    let repeat = draft.lens_repeat(part);
    shows(&draft, 10, repeat, b"abcabc", Ways::Ends(3, 6));
}

#[test]
fn of_which_side_a_text_is() {
    let on_side = |number| Clash { number, node: 1, text: b"", ways: Ways::Ends(0, 0) }.is_in_source();
    assert_eq!([7, 8, 9, 10, 11].map(on_side), [true, false, true, true, false]);
}

/// Both halves are runs of a: any number times 61, and any number times 63. So the
/// first two cuts that differ are those of 61 times 63.
#[test]
fn a_text_just_under_the_limit_of_other_texts() {
    let mut draft = Draft::new();
    let [a, b] = [61, 63].map(|count| {
        let word = draft.word(&vec![b'a'; count]);
        let many = draft.pattern_repeat(word);
        draft.copy(many)
    });
    let join = draft.lens_join(a, b);
    shows(&draft, 7, join, &[b'a'; 61 * 63], Ways::Ends(0, 61 * 63));
}

/// Parts `{c, e} (a^p)* {nothing, f}` and `{c, de} a (a^q)* {d, f}`. Two lists of
/// parts first differ in a text that begins with c, where the one part ends before a
/// d and the other behind it; so n times a stand between c and d, n being 0 modulo p
/// and 1 modulo q. Behind the d an e must follow, since a part that begins with d
/// goes on so. There the lists change their roles, and the next run of a has such a
/// number again before both can end, at an f.
fn two_runs(p: usize, q: usize) -> (Draft, NodeNumber) {
    let mut draft = Draft::new();
    let mut row = |begins: [&str; 2], middle: &str, count: usize, ends: [&str; 2]| {
        let [begin, end] = [begins, ends].map(|words| {
            let [one, other] = words.map(|word| draft.word(word.as_bytes()));
            draft.pattern_union(one, other)
        });
        let (middle, word) = (draft.word(middle.as_bytes()), draft.word(&b"a".repeat(count)));
        let rest = [middle, draft.pattern_repeat(word), end];
        rest.into_iter().fold(begin, |row, next| draft.pattern_join(row, next))
    };
    let rows = [row(["c", "e"], "", p, ["", "f"]), row(["c", "de"], "a", q, ["d", "f"])];
    let either = draft.pattern_union(rows[0], rows[1]);
    let part = draft.copy(either);
    let repeat = draft.lens_repeat(part);
    (draft, repeat)
}

/// 59 times 59 is 0 modulo 59 and, being 58 times 60 and 1, is 1 modulo 60.
#[test]
fn a_text_longer_than_any_other_call_takes() {
    let (draft, repeat) = two_runs(59, 60);
    let run = [b'a'; 59 * 59];
    let text = [b"c", &run[..], b"de", &run, b"f"].concat();
    assert_eq!(text.len(), 6966);
    shows(&draft, 10, repeat, &text, Ways::Ends(run.len() + 1, run.len() + 2));
    refuses(&draft.table(), MAX_TEXT, 17, 0);
}

#[test]
fn accepted_programs_have_none() {
    let k = include_bytes!("../../../examples/k/program.table");
    for length in [0, 1, MAX_CLASH] {
        let mut out = vec![UNTOUCHED; length];
        assert_eq!(clash(k, &mut out), ClashAnswer::NoClash);
        assert_eq!(out, vec![UNTOUCHED; length]);
    }
}

/// As check gives them, whatever the buffer: 17 comes after all of them.
#[test]
fn other_refusals_come_through() {
    let refused_program = |number: u64, node: NodeNumber, draft: &Draft| {
        [0, MAX_CLASH].iter().for_each(|&length| refuses(&draft.table(), length, number, node.into()));
    };
    refuses(b"", 0, 1, 0);
    let mut draft = Draft::new();
    any_of(&mut draft, &["a"]);
    let mut unknown = draft.clone();
    let node = unknown.add(99, [0; 3]);
    refused_program(2, node, &unknown);
    let mut reversed = draft.clone();
    let node = reversed.range(b'z', b'a');
    refused_program(3, node, &reversed);
    let mut deep = draft.clone();
    let inner = deep.matched(1);
    let node = deep.matched(inner);
    refused_program(4, node, &deep);
    let mut long = draft.clone();
    let [half, end] = [64, 1].map(|count| long.word(&vec![b'a'; count]));
    let whole = long.pattern_join(half, half);
    let node = long.pattern_join(whole, end);
    refused_program(5, node, &long);
}

/// The first node that breaks one of these rules decides, as in check.
#[test]
fn a_wrong_default_and_a_clash() {
    let (mut draft, join) = joined(&["a", "ab"], &["b", ""]);
    let (word, other) = (draft.word(b"x"), draft.word(b"y"));
    draft.constant(word, other, other);
    shows(&draft, 7, join, b"ab", Ways::Ends(1, 2));

    let mut draft = Draft::new();
    let (word, other) = (draft.word(b"x"), draft.word(b"y"));
    let wrong = draft.constant(word, other, other);
    draft.lens_union(wrong, wrong);
    refuses(&draft.table(), 0, 6, wrong.into());
}

#[test]
fn a_clash_out_of_an_answer() {
    let (draft, _) = joined(&["ab", "a"], &["", "b"]);
    let mut out = [0; 2];
    assert_eq!(clash(&draft.table(), &mut out).clash().map(|found| found.text), Some(&b"ab"[..]));
    assert_eq!(ClashAnswer::NoClash.clash(), None);
    assert_eq!(ClashAnswer::Refusal { number: 17, node: 0 }.clash(), None);
}
