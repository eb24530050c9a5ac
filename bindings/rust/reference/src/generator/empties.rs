//! Programs with leaves whose texts are empty on one side or on both.

use super::draft::{Draft, NodeNumber};
use super::programs::{crown, recent, stands, Room};
use super::random::Random;
use crate::program::Program;

/// An accepted program most of whose leaves are empty on a side.
pub fn empty_leaves(random: &mut Random) -> Draft {
    loop {
        let mut draft = Draft::new();
        let mut lenses = Vec::new();
        for _ in 0..random.between(2, 5) {
            lenses.push(empty_leaf(random, &mut draft));
        }
        for _ in 0..random.between(1, 3) {
            lenses.push(full_leaf(random, &mut draft));
        }
        random.shuffle(&mut lenses);
        for _ in 0..random.between(8, 30) {
            grow(random, &mut draft, &mut lenses);
        }
        crown(random, &mut draft, Room::USUAL);
        if Program::read(&draft.table()).is_ok() {
            return draft;
        }
    }
}

/// One more lens over any two, if the program still checks.
fn grow(random: &mut Random, draft: &mut Draft, lenses: &mut Vec<NodeNumber>) {
    let (left, right) = (recent(random, lenses), recent(random, lenses));
    let mut longer = draft.clone();
    let lens = match random.below(10) {
        0..=4 => longer.lens_join(left, right),
        5..=7 => longer.lens_union(left, right),
        8 => longer.lens_repeat(left),
        _ => longer.matched(left),
    };
    // The crown needs two nodes more.
    if stands(&longer) && longer.len() + 2 <= Room::USUAL.nodes {
        *draft = longer;
        lenses.push(lens);
    }
}

fn empty_leaf(random: &mut Random, draft: &mut Draft) -> NodeNumber {
    match random.below(8) {
        0 => draft.copy_word(b""),
        1 => draft.replace(b"", b""),
        2 => draft.replace(&[*random.pick(b"xy")], b""),
        3 => draft.replace(b"", &[*random.pick(b"ab")]),
        4 => hidden_or_absent(draft),
        _ => {
            let pattern = empty_pattern(random, draft);
            if random.once_in(2) {
                draft.copy(pattern)
            } else {
                draft.key(pattern)
            }
        }
    }
}

/// Patterns that take the empty text, and mostly no other.
fn empty_pattern(random: &mut Random, draft: &mut Draft) -> NodeNumber {
    let nothing = draft.word(b"");
    match random.below(5) {
        0 => nothing,
        1 => draft.pattern_repeat(nothing),
        2 => draft.pattern_join(nothing, nothing),
        3 => draft.pattern_union(nothing, nothing),
        _ => {
            let byte = draft.word(b"a");
            draft.pattern_union(nothing, byte)
        }
    }
}

/// Perhaps a byte in the source, nothing in the sheet.
fn hidden_or_absent(draft: &mut Draft) -> NodeNumber {
    let (nothing, byte) = (draft.word(b""), draft.word(b"x"));
    let either = draft.pattern_union(nothing, byte);
    draft.delete(either, b"")
}

fn full_leaf(random: &mut Random, draft: &mut Draft) -> NodeNumber {
    match random.below(5) {
        0 => draft.copy_word(b";"),
        1 => draft.copy_word(b"a"),
        2 => draft.replace(b"b", b"a"),
        _ => {
            let name = draft.range(b'a', b'b');
            draft.key(name)
        }
    }
}
