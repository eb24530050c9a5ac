//! Programs nested 20 to 90 deep, and programs in whose texts the way is not
//! forced: at some byte several positions go on, and only what follows decides.

use super::draft::{Draft, NodeNumber};
use super::random::Random;
use crate::program::Program;

/// An accepted program that is a long chain of joins, unions or repeats.
pub fn deep(random: &mut Random) -> Draft {
    loop {
        let mut draft = Draft::new();
        let chain = match random.below(6) {
            0 => row_of_words(random, &mut draft),
            1 => row_of_runs(random, &mut draft),
            2 | 3 => ladder(random, &mut draft),
            4 => many_arms(random, &mut draft),
            _ => repeats(random, &mut draft),
        };
        finish(random, &mut draft, chain);
        if Program::read(&draft.table()).is_ok() {
            return draft;
        }
    }
}

/// Perhaps a match over the chain, and perhaps a repeat of it. Where that breaks
/// a rule, the whole program is drawn again.
fn finish(random: &mut Random, draft: &mut Draft, chain: NodeNumber) {
    let entry = if random.once_in(3) { draft.matched(chain) } else { chain };
    match random.below(4) {
        0 => {
            draft.lens_repeat(entry);
        }
        1 => {
            let end = draft.copy_word(b"\n");
            let line = draft.lens_join(entry, end);
            draft.lens_repeat(line);
        }
        _ => {}
    }
}

/// How a chain grows: by a new first half, a new second half, or both in turn.
#[derive(Clone, Copy)]
enum Growth {
    First,
    Second,
    InTurn,
}

impl Growth {
    fn draw(random: &mut Random) -> Growth {
        *random.pick(&[Growth::First, Growth::Second, Growth::InTurn])
    }

    fn order(self, step: usize, new: NodeNumber, chain: NodeNumber) -> (NodeNumber, NodeNumber) {
        let first = match self {
            Growth::First => true,
            Growth::Second => false,
            Growth::InTurn => step.is_multiple_of(2),
        };
        if first {
            (new, chain)
        } else {
            (chain, new)
        }
    }
}

/// A row of words, each cut where it always is.
fn row_of_words(random: &mut Random, draft: &mut Draft) -> NodeNumber {
    let mut leaves = Vec::new();
    for _ in 0..random.between(2, 4) {
        leaves.push(word_leaf(random, draft));
    }
    let (growth, steps) = (Growth::draw(random), random.between(20, 86));
    let more = (0..steps).map(|_| *random.pick(&leaves));
    chain_of_joins(draft, growth, leaves[0], more)
}

fn chain_of_joins(
    draft: &mut Draft,
    growth: Growth,
    first: NodeNumber,
    more: impl Iterator<Item = NodeNumber>,
) -> NodeNumber {
    more.enumerate().fold(first, |chain, (step, leaf)| {
        let (a, b) = growth.order(step, leaf, chain);
        draft.lens_join(a, b)
    })
}

fn word_leaf(random: &mut Random, draft: &mut Draft) -> NodeNumber {
    let leaf = match random.below(7) {
        0 => draft.copy_word(b""),
        1 => draft.replace(b"x", b""),
        2 => draft.replace(b"", b"y"),
        3 => draft.replace(b"a", b"bb"),
        4 => {
            let byte = draft.range(b'a', b'c');
            draft.copy(byte)
        }
        _ => {
            let byte = draft.range(b'a', b'c');
            draft.key(byte)
        }
    };
    if random.once_in(4) {
        draft.matched(leaf)
    } else {
        leaf
    }
}

/// Runs of two bytes in turn, shown or hidden, with texts of any length.
fn row_of_runs(random: &mut Random, draft: &mut Draft) -> NodeNumber {
    let runs = [b'a', b'b'].map(|byte| {
        let class = draft.range(byte, byte);
        let some = draft.pattern_some(class);
        match random.below(3) {
            0 => draft.copy(some),
            1 => draft.key(some),
            _ => {
                let (sheet, default) = (draft.word(&[byte]), draft.word(&[byte, byte]));
                draft.constant(some, sheet, default)
            }
        }
    });
    let growth = *random.pick(&[Growth::First, Growth::Second]);
    let more = (1..random.between(20, 63)).map(|step| runs[step % 2]);
    chain_of_joins(draft, growth, runs[0], more)
}

/// A union of an end and one more step, which leads to such a union again.
fn ladder(random: &mut Random, draft: &mut Draft) -> NodeNumber {
    let step = match random.below(4) {
        0 => draft.copy_word(b"a"),
        1 => draft.replace(b"a", b""),
        2 => draft.replace(b"a", b"b"),
        _ => {
            let byte = draft.word(b"a");
            draft.key(byte)
        }
    };
    let end = match random.below(4) {
        0 => draft.copy_word(b""),
        1 => draft.copy_word(b";"),
        2 => draft.replace(b";", b"b"),
        _ => {
            let class = draft.range(b'b', b'c');
            draft.key(class)
        }
    };
    let end = if random.once_in(4) { draft.matched(end) } else { end };
    let (joins, unions) = (Growth::draw(random), Growth::draw(random));
    let mut chain = end;
    for rung in 0..random.between(10, 43) {
        let (a, b) = joins.order(rung, step, chain);
        let further = draft.lens_join(a, b);
        let (a, b) = unions.order(rung / 2, end, further);
        chain = draft.lens_union(a, b);
    }
    chain
}

/// One arm for each of many bytes; the sheets of some are the same.
fn many_arms(random: &mut Random, draft: &mut Draft) -> NodeNumber {
    let shown = draft.word(b"B");
    let growth = Growth::draw(random);
    let mut chain = draft.copy(shown);
    for arm in 0..random.between(20, 29) as u8 {
        let class = draft.range(b'a' + arm, b'a' + arm);
        let lens = match random.below(3) {
            0 => draft.copy(class),
            1 => draft.key(class),
            _ => {
                // The default must be a word of the class.
                draft.truncate(draft.len() - 1);
                let class = draft.word(&[b'a' + arm]);
                draft.constant(class, shown, class)
            }
        };
        let (a, b) = growth.order(usize::from(arm), lens, chain);
        chain = draft.lens_union(a, b);
    }
    chain
}

/// Repeats in repeats, each part with an end of its own.
fn repeats(random: &mut Random, draft: &mut Draft) -> NodeNumber {
    let class = draft.range(b'0', b'9');
    let some = draft.pattern_some(class);
    let mut chain = if random.once_in(2) { draft.key(some) } else { draft.delete(some, b"0") };
    let levels = random.between(10, 19) as u8;
    let matched_level = random.below(40) as u8;
    for level in 0..levels {
        let end = draft.copy_word(&[b'a' + level]);
        let part = draft.lens_join(chain, end);
        let part = if level == matched_level { draft.matched(part) } else { part };
        chain = draft.lens_repeat(part);
    }
    chain
}

/// An accepted program in whose texts the way is not forced.
pub fn loose(random: &mut Random) -> Draft {
    loop {
        let mut draft = Draft::new();
        if random.once_in(3) {
            late_cuts(random, &mut draft);
        } else {
            loose_entries(random, &mut draft);
        }
        if Program::read(&draft.table()).is_ok() {
            return draft;
        }
    }
}

/// Entries of patterns that are ambiguous in themselves.
fn loose_entries(random: &mut Random, draft: &mut Draft) {
    let mut row = Vec::new();
    // A stretch of any length in which the way is forced.
    if random.once_in(2) {
        let digit = draft.range(b'0', b'9');
        let digits = draft.pattern_repeat(digit);
        row.push(draft.copy(digits));
    }
    for _ in 0..random.between(1, 2) {
        let pattern = loose_pattern(random, draft);
        row.push(if random.once_in(2) { draft.key(pattern) } else { draft.copy(pattern) });
        row.push(draft.copy_word(b";"));
    }
    if random.once_in(2) {
        let pattern = loose_pattern(random, draft);
        row.push(draft.delete(pattern, b"abbaabbabbaabba"));
        row.push(draft.copy_word(b","));
    }
    let line = draft.lens_row(&row);
    let entry = if random.once_in(4) { line } else { draft.matched(line) };
    if !random.once_in(3) {
        draft.lens_repeat(entry);
    }
}

fn loose_pattern(random: &mut Random, draft: &mut Draft) -> NodeNumber {
    let (low, high) = (draft.range(b'a', b'm'), draft.range(b'a', b'z'));
    let (word, one) = (draft.word(b"ab"), draft.word(b"a"));
    match random.below(4) {
        0 => {
            let either = draft.pattern_union(low, high);
            draft.pattern_repeat(either)
        }
        1 => {
            let short = draft.pattern_union(one, low);
            let either = draft.pattern_union(word, short);
            draft.pattern_repeat(either)
        }
        2 => {
            let (many, rest) = (draft.pattern_repeat(high), draft.pattern_repeat(low));
            let middle = draft.pattern_join(many, one);
            draft.pattern_join(middle, rest)
        }
        _ => {
            let many = draft.pattern_repeat(low);
            let tail = (0..random.between(1, 12)).fold(one, |row, _| draft.pattern_join(row, low));
            draft.pattern_join(many, tail)
        }
    }
}

/// Parts that begin with each other, so that the end of the text decides about
/// the first cut: `a`, `ab` and `bb`, on one side or on both.
fn late_cuts(random: &mut Random, draft: &mut Draft) {
    let numbered = random.once_in(2);
    let parts = [(b"a".as_slice(), b"1"), (b"ab", b"2"), (b"bb", b"1")];
    let parts = parts.map(|(text, number)| match random.below(3) {
        _ if numbered => draft.replace(text, number),
        0 => draft.replace(text, text),
        _ => draft.copy_word(text),
    });
    let mut parts = parts.to_vec();
    random.shuffle(&mut parts);
    if random.once_in(2) {
        let lens = draft.matched(parts[0]);
        parts[0] = lens;
    }
    let left = random.once_in(2);
    let pair = draft.lens_union(parts[0], parts[1]);
    let part = if left { draft.lens_union(pair, parts[2]) } else { draft.lens_union(parts[2], pair) };
    let list = draft.lens_repeat(part);
    if random.once_in(3) {
        let end = draft.copy_word(b";");
        let line = draft.lens_join(list, end);
        draft.lens_repeat(line);
    }
}
