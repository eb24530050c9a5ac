//! Classes that are not one run (kind 5), and programs around them.
//!
//! What a set does shows best beside another one. The programs here have classes
//! whose hulls meet, that is, from their lowest to their highest byte; by their
//! bytes they are apart, or they share a single one.

use super::draft::{Draft, NodeNumber};
use super::random::Random;
use crate::answer::*;
use crate::class::{Class, Pair};
use crate::program::Program;
use crate::table::{kind, MAX_NODES, MAX_PAIRS, MAX_POOL};

/// The numbers that two classes with a common byte can bring about.
const CLASHES: [u8; 5] =
    [SOURCE_JOIN_AMBIGUOUS, SHEET_JOIN_AMBIGUOUS, UNION_OVERLAPS, SOURCE_REPEAT_AMBIGUOUS, SHEET_REPEAT_AMBIGUOUS];

/// A byte that no class of [`apart`] holds.
pub const MARK: u8 = 255;

/// Pairs of any sort: in any order, overlapping, equal, single bytes, every byte,
/// one pair and as many as there can be.
pub fn pairs(random: &mut Random) -> Vec<Pair> {
    let count = match random.below(6) {
        0 => 1,
        1 => MAX_PAIRS,
        _ => random.between(2, 6),
    };
    so_many_pairs(random, count)
}

fn so_many_pairs(random: &mut Random, count: usize) -> Vec<Pair> {
    let mut pairs: Vec<Pair> = (0..count).map(|_| pair(random)).collect();
    if random.once_in(4) {
        let (from, to) = (random.below(count), random.below(count));
        pairs[to] = pairs[from];
    }
    if random.once_in(6) {
        pairs[random.below(count)] = (0, 255);
    }
    pairs
}

/// Mostly a short one, so that many of them leave gaps.
fn pair(random: &mut Random) -> Pair {
    let first = random.byte();
    match random.below(4) {
        0 | 1 => (first, first),
        2 => (first, first.saturating_add(random.below(6) as u8)),
        _ => (first, random.between(usize::from(first), 255) as u8),
    }
}

/// So many classes of which no two share a byte, each as its pairs. Short runs of
/// bytes are dealt to them in turn, so that the hulls of all of them meet.
pub fn apart(random: &mut Random, count: usize) -> Vec<Vec<Pair>> {
    let mut dealt = vec![Vec::new(); count];
    let mut next = random.below(120);
    for run in 0..random.between(2 * count, 4 * count) {
        let last = next + *random.pick(&[0, 0, 1, 4]);
        dealt[run % count].push((next as u8, last as u8));
        next = last + random.between(1, 4);
    }
    debug_assert!(next <= usize::from(MARK));
    dealt.into_iter().map(|runs| scrambled(random, runs)).collect()
}

/// Two such classes, and then one byte more that both have.
fn meeting(random: &mut Random) -> Vec<Vec<Pair>> {
    let mut classes = apart(random, 2);
    let bytes: Vec<u8> = Class::of_pairs(classes[0].iter().copied()).bytes().collect();
    let shared = *random.pick(&bytes);
    let place = random.below(classes[1].len() + 1);
    classes[1].insert(place, (shared, shared));
    classes
}

/// The same bytes by more pairs, in any order.
fn scrambled(random: &mut Random, runs: Vec<Pair>) -> Vec<Pair> {
    let mut pairs = runs.clone();
    for _ in 0..random.below(4) {
        let (first, last) = *random.pick(&runs);
        let inside = random.between(usize::from(first), usize::from(last)) as u8;
        pairs.push(*random.pick(&[(first, inside), (inside, last), (first, last)]));
    }
    random.shuffle(&mut pairs);
    pairs
}

/// A lens that breaks the rule of this number, one of 7 to 11, if and only if the
/// two classes share a byte. Neither may hold [`MARK`].
pub fn clash(draft: &mut Draft, number: u8, [one, other]: [NodeNumber; 2]) -> NodeNumber {
    let many = |draft: &mut Draft, class| {
        let many = draft.pattern_repeat(class);
        draft.copy(many)
    };
    match number {
        SOURCE_JOIN_AMBIGUOUS => {
            let halves = [many(draft, one), many(draft, other)];
            draft.lens_join(halves[0], halves[1])
        }
        SHEET_JOIN_AMBIGUOUS => {
            let row = [many(draft, one), draft.replace(&[MARK], b""), many(draft, other)];
            draft.lens_row(&row)
        }
        UNION_OVERLAPS => {
            let arms = [draft.copy(one), draft.key(other)];
            draft.lens_union(arms[0], arms[1])
        }
        SOURCE_REPEAT_AMBIGUOUS => {
            let row = [draft.copy(one), many(draft, other)];
            let part = draft.lens_row(&row);
            draft.lens_repeat(part)
        }
        SHEET_REPEAT_AMBIGUOUS => {
            let row = [draft.replace(&[MARK], b""), draft.copy(one), many(draft, other)];
            let part = draft.lens_row(&row);
            draft.lens_repeat(part)
        }
        _ => unreachable!("{number} is not about two classes"),
    }
}

/// The numbers for which [`plant_sets`] has a fault, each as often as it is drawn.
pub(super) const SET_REFUSALS: [u8; 10] = {
    let [join, sheet_join, union, repeat, sheet_repeat] = CLASHES;
    let three = BAD_OPERAND;
    [three, three, three, three, three, join, sheet_join, union, repeat, sheet_repeat]
};

/// Plants a fault of sets; the number comes out in most draws, not in all.
pub(super) fn plant_sets(random: &mut Random, number: u8, draft: &mut Draft) {
    match number {
        BAD_OPERAND => bad_set(random, draft),
        _ => clashing_sets(random, draft, number),
    }
}

/// Two sets that share a byte, and above them what the number forbids.
fn clashing_sets(random: &mut Random, draft: &mut Draft, number: u8) {
    let sets = meeting(random).iter().map(|pairs| draft.set(pairs)).collect::<Vec<_>>();
    clash(draft, number, [sets[0], sets[1]]);
}

/// A set whose operands break a rule, or one where only a word may stand.
fn bad_set(random: &mut Random, draft: &mut Draft) {
    let mut pairs = pairs(random);
    let reversed: Pair = (b'b', b'a');
    match random.below(10) {
        0 => {
            let start = random.below(draft.pool.len() + 1);
            draft.set_at(start, 0);
        }
        1 => {
            let start = draft.pool.len();
            draft.pool.extend([b'a', b'a'].repeat(MAX_PAIRS + 1));
            draft.set_at(start, MAX_PAIRS + 1);
        }
        2 | 3 => outside_pool(random, draft),
        4 => {
            pairs[0] = reversed;
            draft.set(&pairs);
        }
        5 | 6 => {
            pairs.truncate(MAX_PAIRS - 1);
            let later = random.between(1, pairs.len());
            pairs.insert(later, reversed);
            draft.set(&pairs);
        }
        7 => drop(draft.set_at(usize::from(u16::MAX), 1)),
        operand => {
            let (word, set) = (draft.word(b"a"), draft.set(&[(b'a', b'a')]));
            let [sheet, default] = if operand == 8 { [set, word] } else { [word, set] };
            draft.constant(word, sheet, default);
        }
    }
    draft.copy_word(b"a");
}

/// The part leaves the pool: by a byte, by a pair, or so that it would fit with one
/// byte a pair.
fn outside_pool(random: &mut Random, draft: &mut Draft) {
    let count = random.between(1, 3);
    draft.pool.extend([b'a'; 8]);
    let inside = *random.pick(&[2 * count - 1, 2 * count - 2, count]);
    draft.set_at(draft.pool.len() - inside, count);
}

/// An accepted program that is made of sets.
pub fn sets(random: &mut Random) -> Draft {
    loop {
        let mut draft = Draft::new();
        match random.below(7) {
            0 | 1 => entries(random, &mut draft),
            2 | 3 => side_by_side(random, &mut draft),
            4 | 5 => at_the_pools_end(random, &mut draft),
            _ => over_one_part(random, &mut draft),
        }
        if Program::read(&draft.table()).is_ok() {
            return draft;
        }
    }
}

/// Names, hidden remarks and ends, each of a class of its own.
fn entries(random: &mut Random, draft: &mut Draft) {
    let classes = apart(random, 3);
    let [name, remark, end] = [0, 1, 2].map(|class: usize| draft.set(&classes[class]));
    let (name, remarks) = (draft.pattern_some(name), draft.pattern_repeat(remark));
    let default = [classes[1][0].0];
    let row = [draft.key(name), draft.delete(remarks, &default), draft.copy(end)];
    let line = draft.lens_row(&row);
    let entry = if random.once_in(5) { line } else { draft.matched(line) };
    draft.lens_repeat(entry);
}

/// What would be refused if the classes shared a byte, and they don't.
fn side_by_side(random: &mut Random, draft: &mut Draft) {
    let sets: Vec<NodeNumber> = apart(random, 2).iter().map(|pairs| draft.set(pairs)).collect();
    let lens = clash(draft, *random.pick(&CLASHES), [sets[0], sets[1]]);
    if random.once_in(2) {
        draft.matched(lens);
    }
}

/// The last bytes of the pool are a set's, also those of the longest pool.
fn at_the_pools_end(random: &mut Random, draft: &mut Draft) {
    let pairs = if random.once_in(2) { so_many_pairs(random, MAX_PAIRS) } else { pairs(random) };
    let free = MAX_POOL - 2 * pairs.len();
    let before = if random.once_in(2) { free } else { random.below(free) };
    draft.pool = (0..before).map(|_| random.byte()).collect();
    draft.pool.extend(pairs.iter().flat_map(|&(first, last)| [first, last]));
    let set = draft.set_at(before, pairs.len());
    let key = draft.key(set);
    let entry = draft.matched(key);
    draft.lens_repeat(entry);
}

/// Nearly as many nodes as there can be, most of them sets of one pool part.
fn over_one_part(random: &mut Random, draft: &mut Draft) {
    let pairs = pairs(random);
    let first = draft.set(&pairs);
    let others: Vec<NodeNumber> = (0..random.between(20, MAX_NODES / 2 - 3)).map(|_| draft.set(&pairs)).collect();
    debug_assert!(others.iter().all(|&set| draft.kinds[usize::from(set)] == kind::SET));
    let any = others.into_iter().fold(first, |any, set| draft.pattern_union(any, set));
    let key = draft.key(any);
    let entry = draft.matched(key);
    draft.lens_repeat(entry);
}
