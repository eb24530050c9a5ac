//! Programs refused with a wanted number, by construction: a fault is planted
//! onto an accepted program. And tables changed at random, whatever comes of it.

use super::draft::{Draft, NodeNumber};
use super::programs::default_of;
use super::random::Random;
use super::sets::{plant_sets, SET_REFUSALS};
use crate::answer::*;
use crate::program::Program;
use crate::table::{kind, MAX_NODES, MAX_POOL};

/// The numbers that a program itself can be refused with.
pub const PROGRAM_REFUSALS: std::ops::RangeInclusive<u8> = 1..=11;

/// A table refused with this number. `accepted` draws the program underneath.
pub fn refused(random: &mut Random, number: u8, accepted: &mut dyn FnMut(&mut Random) -> Draft) -> Vec<u8> {
    refused_by(random, number, accepted, plant)
}

/// A table that is refused for its sets, with 3 or 7 to 11.
pub fn refused_for_sets(random: &mut Random, accepted: &mut dyn FnMut(&mut Random) -> Draft) -> Vec<u8> {
    let number = *random.pick(&SET_REFUSALS);
    refused_by(random, number, accepted, plant_sets)
}

fn refused_by(
    random: &mut Random,
    number: u8,
    accepted: &mut dyn FnMut(&mut Random) -> Draft,
    plant: fn(&mut Random, u8, &mut Draft),
) -> Vec<u8> {
    loop {
        let mut draft = accepted(random);
        let table = if number == SIZES_WRONG {
            wrong_sizes(random, draft.table())
        } else {
            plant(random, number, &mut draft);
            draft.table()
        };
        if matches!(Program::read(&table), Err(refusal) if refusal.number == number) {
            return table;
        }
    }
}

/// A table with up to three bytes changed, most often into small numbers, which
/// are kinds, node numbers and lengths.
pub fn mutated(random: &mut Random, table: &[u8]) -> Vec<u8> {
    let mut changed = table.to_vec();
    for _ in 0..random.between(1, 3) {
        let place = random.below(changed.len());
        changed[place] = match random.below(4) {
            0 => random.byte(),
            1 => changed[place].wrapping_add(1),
            2 => changed[place].wrapping_sub(1),
            _ => random.below(24) as u8,
        };
    }
    changed
}

fn wrong_sizes(random: &mut Random, mut table: Vec<u8>) -> Vec<u8> {
    match random.below(6) {
        0 => table.truncate(random.below(table.len())),
        1 => table.push(random.byte()),
        2 => table[0] = random.byte(),
        3 => table[1] = random.byte(),
        4 => return too_many_nodes(random),
        _ => return too_long_pool(random),
    }
    table
}

/// Right but for one node over the limit, or with no node at all.
fn too_many_nodes(random: &mut Random) -> Vec<u8> {
    let mut draft = Draft::new();
    if random.once_in(2) {
        for _ in 0..=MAX_NODES {
            draft.word(b"");
        }
    }
    draft.table()
}

/// Right but for one pool byte over the limit.
fn too_long_pool(random: &mut Random) -> Vec<u8> {
    let mut draft = Draft::new();
    draft.copy_word(b"a");
    draft.pool = (0..=MAX_POOL).map(|_| random.byte()).collect();
    draft.table()
}

/// Plants a fault; the number comes out in most draws, not in all.
fn plant(random: &mut Random, number: u8, draft: &mut Draft) {
    if SET_REFUSALS.contains(&number) && random.once_in(4) {
        return plant_sets(random, number, draft);
    }
    match number {
        UNKNOWN_KIND => {
            let node = random.below(draft.len());
            draft.kinds[node] = *random.pick(&[6, 7, 15, 23, 24, 255]);
        }
        BAD_OPERAND => bad_operand(random, draft),
        MATCH_IN_MATCH => match_in_match(random, draft),
        LIMIT_PASSED => passed_limit(random, draft),
        BAD_DEFAULT => bad_default(random, draft),
        SOURCE_JOIN_AMBIGUOUS => {
            let (first, second) = ambiguous_pair(random, draft);
            draft.lens_join(first, second);
        }
        SHEET_JOIN_AMBIGUOUS => {
            let lens = once_or_twice(random, draft);
            draft.lens_join(lens, lens);
        }
        UNION_OVERLAPS => overlapping_union(random, draft),
        SOURCE_REPEAT_AMBIGUOUS => {
            let (lens, _) = ambiguous_pair(random, draft);
            draft.lens_repeat(lens);
        }
        SHEET_REPEAT_AMBIGUOUS => sheet_repeat(random, draft),
        _ => unreachable!("programs are refused with 1 to 11"),
    }
}

/// Breaks one operand of one node, or lets a pattern be the root.
fn bad_operand(random: &mut Random, draft: &mut Draft) {
    if random.once_in(6) {
        draft.range(b'a', b'z');
        return;
    }
    let node = random.below(draft.len());
    let operand = random.below(3);
    draft.operands[node][operand] = match random.below(4) {
        0 => node as u8,
        1 => random.byte(),
        2 => random.below(node + 1) as u8,
        _ => draft.operands[node][operand].wrapping_add(1),
    };
}

fn match_in_match(random: &mut Random, draft: &mut Draft) {
    let entry = matched_lens(random, draft);
    let above = match random.below(3) {
        0 => entry,
        1 => {
            let end = draft.copy_word(b"#");
            draft.lens_join(entry, end)
        }
        _ => {
            let mark = draft.replace(b"#", b"");
            draft.lens_union(mark, entry)
        }
    };
    draft.matched(above);
}

fn matched_lens(random: &mut Random, draft: &mut Draft) -> NodeNumber {
    let matches: Vec<usize> = (0..draft.len()).filter(|&node| draft.kinds[node] == kind::MATCH).collect();
    if matches.is_empty() {
        let lens = *random.pick(&draft.lenses());
        draft.matched(lens)
    } else {
        *random.pick(&matches) as NodeNumber
    }
}

/// Doubles a node until a limit is passed.
fn passed_limit(random: &mut Random, draft: &mut Draft) {
    let is_pattern = random.once_in(2);
    let text: &[u8] = if random.once_in(2) { b"" } else { b"ab" };
    let mut node = draft.word(text);
    if !is_pattern {
        node = draft.copy(node);
    }
    for _ in 0..9 {
        node = if is_pattern { draft.pattern_join(node, node) } else { draft.lens_join(node, node) };
    }
    if is_pattern {
        draft.copy(node);
    }
}

fn bad_default(random: &mut Random, draft: &mut Draft) {
    let pattern = *random.pick(&draft.patterns());
    let mut default = default_of(random, draft, pattern);
    match random.below(3) {
        0 => default.push(b'~'),
        1 => default.truncate(default.len().saturating_sub(1)),
        _ => default = b"~".to_vec(),
    }
    let default = draft.word(&default);
    draft.constant(pattern, default, default);
}

/// Two lenses whose join has a text with two cuts, and which fail when
/// repeated.
fn ambiguous_pair(random: &mut Random, draft: &mut Draft) -> (NodeNumber, NodeNumber) {
    let byte = *random.pick(b"ab;");
    let class = draft.range(byte, byte);
    let many = match random.below(3) {
        0 => draft.pattern_repeat(class),
        1 => draft.pattern_some(class),
        _ => {
            let twice = draft.pattern_join(class, class);
            draft.pattern_union(class, twice)
        }
    };
    let (first, second) = (draft.copy(many), draft.key(many));
    if random.once_in(2) {
        (first, second)
    } else {
        (second, first)
    }
}

/// A lens whose sources are told apart by their bytes, and whose sheets are one
/// or two of the same byte.
fn once_or_twice(random: &mut Random, draft: &mut Draft) -> NodeNumber {
    let once = draft.replace(b"0", b"x");
    let twice = draft.replace(b"1", b"xx");
    if random.once_in(2) {
        draft.lens_union(once, twice)
    } else {
        draft.lens_union(twice, once)
    }
}

fn sheet_repeat(random: &mut Random, draft: &mut Draft) {
    let lens = if random.once_in(2) { draft.replace(b"a", b"") } else { once_or_twice(random, draft) };
    draft.lens_repeat(lens);
}

fn overlapping_union(random: &mut Random, draft: &mut Draft) {
    let lens = *random.pick(&draft.lenses());
    let other = match random.below(3) {
        0 => lens,
        1 => {
            let any = draft.range(0, 255);
            let all = draft.pattern_repeat(any);
            draft.copy(all)
        }
        _ => *random.pick(&draft.lenses()),
    };
    draft.lens_union(lens, other);
}
