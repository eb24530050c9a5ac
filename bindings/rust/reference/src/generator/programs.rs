//! Random accepted programs.
//!
//! Several ways, since each finds what the others miss: programs grown from any
//! nodes that still check (odd shapes, sharing, unreached nodes), records with
//! fields and separators (what a publishing house would write), small programs
//! around a union, and programs that go up to the limits. Nested unions, arms
//! with different entries, empty leaves, deep nesting, several matches, sets and
//! padded names have modules of their own.

use super::counted_arms::counted_arms;
use super::depths::{deep, loose};
use super::draft::{Draft, NodeNumber};
use super::empties::empty_leaves;
use super::padded_names::padded_names;
use super::random::Random;
use super::sets::{pairs, sets};
use super::several_matches::several_matches;
use super::texts::draw;
use super::unions::overlapping_unions;
use crate::program::Program;
use crate::table::{Side, Table, MAX_NODES, MAX_WORD};

/// How large a grown program may become.
#[derive(Clone, Copy)]
pub struct Room {
    pub nodes: usize,
    pub positions: usize,
    /// How often a new node is tried.
    pub attempts: usize,
}

impl Room {
    pub const USUAL: Room = Room { nodes: 40, positions: 128, attempts: 60 };
    pub const SMALL: Room = Room { nodes: 14, positions: 6, attempts: 40 };
}

/// An accepted program of any sort.
pub fn accepted(random: &mut Random) -> Draft {
    match random.below(24) {
        0..=3 => grown(random, Room::USUAL),
        4..=6 => records(random),
        7 => two_kinds(random),
        8 => large(random),
        9..=11 => overlapping_unions(random),
        12 => empty_leaves(random),
        13..=14 => deep(random),
        15..=16 => several_matches(random),
        17 => counted_arms(random),
        18..=20 => sets(random),
        21..=22 => padded_names(random),
        _ => loose(random),
    }
}

/// Whether all nodes so far are in order. A last node that is a pattern is; it
/// only can't be the root.
pub fn stands(draft: &Draft) -> bool {
    let last = draft.len() - 1;
    match Program::read(&draft.table()) {
        Ok(_) => true,
        Err(refusal) => {
            refusal.number == crate::answer::BAD_OPERAND
                && usize::from(refusal.node) == last
                && draft.is_pattern(last as NodeNumber)
        }
    }
}

fn within(draft: &Draft, room: Room) -> bool {
    draft.len() <= room.nodes
        && Program::read(&draft.table()).map_or(true, |program| {
            let measures = &program.table().measures;
            measures.iter().all(|m| m.source_positions.max(m.sheet_positions) <= room.positions)
        })
}

/// A program grown node by node: each new node takes any nodes below it, and
/// stays if the program still checks.
pub fn grown(random: &mut Random, room: Room) -> Draft {
    let alphabet = Alphabet::draw(random);
    // The repeat over a match at the end needs two nodes.
    let below = Room { nodes: room.nodes - 2, ..room };
    loop {
        let mut draft = Draft::new();
        if random.once_in(2) {
            key_and_remark(random, &mut draft, &alphabet);
        }
        for _ in 0..random.between(room.attempts / 4, room.attempts) {
            let mut longer = draft.clone();
            propose(random, &mut longer, &alphabet);
            if stands(&longer) && within(&longer, below) {
                draft = longer;
            }
        }
        crown(random, &mut draft, room);
        if Program::read(&draft.table()).is_ok() {
            return draft;
        }
    }
}

/// A key and a hidden remark, the parts that make matching worth while.
fn key_and_remark(random: &mut Random, draft: &mut Draft, alphabet: &Alphabet) {
    let (one, other) = (alphabet.byte(random), alphabet.byte(random));
    let name = draft.range(one.min(other), one.max(other));
    let key = draft.key(name);
    let digit = draft.range(b'0', b'1');
    let remark = draft.delete(digit, b"0");
    if random.once_in(2) {
        draft.lens_join(key, remark);
    }
}

/// Ends a draft in a lens, mostly in a repeat over a match if that checks. The
/// largest lenses are tried first, so that little of what was grown is unused.
pub(super) fn crown(random: &mut Random, draft: &mut Draft, room: Room) {
    let Some(&last) = draft.lenses().last() else { return };
    draft.truncate(usize::from(last) + 1);
    let Ok(table) = Table::read(&draft.table()) else { return };
    let mut lenses = draft.lenses();
    random.shuffle(&mut lenses);
    if !random.once_in(3) {
        lenses.sort_by_key(|&lens| std::cmp::Reverse(table.measures[usize::from(lens)].size));
    }
    if random.once_in(5) {
        return;
    }
    for lens in lenses {
        let mut crowned = draft.clone();
        let entry = if random.once_in(6) { lens } else { crowned.matched(lens) };
        crowned.lens_repeat(entry);
        if stands(&crowned) && within(&crowned, room) {
            *draft = crowned;
            return;
        }
    }
}

/// A small program around a union: entries with and without a mark that the
/// sheet does not show, matched together or apart, one or two of them or many.
pub fn two_kinds(random: &mut Random) -> Draft {
    loop {
        let mut draft = Draft::new();
        let (name, digit) = (draft.range(b'a', b'b'), draft.range(b'0', b'1'));
        let name = if random.once_in(4) { draft.copy(name) } else { draft.key(name) };
        let remark = draft.delete(digit, b"0");
        let plain = if random.once_in(2) { draft.lens_join(name, remark) } else { draft.lens_join(remark, name) };
        if random.once_in(4) {
            let entry = draft.matched(plain);
            one_or_two(&mut draft, entry);
        } else {
            let body = *random.pick(&[plain, plain, name, remark]);
            let mark = if random.once_in(3) { draft.copy_word(b"!") } else { draft.replace(b"!", b"") };
            let marked = draft.lens_join(mark, body);
            either_kind(random, &mut draft, plain, marked);
        }
        if Program::read(&draft.table()).is_ok() {
            return draft;
        }
    }
}

fn either_kind(random: &mut Random, draft: &mut Draft, plain: NodeNumber, marked: NodeNumber) {
    let (mut left, mut right) = if random.once_in(2) { (plain, marked) } else { (marked, plain) };
    let matched_apart = random.once_in(3);
    if matched_apart {
        left = draft.matched(left);
        if random.once_in(2) {
            right = draft.matched(right);
        }
    }
    let mut either = draft.lens_union(left, right);
    if !matched_apart && !random.once_in(4) {
        either = draft.matched(either);
    }
    if !random.once_in(5) {
        draft.lens_repeat(either);
    }
}

/// The few bytes that a program speaks of, so that its texts meet often.
struct Alphabet {
    bytes: Vec<u8>,
}

impl Alphabet {
    fn draw(random: &mut Random) -> Alphabet {
        const CHOICES: [&[u8]; 8] = [b"ab", b"abc", b"ab;", b"AB01;", b"\x00\xff", b"xyz$", b"a", b"a ;"];
        Alphabet { bytes: random.pick(&CHOICES).to_vec() }
    }

    fn byte(&self, random: &mut Random) -> u8 {
        *random.pick(&self.bytes)
    }

    fn text(&self, random: &mut Random, most: usize) -> Vec<u8> {
        (0..random.below(most + 1)).map(|_| self.byte(random)).collect()
    }
}

/// Adds one node, or the few that a const needs.
fn propose(random: &mut Random, draft: &mut Draft, alphabet: &Alphabet) -> NodeNumber {
    let (patterns, lenses) = (draft.patterns(), draft.lenses());
    if patterns.is_empty() {
        return leaf(random, draft, alphabet);
    }
    let pattern = recent(random, &patterns);
    if lenses.is_empty() {
        return small_lens(random, draft, alphabet, pattern);
    }
    let (left, right) = (recent(random, &lenses), recent(random, &lenses));
    match random.below(20) {
        0..=2 => leaf(random, draft, alphabet),
        3 => draft.pattern_join(pattern, *random.pick(&patterns)),
        4 => draft.pattern_union(pattern, *random.pick(&patterns)),
        5 => draft.pattern_repeat(pattern),
        6..=9 => small_lens(random, draft, alphabet, pattern),
        10..=13 => draft.lens_join(left, right),
        14..=16 => draft.lens_union(left, right),
        17 => draft.lens_repeat(left),
        _ => draft.matched(left),
    }
}

fn leaf(random: &mut Random, draft: &mut Draft, alphabet: &Alphabet) -> NodeNumber {
    let (one, other) = (alphabet.byte(random), alphabet.byte(random));
    match random.below(7) {
        0 => draft.range(one.min(other), one.max(other)),
        1 => draft.range(0, 255),
        2 => draft.set(&[(one, one), (other, other)]),
        _ => draft.word(&alphabet.text(random, 3)),
    }
}

fn small_lens(random: &mut Random, draft: &mut Draft, alphabet: &Alphabet, pattern: NodeNumber) -> NodeNumber {
    match random.below(3) {
        0 => draft.copy(pattern),
        1 => draft.key(pattern),
        _ => {
            let sheet = draft.word(&alphabet.text(random, 2));
            let default = default_of(random, draft, pattern);
            let default = draft.word(&default);
            draft.constant(pattern, sheet, default)
        }
    }
}

/// A text of a pattern that a word can hold; the empty one if none was met.
pub fn default_of(random: &mut Random, draft: &Draft, pattern: NodeNumber) -> Vec<u8> {
    // A copy above the pattern makes a table that can be read.
    let mut readable = draft.clone();
    readable.copy(pattern);
    let Ok(table) = Table::read(&readable.table()) else { return Vec::new() };
    (0..8)
        .map(|_| draw(random, &table, usize::from(pattern), Side::Source, 1, 8))
        .find(|text| text.len() <= MAX_WORD)
        .unwrap_or_default()
}

/// One of the later nodes more often than one of the earlier, so that programs
/// become deep.
pub(super) fn recent(random: &mut Random, nodes: &[NodeNumber]) -> NodeNumber {
    let back = random.below(nodes.len()).min(random.below(nodes.len()));
    nodes[nodes.len() - 1 - back]
}

/// A program of records: fields with separators, entries of one or two kinds,
/// perhaps within blocks or behind a heading.
pub fn records(random: &mut Random) -> Draft {
    loop {
        let mut draft = Draft::new();
        let entry = record_entry(random, &mut draft);
        let root = match random.below(6) {
            0 => heading(random, &mut draft, entry),
            1 => blocks(random, &mut draft, entry),
            2 => one_or_two(&mut draft, entry),
            _ => draft.lens_repeat(entry),
        };
        debug_assert_eq!(usize::from(root), draft.len() - 1);
        if Program::read(&draft.table()).is_ok() {
            return draft;
        }
    }
}

/// One entry, or a union of two kinds of entry told apart by a mark in the
/// source that the sheet may or may not show.
fn record_entry(random: &mut Random, draft: &mut Draft) -> NodeNumber {
    let matching = !random.once_in(5);
    let plain = fields(random, draft);
    let enter = |draft: &mut Draft, lens| if matching { draft.matched(lens) } else { lens };
    if random.once_in(2) {
        return enter(draft, plain);
    }
    let mark = if random.once_in(2) { draft.replace(b"!", b"") } else { draft.copy_word(b"!") };
    // Sharing the fields makes the sheets of the two kinds overlap.
    let body = if random.once_in(2) { plain } else { fields(random, draft) };
    let marked = draft.lens_join(mark, body);
    if random.once_in(2) {
        let either = if random.once_in(2) { draft.lens_union(plain, marked) } else { draft.lens_union(marked, plain) };
        enter(draft, either)
    } else {
        let (plain, marked) = (enter(draft, plain), enter(draft, marked));
        draft.lens_union(plain, marked)
    }
}

fn fields(random: &mut Random, draft: &mut Draft) -> NodeNumber {
    let count = random.between(1, 4);
    let mut row = Vec::new();
    for index in 0..count {
        row.push(field(random, draft));
        let separator: &[u8] = if index + 1 == count { b";" } else { b"," };
        row.push(if random.once_in(6) { draft.replace(separator, b":") } else { draft.copy_word(separator) });
    }
    draft.lens_row(&row)
}

fn field(random: &mut Random, draft: &mut Draft) -> NodeNumber {
    let (first, last) = *random.pick(&[(b'A', b'Z'), (b'0', b'9'), (b'a', b'c'), (0xC0, 0xFF), (b'A', b'A')]);
    let class = match random.below(9) {
        0 => draft.set(&[(0xD8, 0xDE), (b'A', b'Z'), (0xC0, 0xD6)]),
        1 => draft.set(&pairs(random)),
        2 => draft.set(&[(b'A', b'C'), (b' ', b' ')]),
        _ => draft.range(first, last),
    };
    let pattern = if random.once_in(2) { draft.pattern_repeat(class) } else { draft.pattern_some(class) };
    match random.below(4) {
        0 | 1 => draft.key(pattern),
        2 => draft.copy(pattern),
        _ => {
            let default = default_of(random, draft, pattern);
            draft.delete(pattern, &default)
        }
    }
}

fn heading(random: &mut Random, draft: &mut Draft, entry: NodeNumber) -> NodeNumber {
    let any = draft.range(b'a', b'z');
    let line = draft.pattern_repeat(any);
    let head = if random.once_in(2) { draft.delete(line, b"note") } else { draft.copy(line) };
    let end = draft.copy_word(b"\n");
    let list = draft.lens_repeat(entry);
    draft.lens_row(&[head, end, list])
}

/// A repeat of blocks, each a repeat of entries in brackets.
fn blocks(random: &mut Random, draft: &mut Draft, entry: NodeNumber) -> NodeNumber {
    let open = if random.once_in(2) { draft.copy_word(b"{") } else { draft.replace(b"{", b"") };
    let list = draft.lens_repeat(entry);
    let close = draft.copy_word(b"}");
    let block = draft.lens_row(&[open, list, close]);
    draft.lens_repeat(block)
}

/// Crossing the arms of this union carries entries over through the book.
fn one_or_two(draft: &mut Draft, entry: NodeNumber) -> NodeNumber {
    let two = draft.lens_join(entry, entry);
    draft.lens_union(entry, two)
}

/// A program that goes up to the limits of size, positions or nodes.
pub fn large(random: &mut Random) -> Draft {
    loop {
        let mut draft = Draft::new();
        let word: Vec<u8> = (0..random.between(0, 3)).map(|_| *random.pick(b"ab")).collect();
        let mut lens = match random.below(3) {
            0 => draft.copy_word(&word),
            1 => draft.replace(&word, b"ab"),
            _ => draft.replace(b"a", &word),
        };
        let entry = random.once_in(2);
        if entry {
            lens = draft.matched(lens);
        }
        let mut rows = vec![lens];
        while draft.len() < MAX_NODES - 2 {
            let mut longer = draft.clone();
            let (left, right) = (recent(random, &rows), recent(random, &rows));
            let joined = longer.lens_join(left, right);
            if stands(&longer) {
                draft = longer;
                rows.push(joined);
            } else if random.once_in(3) {
                break;
            }
        }
        let mut repeated = draft.clone();
        repeated.lens_repeat((draft.len() - 1) as NodeNumber);
        if stands(&repeated) {
            draft = repeated;
        }
        if Program::read(&draft.table()).is_ok() {
            return draft;
        }
    }
}
