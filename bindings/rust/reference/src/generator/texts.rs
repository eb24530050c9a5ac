//! Random texts: of a language, of a wanted length, edited, or garbage.

use super::random::Random;
use crate::automaton::{Automaton, Reading, State};
use crate::class::Class;
use crate::program::Program;
use crate::table::{Node, Side, Table};

/// A text of a node's language on one side, by a walk through the pattern.
///
/// `more` is how willingly a repeat takes one more part; repeats stop once the
/// text has `enough` bytes.
pub fn draw(random: &mut Random, table: &Table, node: usize, side: Side, more: usize, enough: usize) -> Vec<u8> {
    let mut text = Vec::new();
    Walk { random, table, side, more, enough }.go(node, &mut text);
    text
}

struct Walk<'a> {
    random: &'a mut Random,
    table: &'a Table,
    side: Side,
    more: usize,
    enough: usize,
}

impl Walk<'_> {
    fn go(&mut self, node: usize, text: &mut Vec<u8>) {
        match self.table.nodes[node] {
            Node::Word(ref word) => text.extend_from_slice(word),
            Node::Class(class) => text.push(byte_of(self.random, class)),
            Node::PatternJoin(a, b) | Node::LensJoin(a, b) => {
                self.go(a, text);
                self.go(b, text);
            }
            Node::PatternUnion(a, b) | Node::LensUnion(a, b) => {
                let arm = *self.random.pick(&[a, b]);
                self.go(arm, text);
            }
            Node::PatternRepeat(a) | Node::LensRepeat(a) => {
                while text.len() < self.enough && !self.random.once_in(self.more + 1) {
                    self.go(a, text);
                }
            }
            Node::Copy(a) | Node::Key(a) | Node::Match(a) => self.go(a, text),
            Node::Const { pattern, sheet, .. } => match self.side {
                Side::Source => self.go(pattern, text),
                Side::Sheet => self.go(sheet, text),
            },
        }
    }
}

/// The ends of a run are where mistakes are, so they come up often. No node has an
/// empty class.
fn byte_of(random: &mut Random, class: Class) -> u8 {
    let (first, last) = *random.pick(&class.runs());
    match random.below(3) {
        0 => first,
        1 => last,
        _ => random.between(usize::from(first), usize::from(last)) as u8,
    }
}

/// A text of exactly this length, if the language has one.
pub fn draw_of_length(random: &mut Random, automaton: &Automaton, length: usize) -> Option<Vec<u8>> {
    let can_end = states_with_end_in(automaton, length);
    let mut state = automaton.start;
    let mut text = Vec::with_capacity(length);
    if !can_end[length][state] {
        return None;
    }
    loop {
        let left = length - text.len();
        if left == 0 && state == automaton.end {
            return Some(text);
        }
        let State { reading, free } = &automaton.states[state];
        let reading = reading.filter(|reading| left > 0 && can_end[left - 1][reading.to]);
        let free: Vec<usize> = free.iter().copied().filter(|&to| can_end[left][to]).collect();
        match reading {
            Some(Reading { class, to }) if free.is_empty() => {
                text.push(byte_of(random, class));
                state = to;
            }
            _ => state = *random.pick(&free),
        }
    }
}

/// For each number of bytes up to `length`, the states from which exactly so
/// many bytes can lead to the end.
fn states_with_end_in(automaton: &Automaton, length: usize) -> Vec<Vec<bool>> {
    let count = automaton.states.len();
    let mut reached = vec![automaton.end];
    let mut table = Vec::with_capacity(length + 1);
    loop {
        let mut marks = vec![false; count];
        reached.retain(|&state| !std::mem::replace(&mut marks[state], true));
        let mut next = 0;
        while next < reached.len() {
            for &from in &automaton.turned()[reached[next]].free {
                if !std::mem::replace(&mut marks[from], true) {
                    reached.push(from);
                }
            }
            next += 1;
        }
        let before = reached.iter().filter_map(|&state| automaton.turned()[state].reading).map(|reading| reading.to);
        reached = before.collect();
        table.push(marks);
        if table.len() > length {
            return table;
        }
    }
}

/// A text that is most likely of no language: random bytes, or a legal text
/// with a byte changed, dropped or put in.
pub fn garbage(random: &mut Random, legal: &[u8]) -> Vec<u8> {
    let mut text = legal.to_vec();
    let place = random.below(text.len() + 1);
    let in_text = place < text.len();
    match random.below(4) {
        0 if in_text => text[place] = neighbour(random, legal[place]),
        1 if in_text => {
            text.remove(place);
        }
        2 => text.insert(place, random.byte()),
        _ => text = (0..random.below(12)).map(|_| random.byte()).collect(),
    }
    text
}

/// The byte before or behind is just outside a range more often than others.
fn neighbour(random: &mut Random, byte: u8) -> u8 {
    match random.below(3) {
        0 => byte.wrapping_add(1),
        1 => byte.wrapping_sub(1),
        _ => random.byte(),
    }
}

/// A sheet edited as a reader would: parts dropped, doubled, reordered, or
/// replaced by new ones, and padded anew where the program knows spaces. Only sheets
/// of repeats have parts; others are redrawn.
pub fn edit(random: &mut Random, program: &Program, sheet: &[u8]) -> Vec<u8> {
    let Node::LensRepeat(part) = *program.node(program.root()) else {
        return draw(random, program.table(), program.root(), Side::Sheet, 3, 64);
    };
    let ranges = program.parts(program.root(), part, Side::Sheet, sheet);
    let mut parts: Vec<Vec<u8>> = ranges.into_iter().map(|range| sheet[range].to_vec()).collect();
    for _ in 0..random.between(1, 4) {
        let place = random.below(parts.len() + 1);
        let in_parts = place < parts.len();
        match random.below(5) {
            0 if in_parts => drop(parts.remove(place)),
            1 if in_parts => parts.insert(place, parts[place].clone()),
            2 if in_parts => parts[place] = draw(random, program.table(), part, Side::Sheet, 2, 32),
            3 => parts.insert(place, draw(random, program.table(), part, Side::Sheet, 2, 32)),
            _ => random.shuffle(&mut parts),
        }
    }
    if knows_spaces(program) {
        for text in &mut parts {
            *text = repadded(random, program, part, text);
        }
    }
    parts.concat()
}

fn knows_spaces(program: &Program) -> bool {
    program.table().nodes.iter().any(|node| match node {
        Node::Word(word) => word.contains(&b' '),
        Node::Class(class) => class.has(b' '),
        _ => false,
    })
}

/// The sheet of a part with some spaces more or one less, rarely with a tab, at any place
/// where the part can have it; as it was if no such place was met, and sometimes anyway.
fn repadded(random: &mut Random, program: &Program, part: usize, text: &[u8]) -> Vec<u8> {
    for _ in 0..random.below(6) {
        let mut padded = text.to_vec();
        let place = random.below(text.len() + 1);
        match text.get(place) {
            Some(b' ') if random.once_in(2) => drop(padded.remove(place)),
            _ => {
                let blanks = *random.pick(&[&b" "[..], b" ", b"  ", b"    ", b"\t"]);
                padded.splice(place..place, blanks.iter().copied());
            }
        }
        if program.fits(part, Side::Sheet, &padded) {
            return padded;
        }
    }
    text.to_vec()
}
