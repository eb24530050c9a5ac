//! Parts of a repeat with very many matches that read the empty text: a few
//! nodes, joined with themselves again and again, make up to 126 of them.

use super::cases::{case, lent_length, Call, Case};
use super::draft::{Draft, NodeNumber};
use super::random::Random;
use crate::calls::{MAX_ENTRIES, MAX_TEXT};
use crate::program::Program;

/// So many empty matches in each of so many parts are over 65,536.
const VERY_MANY: usize = 110;
const MANY_PARTS: usize = 600;
const LETTERS: &[u8] = b"abc";
const NAMES: &[u8] = b"ABCD";
const DIGITS: &[u8] = b"0123456789";

/// Calls about one program with many empty matches in a part.
pub fn many_empty_cases(random: &mut Random) -> Vec<Case> {
    let (shape, program) = Shape::draw(random);
    let empty = || (Vec::new(), Vec::new());
    let mut cases = vec![case(Call::Check, &shape.table, empty(), 0)];
    for call in [Call::Get, Call::Put, Call::Put, Call::Put, Call::Put, Call::Create] {
        let (sheet, source) = (shape.sheet(random), shape.source(random));
        let lent = lent_length(random, &program, call, &sheet, &source);
        cases.push(case(call, &shape.table, (sheet, source), lent));
    }
    // A result has room for very many only where they are empty in the source too.
    let is_wide = matches!(shape.hidden, Hidden::Nothing) && shape.before + shape.behind >= VERY_MANY;
    if is_wide && random.once_in(2) {
        let texts = (shape.sheet_of(random, MANY_PARTS), shape.source(random));
        cases.push(case(Call::Put, &shape.table, texts, MAX_TEXT));
    }
    cases
}

/// What an empty match has in the source.
#[derive(Clone, Copy)]
enum Hidden {
    Nothing,
    Digit,
    /// A byte for each arm of a union.
    Either,
}

impl Hidden {
    /// As many matches as keep to the limits of size and positions.
    fn most(self) -> usize {
        match self {
            Hidden::Nothing => 126,
            Hidden::Digit => 80,
            Hidden::Either => 44,
        }
    }

    fn write(self, draft: &mut Draft) -> NodeNumber {
        match self {
            Hidden::Nothing => draft.copy_word(b""),
            Hidden::Digit => {
                let digit = draft.range(b'0', b'9');
                draft.delete(digit, b"0")
            }
            Hidden::Either => {
                let [left, right] = [b"<", b">"].map(|mark| draft.replace(mark, b""));
                draft.lens_union(left, right)
            }
        }
    }

    fn draw(self, random: &mut Random) -> Vec<u8> {
        match self {
            Hidden::Nothing => Vec::new(),
            Hidden::Digit => vec![*random.pick(DIGITS)],
            Hidden::Either => vec![*random.pick(b"<>")],
        }
    }
}

struct Shape {
    hidden: Hidden,
    /// Empty matches before and behind the letter of a part.
    before: usize,
    behind: usize,
    /// Whether entries with names follow, of another child.
    named: bool,
    table: Vec<u8>,
}

impl Shape {
    fn draw(random: &mut Random) -> (Shape, Program) {
        loop {
            let often =
                [Hidden::Nothing, Hidden::Nothing, Hidden::Nothing, Hidden::Digit, Hidden::Digit, Hidden::Either];
            let hidden = *random.pick(&often);
            let most = hidden.most();
            let least = *random.pick(&[most, most, 30, 2]);
            let count = random.between(least, most);
            let before = if random.once_in(3) { random.between(0, count) } else { *random.pick(&[0, count]) };
            let named = !random.once_in(3);
            let mut shape = Shape { hidden, before, behind: count - before, named, table: Vec::new() };
            shape.table = shape.write(random).table();
            if let Ok(program) = Program::read(&shape.table) {
                return (shape, program);
            }
        }
    }

    fn write(&self, random: &mut Random) -> Draft {
        let mut draft = Draft::new();
        let child = self.hidden.write(&mut draft);
        let empty = draft.matched(child);
        let class = draft.range(LETTERS[0], LETTERS[LETTERS.len() - 1]);
        let letter = if random.once_in(3) { draft.key(class) } else { draft.copy(class) };
        let letter = if random.once_in(4) { draft.matched(letter) } else { letter };
        let part = joined_often(&mut draft, empty, self.before, letter, true);
        let part = joined_often(&mut draft, empty, self.behind, part, false);
        let list = draft.lens_repeat(part);
        if self.named {
            let class = draft.range(NAMES[0], NAMES[NAMES.len() - 1]);
            let (name, digit) = (draft.key(class), draft.range(b'0', b'9'));
            let remark = draft.delete(digit, b"0");
            let entry = draft.lens_join(name, remark);
            let entry = draft.matched(entry);
            let names = draft.lens_repeat(entry);
            draft.lens_join(list, names);
        }
        draft
    }

    fn sheet(&self, random: &mut Random) -> Vec<u8> {
        let parts = *random.pick(&[0, 1, 1, 2, 2, 3, 4, 7, 12]);
        self.sheet_of(random, parts)
    }

    fn sheet_of(&self, random: &mut Random, parts: usize) -> Vec<u8> {
        let names = if self.named { random.below(5) } else { 0 };
        let letters = (0..parts).map(|_| *random.pick(LETTERS));
        let mut sheet: Vec<u8> = letters.collect();
        sheet.extend((0..names).map(|_| *random.pick(NAMES)));
        sheet
    }

    /// An old source whose entries are mostly as many as a put takes at most, or
    /// fewer; often none of them is empty.
    fn source(&self, random: &mut Random) -> Vec<u8> {
        let a_part = self.before + self.behind;
        let most = MAX_ENTRIES / (a_part + 1);
        let parts = match random.below(12) {
            0..=3 => 0,
            4..=7 => random.below(most.min(8) + 1),
            8..=10 => most,
            _ => most + 1,
        };
        let mut source = Vec::new();
        for _ in 0..parts {
            (0..self.before).for_each(|_| source.extend(self.hidden.draw(random)));
            source.push(*random.pick(LETTERS));
            (0..self.behind).for_each(|_| source.extend(self.hidden.draw(random)));
        }
        let names = if self.named { *random.pick(&[0, 1, 2, 5, 9]) } else { 0 };
        (0..names).for_each(|_| source.extend([*random.pick(NAMES), *random.pick(DIGITS)]));
        source
    }
}

/// So many times a lens before or behind another, by joins of joins.
fn joined_often(draft: &mut Draft, lens: NodeNumber, count: usize, part: NodeNumber, before: bool) -> NodeNumber {
    let (mut part, mut double, mut left) = (part, lens, count);
    while left > 0 {
        if left % 2 == 1 {
            part = if before { draft.lens_join(double, part) } else { draft.lens_join(part, double) };
        }
        left /= 2;
        if left > 0 {
            double = draft.lens_join(double, double);
        }
    }
    part
}
