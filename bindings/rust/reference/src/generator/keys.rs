//! Old entries whose keys are equal, or differ at their end only; with no union
//! in the entries, and with one whose arms read such keys in their own ways.

use super::cases::{case, lent_length, Call, Case};
use super::draft::{Draft, NodeNumber};
use super::random::Random;
use crate::program::Program;

/// Calls about one program with keys that are much alike.
pub fn like_key_cases(random: &mut Random) -> Vec<Case> {
    let (shape, program) = Shape::draw(random);
    let empty = || (Vec::new(), Vec::new());
    let mut cases = vec![case(Call::Check, &shape.table, empty(), 0)];
    for call in [Call::Get, Call::Put, Call::Put, Call::Put, Call::Put, Call::Put, Call::Create] {
        let names = like_names(random);
        let count = *random.pick(&[2, 3, 5, 8, 9, 20, 60]);
        let source: Vec<u8> = (0..count).flat_map(|_| shape.source_of(random, &names)).collect();
        let wanted = random.below(count + 3);
        let sheet: Vec<u8> = (0..wanted).flat_map(|_| shape.sheet_of(random, &names)).collect();
        let lent = lent_length(random, &program, call, &sheet, &source);
        cases.push(case(call, &shape.table, (sheet, source), lent));
    }
    cases
}

/// A name, and others that differ from it at the end.
fn like_names(random: &mut Random) -> Vec<Vec<u8>> {
    let length = *random.pick(&[1, 7, 8, 9, 15, 16, 30]);
    let name: Vec<u8> = (0..length).map(|_| *random.pick(b"ab")).collect();
    let shorter = name[..length - 1].to_vec();
    let [with_a, with_b] = [b"a", b"b"].map(|end| [&shorter[..], end].concat());
    let longer = [&name[..], b"a"].concat();
    vec![name, shorter, with_a, with_b, longer]
}

/// What stands between a match and the names of its entries.
#[derive(Clone, Copy, PartialEq, Eq)]
enum Over {
    NoUnion,
    /// Both arms of a union have the name as key.
    Alike,
    /// The left arm has the first byte alone as key, the right arm the rest.
    FirstOrRest,
    /// The left arm shows the name and has no key.
    RightAlone,
    /// The arms' sheets are apart, and one has no key.
    Apart,
}

struct Shape {
    over: Over,
    table: Vec<u8>,
}

impl Shape {
    fn draw(random: &mut Random) -> (Shape, Program) {
        loop {
            let choices = [Over::NoUnion, Over::NoUnion, Over::Alike, Over::FirstOrRest, Over::RightAlone, Over::Apart];
            let mut shape = Shape { over: *random.pick(&choices), table: Vec::new() };
            shape.table = shape.write(random).table();
            if let Ok(program) = Program::read(&shape.table) {
                return (shape, program);
            }
        }
    }

    fn write(&self, random: &mut Random) -> Draft {
        let mut draft = Draft::new();
        let class = draft.range(b'a', b'b');
        let some = draft.pattern_some(class);
        let whole = draft.key(some);
        let name = match self.over {
            Over::NoUnion => whole,
            Over::Alike => marked_arms(&mut draft, [whole, whole]),
            Over::FirstOrRest => {
                let many = draft.pattern_repeat(class);
                let [key_one, copy_one] = [draft.key(class), draft.copy(class)];
                let [key_many, copy_many] = [draft.key(many), draft.copy(many)];
                let [left, right] = [draft.lens_join(key_one, copy_many), draft.lens_join(copy_one, key_many)];
                marked_arms(&mut draft, [left, right])
            }
            Over::RightAlone => {
                let shown = draft.copy(some);
                marked_arms(&mut draft, [shown, whole])
            }
            Over::Apart => {
                let sign = draft.copy_word(b"#");
                let shown = draft.copy(some);
                let left = draft.lens_join(sign, shown);
                marked_arms(&mut draft, [left, whole])
            }
        };
        let digit = draft.range(b'0', b'9');
        let row = [name, draft.delete(digit, b"0"), draft.copy_word(b";")];
        let line = draft.lens_row(&row);
        let entry = draft.matched(line);
        if random.once_in(4) {
            let pair = draft.lens_join(entry, entry);
            draft.lens_repeat(pair);
        } else {
            draft.lens_repeat(entry);
        }
        draft
    }

    fn source_of(&self, random: &mut Random, names: &[Vec<u8>]) -> Vec<u8> {
        let left = random.once_in(2);
        let mark: &[u8] = match self.over {
            Over::NoUnion => b"",
            Over::Apart if left => b"<#",
            _ if left => b"<",
            _ => b">",
        };
        let digit = random.between(usize::from(b'0'), usize::from(b'9')) as u8;
        [mark, &some_name(random, names), &[digit, b';']].concat()
    }

    fn sheet_of(&self, random: &mut Random, names: &[Vec<u8>]) -> Vec<u8> {
        let sign: &[u8] = if self.over == Over::Apart && random.once_in(2) { b"#" } else { b"" };
        [sign, &some_name(random, names), b";"].concat()
    }
}

/// A name of at least one byte.
fn some_name(random: &mut Random, names: &[Vec<u8>]) -> Vec<u8> {
    let name = random.pick(names).clone();
    if name.is_empty() {
        b"a".to_vec()
    } else {
        name
    }
}

/// A union whose arms begin with a byte each that the sheet does not show.
pub(super) fn marked_arms(draft: &mut Draft, arms: [NodeNumber; 2]) -> NodeNumber {
    let marks = [b"<", b">"].map(|mark| draft.replace(mark, b""));
    let [left, right] = [draft.lens_join(marks[0], arms[0]), draft.lens_join(marks[1], arms[1])];
    draft.lens_union(left, right)
}
