//! Old entries whose keys are longer than any sheet's, and short once their trailing
//! spaces are cut; or not quite, since another byte follows.
//!
//! The right arm of a union shows one source byte as a word of spaces, and the left
//! arm reads all of that as its key. So a source of some hundred bytes has a key of over
//! 4,096, of which all but the beginning may be spaces.

use super::cases::{case, lent_length, Call, Case};
use super::draft::{Draft, NodeNumber};
use super::random::Random;
use crate::calls::MAX_TEXT;
use crate::lens::trimmed;
use crate::program::Program;
use crate::table::MAX_WORD;

/// What a source byte `s` is shown as, behind everything else of its entry.
const PADDING: usize = 50;

/// Calls about one program with such old entries among others.
pub fn padded_entry_cases(random: &mut Random) -> Vec<Case> {
    let (shape, program) = Shape::draw(random);
    let empty = || (Vec::new(), Vec::new());
    let mut cases = vec![case(Call::Check, &shape.table, empty(), 0)];
    for call in [Call::Get, Call::Put, Call::Put, Call::Put, Call::Put, Call::Put, Call::Create] {
        let entries = shape.old_entries(random);
        let source: Vec<u8> = entries.iter().flat_map(|old| shape.source_of(random, old)).collect();
        let sheet = shape.sheet(random, &entries);
        let lent = lent_length(random, &program, call, &sheet, &source);
        cases.push(case(call, &shape.table, (sheet, source), lent));
    }
    cases
}

/// How the right arm shows an entry: a head, wide words, a tail, and padding.
struct Shape {
    head: &'static [u8],
    wide: Vec<u8>,
    tail: &'static [u8],
    /// Whether padding may follow the tail.
    padded: bool,
    /// Whether the program is one entry and not a list of them. Such an entry has no
    /// semicolon, so that a sheet can be all key.
    single: bool,
    table: Vec<u8>,
}

/// An old entry before it is written.
enum Old {
    /// Of the left arm, with this key.
    Left(Vec<u8>),
    /// Of the right arm, with so many wide words and so many words of padding.
    Right { wides: usize, paddings: usize },
}

impl Shape {
    fn draw(random: &mut Random) -> (Shape, Program) {
        loop {
            let length = *random.pick(&[16, 63, 64, 64]);
            let (mut wide, other) = (vec![b' '; length], random.pick(b"ab"));
            match random.below(8) {
                0..=2 => wide = vec![*other; length],
                3 => wide[0] = *other,
                4 => wide[length - 1] = *other,
                _ => {}
            }
            let head = *random.pick(&[&b"a"[..], b"a", b"ab", b" a", b""]);
            let tail = *random.pick(&[&b""[..], b"", b"b"]);
            let (padded, single) = (!random.once_in(3), random.once_in(3));
            let mut shape = Shape { head, wide, tail, padded, single, table: Vec::new() };
            shape.table = shape.write().table();
            if let Ok(program) = Program::read(&shape.table) {
                return (shape, program);
            }
        }
    }

    fn write(&self) -> Draft {
        debug_assert!(PADDING.max(self.wide.len()) <= MAX_WORD);
        let mut draft = Draft::new();
        let left = key_of_blanks(&mut draft);
        let mut row = vec![draft.replace(b"y", self.head), repeated(&mut draft, b"x", &self.wide)];
        row.push(draft.replace(b"z", self.tail));
        if self.padded {
            row.push(repeated(&mut draft, b"s", &[b' '; PADDING]));
        }
        let right = draft.lens_row(&row);
        let either = draft.lens_union(left, right);
        let digit = draft.range(b'0', b'9');
        let line = [either, draft.delete(digit, b"0"), draft.copy_word(self.end())];
        let line = draft.lens_row(&line);
        let entry = draft.matched(line);
        if !self.single {
            draft.lens_repeat(entry);
        }
        draft
    }

    /// The key of an old entry.
    fn key_of(&self, old: &Old) -> Vec<u8> {
        match old {
            Old::Left(key) => key.clone(),
            Old::Right { wides, paddings } => {
                [self.head, &self.wide.repeat(*wides), self.tail, &vec![b' '; PADDING * paddings]].concat()
            }
        }
    }

    fn source_of(&self, random: &mut Random, old: &Old) -> Vec<u8> {
        let text = match old {
            Old::Left(key) => key.clone(),
            Old::Right { wides, paddings } => [b"y", &b"x".repeat(*wides)[..], b"z", &b"s".repeat(*paddings)].concat(),
        };
        let digit = random.between(usize::from(b'0'), usize::from(b'9')) as u8;
        [&text[..], &[digit], self.end()].concat()
    }

    fn end(&self) -> &'static [u8] {
        if self.single {
            b""
        } else {
            b";"
        }
    }

    fn old_entries(&self, random: &mut Random) -> Vec<Old> {
        let count = if self.single { 1 } else { *random.pick(&[1, 2, 3, 8, 9, 12]) };
        let long_one = random.below(count);
        (0..count).map(|index| self.old_entry(random, index == long_one)).collect()
    }

    fn old_entry(&self, random: &mut Random, is_long: bool) -> Old {
        if !is_long && random.once_in(2) {
            return Old::Left(short_key(random));
        }
        let wides = if is_long { self.many_wides(random) } else { random.below(3) };
        let paddings = if self.padded && random.once_in(2) { random.between(1, 70) } else { 0 };
        Old::Right { wides, paddings }
    }

    /// So many wide words that they come to about 4,096 bytes, to more, or to as much as
    /// a source can show.
    fn many_wides(&self, random: &mut Random) -> usize {
        let around = MAX_TEXT / self.wide.len();
        match random.below(40) {
            0..=23 => around - 1 + random.below(4),
            24..=37 => random.between(around, 3 * around),
            _ => random.between(2000, 3500),
        }
    }

    /// A sheet that asks for old entries, some of them twice, never longer than a text
    /// may be.
    fn sheet(&self, random: &mut Random, entries: &[Old]) -> Vec<u8> {
        let wanted = if self.single { 1 } else { random.below(entries.len() + 3) };
        let mut sheet = Vec::new();
        for _ in 0..wanted {
            let key = self.key_of(random.pick(entries));
            let asked = [&asked_by(random, &key)[..], self.end()].concat();
            if sheet.len() + asked.len() <= MAX_TEXT {
                sheet.extend(asked);
            }
        }
        if self.single && sheet.is_empty() {
            return short_key(random);
        }
        sheet
    }
}

/// What a sheet may ask for an old entry with: the key without its spaces, with some, or
/// a text that equals it only if too much or too little is cut.
fn asked_by(random: &mut Random, key: &[u8]) -> Vec<u8> {
    let short = trimmed(key);
    let longest = MAX_TEXT - random.below(2);
    match random.below(8) {
        0..=2 => short.to_vec(),
        3 => [short, &b" ".repeat(random.between(1, 4))].concat(),
        4 => [short, &b" ".repeat(longest.saturating_sub(short.len()))].concat(),
        5 => trimmed(&key[..key.len().min(longest)]).to_vec(),
        6 => [b" ", short].concat(),
        _ => short[..short.len().saturating_sub(1)].to_vec(),
    }
}

/// A key of the left arm that those of the right arm may equal.
fn short_key(random: &mut Random) -> Vec<u8> {
    let name = *random.pick(&[&b"a"[..], b"a", b"ab", b" a", b"b", b""]);
    [name, &b" ".repeat(random.below(4))].concat()
}

fn key_of_blanks(draft: &mut Draft) -> NodeNumber {
    let class = draft.set(&[(b'a', b'b'), (b' ', b' ')]);
    let many = draft.pattern_repeat(class);
    draft.key(many)
}

/// A source word that is shown as a sheet word, any number of times.
fn repeated(draft: &mut Draft, source: &[u8], sheet: &[u8]) -> NodeNumber {
    let part = draft.replace(source, sheet);
    draft.lens_repeat(part)
}
