//! Old entries whose sheets are longer than any text that a call takes, and old
//! entries whose keys come to much together.
//!
//! One source byte is shown as a word of up to 128 bytes, so a source of some
//! hundred bytes has a sheet of over 4,096. Get refuses it with 16; put is still
//! defined, and has to read the key of such an entry off its sheet.

use super::cases::{case, lent_length, Call, Case};
use super::draft::{Draft, NodeNumber};
use super::random::Random;
use crate::calls::MAX_TEXT;
use crate::program::Program;
use crate::table::MAX_WORD;

/// Bytes that are shown as a wide word each, and told apart in the source only.
const HIDDEN: &[u8] = b"abc";

/// Calls about one program with a long old entry among others.
pub fn long_entry_cases(random: &mut Random) -> Vec<Case> {
    let (shape, program) = Shape::draw(random);
    let empty = || (Vec::new(), Vec::new());
    let mut cases = vec![case(Call::Check, &shape.table, empty(), 0)];
    for call in [Call::Get, Call::Put, Call::Put, Call::Put, Call::Put, Call::Put, Call::Create] {
        let entries = shape.old_entries(random);
        let source: Vec<u8> = entries.iter().flat_map(|entry| shape.source_of(random, entry)).collect();
        let sheet = shape.sheet(random, &entries);
        let lent = lent_length(random, &program, call, &sheet, &source);
        cases.push(case(call, &shape.table, (sheet, source), lent));
    }
    cases
}

/// Where the key of an entry is.
#[derive(Clone, Copy, PartialEq, Eq)]
enum Place {
    /// One byte before the wide words.
    Before,
    /// One byte behind the wide words.
    Behind,
    /// One byte behind each wide word; a sheet may leave the wide word out.
    Among,
    /// The wide words come from one arm of a union; the other arm would read
    /// them as its key.
    InOtherArm,
    /// Before a run of wide words, as one more byte of the run: only the end of
    /// the run tells whether there is a key.
    InRun,
}

impl Place {
    /// The first two are much alike, so together they come up as often as each
    /// of the others.
    const OFTEN: [Place; 8] = [
        Place::Before,
        Place::Behind,
        Place::Among,
        Place::Among,
        Place::InOtherArm,
        Place::InOtherArm,
        Place::InRun,
        Place::InRun,
    ];
}

struct Shape {
    key: Place,
    /// What one hidden source byte is shown as.
    wide: Vec<u8>,
    /// Whether the program is one entry and not a list of them.
    single: bool,
    /// Whether an entry ends with a semicolon; only a single one may lack it.
    ended: bool,
    /// Whether an entry has many empty leaves before its text.
    deep: bool,
    table: Vec<u8>,
}

/// An old entry before it is written: its number of wide words, and the bytes
/// of its key where they don't come from these words.
struct Old {
    parts: usize,
    name: Vec<u8>,
}

impl Shape {
    fn draw(random: &mut Random) -> (Shape, Program) {
        loop {
            let key = *random.pick(&Place::OFTEN);
            let length = *random.pick(&[16, 31, 63, 64, 64, 100, 120]);
            let wide = match key {
                Place::InRun => vec![b'z'; length],
                _ => (0..length).map(|_| *random.pick(b"u-")).collect(),
            };
            let (single, deep) = (random.once_in(6), random.once_in(8));
            let ended = !single || random.once_in(3);
            let mut shape = Shape { key, wide, single, ended, deep, table: Vec::new() };
            shape.table = shape.write(random).table();
            if let Ok(program) = Program::read(&shape.table) {
                return (shape, program);
            }
        }
    }

    fn write(&self, random: &mut Random) -> Draft {
        let mut draft = Draft::new();
        let wide = self.wide_lens(&mut draft);
        let mut row = match self.key {
            Place::Before | Place::Behind => {
                let (key, list) = (key_of(&mut draft, b'A', b'D'), draft.lens_repeat(wide));
                if self.key == Place::Before {
                    vec![key, list]
                } else {
                    vec![list, key]
                }
            }
            Place::Among => vec![key_among(random, &mut draft, wide)],
            Place::InOtherArm => vec![key_of_other_arm(random, &mut draft, wide)],
            Place::InRun => vec![key_in_run(random, &mut draft, wide)],
        };
        let digit = draft.range(b'0', b'9');
        row.push(draft.delete(digit, b"0"));
        if self.ended {
            row.push(draft.copy_word(b";"));
        }
        if self.deep {
            let nothing = draft.copy_word(b"");
            row.splice(..0, vec![nothing; random.between(20, 30)]);
        }
        let line = draft.lens_row(&row);
        let entry = draft.matched(line);
        if !self.single {
            draft.lens_repeat(entry);
        }
        draft
    }

    fn wide_lens(&self, draft: &mut Draft) -> NodeNumber {
        let (first, rest) = self.wide.split_at(self.wide.len().min(MAX_WORD));
        let hidden = draft.range(HIDDEN[0], HIDDEN[HIDDEN.len() - 1]);
        let (sheet, default) = (draft.word(first), draft.word(&HIDDEN[..1]));
        let lens = draft.constant(hidden, sheet, default);
        if rest.is_empty() {
            return lens;
        }
        let rest = draft.replace(b"", rest);
        draft.lens_join(lens, rest)
    }

    /// Some old entries, of which one or two are long; or many whose keys come to
    /// about 5,000 bytes together, or to about 16,384.
    fn old_entries(&self, random: &mut Random) -> Vec<Old> {
        if self.key == Place::InOtherArm && !self.single && random.once_in(3) {
            return self.many_keys(random);
        }
        let count = if self.single { 1 } else { *random.pick(&[1, 2, 3, 7, 8, 8, 9, 9, 10, 17, 40]) };
        let mut long_ones = vec![random.below(count)];
        if random.once_in(4) {
            long_ones.push(random.below(count));
        }
        let entry = |index| {
            let parts = if long_ones.contains(&index) { self.many_parts(random) } else { random.below(4) };
            Old { parts, name: self.name(random, parts) }
        };
        (0..count).map(entry).collect()
    }

    fn many_keys(&self, random: &mut Random) -> Vec<Old> {
        // The reference takes long over what is both long and deep.
        let count = *random.pick(if self.deep { &[5, 9, 17] } else { &[5, 9, 17, 60, 128, 255] });
        let total = if random.once_in(3) { random.between(4_000, 6_500) } else { random.between(10_000, 22_000) };
        let each = total / count / self.wide.len();
        let parts = (0..count).map(|_| each.saturating_sub(1) + random.below(4));
        parts.map(|parts| Old { parts, name: Vec::new() }).collect()
    }

    /// So many wide words that they come to about 4,096 bytes, or to more.
    fn many_parts(&self, random: &mut Random) -> usize {
        // A key of 4,096 bytes, where the words come to that.
        if self.key == Place::InOtherArm && random.once_in(4) {
            return MAX_TEXT / self.wide.len();
        }
        // The reference takes long over what is both huge and deep.
        let about = match random.below(if self.deep { 34 } else { 40 }) {
            0..=16 => random.between(MAX_TEXT - self.wide.len(), MAX_TEXT + 2 * self.wide.len()),
            17..=33 => random.between(MAX_TEXT, 2 * MAX_TEXT),
            34..=38 => random.between(2 * MAX_TEXT, 6 * MAX_TEXT),
            _ => random.between(16 * MAX_TEXT, 128 * MAX_TEXT),
        };
        // Two such entries still make a source that a call takes.
        let most = match self.key {
            Place::Among => 900,
            _ if self.single => 4000,
            _ => 1800,
        };
        (about / self.wide.len()).min(most)
    }

    fn name(&self, random: &mut Random, parts: usize) -> Vec<u8> {
        match self.key {
            Place::Before | Place::Behind => vec![*random.pick(b"ABCD")],
            Place::Among => (0..parts).map(|_| *random.pick(b"xy")).collect(),
            Place::InOtherArm => Vec::new(),
            Place::InRun => (0..random.between(1, 4)).map(|_| *random.pick(b"kk-")).collect(),
        }
    }

    fn source_of(&self, random: &mut Random, old: &Old) -> Vec<u8> {
        let digit = random.between(usize::from(b'0'), usize::from(b'9')) as u8;
        let hidden: Vec<u8> = (0..old.parts).map(|_| *random.pick(HIDDEN)).collect();
        let text = match self.key {
            Place::Before => [&old.name[..], &hidden].concat(),
            Place::Behind => [&hidden[..], &old.name].concat(),
            Place::Among => hidden.iter().zip(&old.name).flat_map(|(&hidden, &name)| [hidden, name]).collect(),
            Place::InOtherArm => [&hidden[..], b"!"].concat(),
            Place::InRun => heads_with_runs(&old.name, &hidden),
        };
        [&text[..], &[digit], self.end()].concat()
    }

    fn end(&self) -> &'static [u8] {
        if self.ended {
            b";"
        } else {
            b""
        }
    }

    /// A sheet that asks for old entries by their keys, in any order, with some
    /// asked for twice and some not at all; never longer than a text may be.
    fn sheet(&self, random: &mut Random, entries: &[Old]) -> Vec<u8> {
        let wanted = if self.single { 1 } else { random.below(entries.len() + 3) };
        let mut sheet = Vec::new();
        for _ in 0..wanted {
            let old = random.pick(entries);
            let entry = self.sheet_of(random, old);
            if sheet.len() + entry.len() <= MAX_TEXT {
                sheet.extend(entry);
            }
        }
        if self.single && sheet.is_empty() {
            let name = self.name(random, 2);
            return self.sheet_of(random, &Old { parts: 2, name });
        }
        sheet
    }

    /// The sheet of a new entry, mostly with the old one's key.
    fn sheet_of(&self, random: &mut Random, old: &Old) -> Vec<u8> {
        let few = self.wide.repeat(random.below(3));
        let mut text = match self.key {
            Place::Before => [&old.name[..], &few].concat(),
            Place::Behind => [&few[..], &old.name].concat(),
            Place::Among => self.mostly_plain(random, &old.name),
            Place::InOtherArm => self.key_like(random, old.parts),
            Place::InRun => self.runs(random, &old.name),
        };
        text.extend_from_slice(self.end());
        text
    }

    fn mostly_plain(&self, random: &mut Random, name: &[u8]) -> Vec<u8> {
        let mut text = Vec::new();
        for &byte in name {
            if random.once_in(40) {
                text.extend_from_slice(&self.wide);
            }
            // Rarely a key that differs in one byte.
            text.push(if random.once_in(300) { b'x' } else { byte });
        }
        text
    }

    /// The same heads, before shorter runs.
    fn runs(&self, random: &mut Random, heads: &[u8]) -> Vec<u8> {
        let mut text = Vec::new();
        for &head in heads {
            text.extend_from_slice(if head == b'k' { b"pz" } else { b"p" });
            text.extend(self.wide.repeat(random.below(3)));
        }
        text
    }

    /// So many wide words, cut off where a sheet must end; rarely not at the
    /// end of a word.
    fn key_like(&self, random: &mut Random, parts: usize) -> Vec<u8> {
        let mut text = self.wide.repeat(parts);
        text.truncate(MAX_TEXT - self.end().len());
        if random.once_in(6) {
            text.pop();
        }
        text
    }
}

/// The hidden bytes in as many runs as there are heads; a head `k` has a key.
fn heads_with_runs(heads: &[u8], hidden: &[u8]) -> Vec<u8> {
    let run_length = hidden.len() / heads.len() + 1;
    let mut runs = hidden.chunks(run_length);
    let mut text = Vec::new();
    for &head in heads {
        text.extend_from_slice(if head == b'k' { b"<z" } else { b">" });
        text.extend_from_slice(runs.next().unwrap_or_default());
    }
    text
}

/// Parts `p`, `p` with the key `z`, and so many `z`: a run of `z` behind a `p`
/// has its key byte or not by its length.
fn key_in_run(random: &mut Random, draft: &mut Draft, wide: NodeNumber) -> NodeNumber {
    let plain = draft.replace(b">", b"p");
    let mark = draft.replace(b"<", b"p");
    let key = key_of(draft, b'z', b'z');
    let named = draft.lens_join(mark, key);
    let mut arms = [plain, named, wide];
    random.shuffle(&mut arms);
    let pair = draft.lens_union(arms[0], arms[1]);
    let part = draft.lens_union(pair, arms[2]);
    draft.lens_repeat(part)
}

fn key_of(draft: &mut Draft, first: u8, last: u8) -> NodeNumber {
    let class = draft.range(first, last);
    draft.key(class)
}

fn key_among(random: &mut Random, draft: &mut Draft, wide: NodeNumber) -> NodeNumber {
    let key = key_of(draft, b'x', b'y');
    let shown = draft.lens_join(wide, key);
    let mark = draft.replace(b"+", b"");
    let plain = draft.lens_join(mark, key);
    let part = if random.once_in(2) { draft.lens_union(shown, plain) } else { draft.lens_union(plain, shown) };
    draft.lens_repeat(part)
}

fn key_of_other_arm(random: &mut Random, draft: &mut Draft, wide: NodeNumber) -> NodeNumber {
    let (one, other) = (draft.word(b"u"), draft.word(b"-"));
    let either = draft.pattern_union(one, other);
    let many = draft.pattern_repeat(either);
    let passed = draft.key(many);
    let list = draft.lens_repeat(wide);
    let mark = draft.replace(b"!", b"");
    let marked = draft.lens_join(list, mark);
    if random.once_in(4) {
        draft.lens_union(marked, passed)
    } else {
        draft.lens_union(passed, marked)
    }
}
