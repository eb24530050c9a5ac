//! Programs around nested unions whose sheets overlap.
//!
//! Every arm has a mark in its source that no other arm has, so the sources are
//! apart wherever the mark stands. The sheets are drawn from a few texts that
//! are equal to each other or begin with each other, so that one sheet is of
//! several arms and the old source or the order of the arms has to decide.

use super::draft::{Draft, NodeNumber};
use super::random::Random;
use crate::program::Program;

/// Sheets of arms: some are equal, most begin with another.
const SHEETS: [&[u8]; 7] = [b"a", b"a", b"ab", b"ab", b"aba", b"b", b""];

/// An accepted program with unions in unions, alone or inside joins, repeats
/// and matches.
pub fn overlapping_unions(random: &mut Random) -> Draft {
    loop {
        let mut draft = Draft::new();
        let mut nest = Nest::draw(random);
        let arms = random.between(3, 6);
        let unions = nest.tree(random, &mut draft, arms);
        place(random, &mut draft, unions, nest.matches == Matches::Above);
        if Program::read(&draft.table()).is_ok() {
            return draft;
        }
    }
}

/// Which arm of a union holds the other unions.
#[derive(Clone, Copy)]
enum Lean {
    Left,
    Right,
    Either,
}

/// Where the matches are.
#[derive(Clone, Copy, PartialEq, Eq)]
enum Matches {
    Nowhere,
    /// Each arm is an entry of its own.
    InArms,
    /// One match holds all unions.
    Above,
    /// Each arm is a mark and an entry behind it, and every arm can read the
    /// sheets of every other.
    BehindMarks,
}

struct Nest {
    lean: Lean,
    matches: Matches,
    next_mark: u8,
    /// The last entry behind a mark, which the next arm may share.
    entry: Option<NodeNumber>,
}

impl Nest {
    fn draw(random: &mut Random) -> Nest {
        let lean = *random.pick(&[Lean::Left, Lean::Right, Lean::Either]);
        let choices = [Matches::Nowhere, Matches::InArms, Matches::Above, Matches::Above, Matches::BehindMarks];
        Nest { lean, matches: *random.pick(&choices), next_mark: b'0', entry: None }
    }

    fn mark(&mut self) -> [u8; 1] {
        self.next_mark += 1;
        [self.next_mark - 1]
    }

    fn tree(&mut self, random: &mut Random, draft: &mut Draft, arms: usize) -> NodeNumber {
        if arms == 1 && self.matches == Matches::BehindMarks {
            return self.marked_entry(random, draft);
        }
        if arms == 1 {
            let arm = self.arm(random, draft);
            return if self.matches == Matches::InArms { draft.matched(arm) } else { arm };
        }
        let on_left = match self.lean {
            Lean::Left => arms - 1,
            Lean::Right => 1,
            Lean::Either => random.between(1, arms - 1),
        };
        let left = self.tree(random, draft, on_left);
        let right = self.tree(random, draft, arms - on_left);
        let union = draft.lens_union(left, right);
        if random.once_in(6) {
            self.between(random, draft, union)
        } else {
            union
        }
    }

    /// A mark, and behind it an entry of a child of its own or of the last one.
    fn marked_entry(&mut self, random: &mut Random, draft: &mut Draft) -> NodeNumber {
        let shared = self.entry.filter(|_| random.once_in(2));
        let entry = shared.unwrap_or_else(|| {
            let name = draft.range(b'a', b'b');
            let (key, hidden) = (draft.key(name), hidden_digits(draft));
            let line = draft.lens_join(key, hidden);
            draft.matched(line)
        });
        self.entry = Some(entry);
        let mark = draft.replace(&self.mark(), b"");
        draft.lens_join(mark, entry)
    }

    /// A join between two unions.
    fn between(&mut self, random: &mut Random, draft: &mut Draft, union: NodeNumber) -> NodeNumber {
        match random.below(3) {
            0 => {
                let hidden = draft.replace(&self.mark(), b"");
                draft.lens_join(hidden, union)
            }
            1 => {
                let end = draft.copy_word(b",");
                draft.lens_join(union, end)
            }
            _ => {
                let nothing = draft.copy_word(b"");
                draft.lens_join(union, nothing)
            }
        }
    }

    fn arm(&mut self, random: &mut Random, draft: &mut Draft) -> NodeNumber {
        let mark = self.mark();
        let sheet = *random.pick(&SHEETS);
        match random.below(6) {
            0 | 1 => draft.replace(&mark, sheet),
            2 => {
                let class = draft.range(mark[0], mark[0]);
                let some = draft.pattern_some(class);
                let (sheet, default) = (draft.word(sheet), draft.word(&mark));
                draft.constant(some, sheet, default)
            }
            3 => {
                let shown = if random.once_in(2) { draft.copy_word(sheet) } else { draft.replace(b"", sheet) };
                let hidden = draft.replace(&mark, b"");
                draft.lens_join(shown, hidden)
            }
            other => {
                let (run, hidden) = (run(random, draft), draft.replace(&mark, b""));
                let row = if other == 4 { [run, hidden] } else { [hidden, run] };
                draft.lens_join(row[0], row[1])
            }
        }
    }
}

/// Text passed through whose language holds some of the other arms' sheets.
fn run(random: &mut Random, draft: &mut Draft) -> NodeNumber {
    let length = random.between(1, 2);
    let (class, other) = (draft.range(b'a', b'b'), draft.word(&b"ab"[..length]));
    let pattern = match random.below(5) {
        0 => draft.pattern_repeat(class),
        1 => draft.pattern_some(class),
        2 => draft.pattern_repeat(other),
        3 => {
            let either = draft.pattern_union(class, other);
            draft.pattern_repeat(either)
        }
        _ => draft.pattern_union(class, other),
    };
    if random.once_in(3) {
        draft.copy(pattern)
    } else {
        draft.key(pattern)
    }
}

/// Puts the unions where other lenses stand around them.
fn place(random: &mut Random, draft: &mut Draft, unions: NodeNumber, matching: bool) {
    let enter = |draft: &mut Draft, lens| if matching { draft.matched(lens) } else { lens };
    match random.below(6) {
        0 => {
            enter(draft, unions);
        }
        1 => {
            let entry = enter(draft, unions);
            draft.lens_repeat(entry);
        }
        2 => {
            let comma = draft.copy_word(b";");
            let pair = draft.lens_row(&[unions, comma, unions]);
            enter(draft, pair);
        }
        3 => {
            let entry = enter(draft, unions);
            let end = draft.copy_word(b";");
            let line = draft.lens_join(entry, end);
            draft.lens_repeat(line);
        }
        _ => {
            let hidden = hidden_digits(draft);
            let end = draft.copy_word(b";");
            let line = draft.lens_row(&[unions, hidden, end]);
            let entry = enter(draft, line);
            draft.lens_repeat(entry);
        }
    }
}

/// Source text that only the old source can give back.
fn hidden_digits(draft: &mut Draft) -> NodeNumber {
    let digit = draft.range(b'x', b'z');
    let many = draft.pattern_repeat(digit);
    draft.delete(many, b"x")
}
