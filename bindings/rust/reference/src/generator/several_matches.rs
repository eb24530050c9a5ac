//! Programs with several matches in one part of a repeat: in both halves of a
//! join, in both arms of a union, of one child or of several.

use super::draft::{Draft, NodeNumber};
use super::random::Random;
use crate::program::Program;

/// An accepted program whose parts have several matches, or one and something
/// else.
pub fn several_matches(random: &mut Random) -> Draft {
    loop {
        let mut draft = Draft::new();
        let entries = [(b'a', b'b'), (b'c', b'd'), (b'a', b'd')].map(|ends| entry(random, &mut draft, ends));
        let mut parts = Parts { draft, entries, next_mark: b'!' };
        let part = match random.below(8) {
            0 => parts.entry(random),
            1..=2 => parts.entry_or_remark(random),
            3..=4 => parts.row(random, 1),
            _ => parts.any(random, 2),
        };
        let mut draft = parts.draft;
        place(random, &mut draft, part);
        if Program::read(&draft.table()).is_ok() {
            return draft;
        }
    }
}

/// A name that is the key, or only shown, and a digit that the sheet hides.
fn entry(random: &mut Random, draft: &mut Draft, (first, last): (u8, u8)) -> NodeNumber {
    let (class, digit) = (draft.range(first, last), draft.range(b'0', b'9'));
    let name = if random.once_in(4) { draft.copy(class) } else { draft.key(class) };
    let remark = draft.delete(digit, b"0");
    let line = if random.once_in(3) { draft.lens_join(remark, name) } else { draft.lens_join(name, remark) };
    draft.matched(line)
}

struct Parts {
    draft: Draft,
    entries: [NodeNumber; 3],
    next_mark: u8,
}

impl Parts {
    fn entry(&mut self, random: &mut Random) -> NodeNumber {
        // The first comes up more often, so that matches share their child.
        *random.pick(&[self.entries[0], self.entries[0], self.entries[1], self.entries[2]])
    }

    /// A byte in the source that no other arm has, and nothing in the sheet.
    fn mark(&mut self) -> NodeNumber {
        self.next_mark += 1;
        self.draft.replace(&[self.next_mark - 1], b"")
    }

    fn any(&mut self, random: &mut Random, levels: usize) -> NodeNumber {
        if levels == 0 {
            return if random.once_in(5) { self.remark(random) } else { self.entry(random) };
        }
        match random.below(5) {
            0..=1 => self.row(random, levels),
            2 => self.entry_or_remark(random),
            _ => self.arms(random, levels),
        }
    }

    /// Two or three pieces, one behind the other, perhaps with a comma between.
    fn row(&mut self, random: &mut Random, levels: usize) -> NodeNumber {
        let mut row = vec![self.any(random, levels - 1)];
        for _ in 0..random.between(1, 2) {
            if random.once_in(2) {
                row.push(self.draft.copy_word(b","));
            }
            row.push(self.any(random, levels - 1));
        }
        if random.once_in(2) {
            return self.draft.lens_row(&row);
        }
        let first = row[0];
        row[1..].iter().fold(first, |joined, &lens| self.draft.lens_join(joined, lens))
    }

    /// Two pieces that only the source tells apart.
    fn arms(&mut self, random: &mut Random, levels: usize) -> NodeNumber {
        let [left, right] = [(); 2].map(|()| self.any(random, levels - 1));
        let mark = self.mark();
        let marked = self.draft.lens_join(mark, right);
        if random.once_in(2) {
            self.draft.lens_union(left, marked)
        } else {
            self.draft.lens_union(marked, left)
        }
    }

    fn entry_or_remark(&mut self, random: &mut Random) -> NodeNumber {
        let (entry, remark) = (self.entry(random), self.remark(random));
        if random.once_in(2) {
            self.draft.lens_union(entry, remark)
        } else {
            self.draft.lens_union(remark, entry)
        }
    }

    fn remark(&mut self, random: &mut Random) -> NodeNumber {
        let sign = self.draft.copy_word(b"#");
        let class = self.draft.range(b'x', b'z');
        let hidden = if random.once_in(2) { self.draft.delete(class, b"x") } else { self.draft.copy(class) };
        self.draft.lens_join(sign, hidden)
    }
}

/// Repeats the part, perhaps with an end, and perhaps another list behind it.
fn place(random: &mut Random, draft: &mut Draft, part: NodeNumber) {
    let part = if random.once_in(2) {
        part
    } else {
        let end = draft.copy_word(b";");
        draft.lens_join(part, end)
    };
    let list = draft.lens_repeat(part);
    match random.below(6) {
        0 => {
            let line = draft.copy_word(b"\n");
            draft.lens_row(&[list, line, list]);
        }
        1 => {
            let line = draft.copy_word(b"\n");
            let block = draft.lens_join(list, line);
            draft.lens_repeat(block);
        }
        _ => {}
    }
}
