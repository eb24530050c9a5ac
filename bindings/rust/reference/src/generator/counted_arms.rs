//! Unions whose arms read one sheet text as different entries: one arm as a
//! single entry, another as several or as none. How many entries a put meets then
//! depends on the arms that it takes, and the sheet alone does not tell.

use super::draft::{Draft, NodeNumber};
use super::random::Random;
use crate::program::Program;

/// A byte for each arm in the source; the sheet hides it.
const MARKS: &[u8] = b"<>=~";
/// The most letters of a part.
const WIDEST: usize = 3;

/// An accepted program of such parts.
pub fn counted_arms(random: &mut Random) -> Draft {
    loop {
        let mut arms = Arms::new(random);
        let width = random.between(1, WIDEST);
        let count = random.between(2, MARKS.len());
        let united: Vec<NodeNumber> = MARKS[..count].iter().map(|&mark| arms.arm(random, mark, width)).collect();
        let mut draft = arms.draft;
        let part = nested(random, &mut draft, &united);
        place(random, &mut draft, part);
        if Program::read(&draft.table()).is_ok() {
            return draft;
        }
    }
}

struct Arms {
    draft: Draft,
    /// What reads one letter, two and three, in every arm; so arms share entries.
    shared: [NodeNumber; WIDEST],
}

impl Arms {
    fn new(random: &mut Random) -> Arms {
        let mut draft = Draft::new();
        let shared = [1, 2, 3].map(|length| letters(random, &mut draft, length));
        Arms { draft, shared }
    }

    /// A hidden mark, and pieces of so many letters in all.
    fn arm(&mut self, random: &mut Random, mark: u8, width: usize) -> NodeNumber {
        let mut row = vec![self.draft.replace(&[mark], b"")];
        let mut left = width;
        while left > 0 {
            let length = random.between(1, left);
            row.push(self.piece(random, length));
            left -= length;
        }
        if random.once_in(3) {
            let nothing = self.draft.copy_word(b"");
            row.push(self.draft.matched(nothing));
        }
        self.draft.lens_row(&row)
    }

    /// Mostly an entry, and mostly one of a child that other arms have too.
    fn piece(&mut self, random: &mut Random, length: usize) -> NodeNumber {
        let child = if random.once_in(4) { letters(random, &mut self.draft, length) } else { self.shared[length - 1] };
        if random.once_in(4) {
            child
        } else {
            self.draft.matched(child)
        }
    }
}

/// So many letters, a key or only shown, and a digit that the sheet hides.
fn letters(random: &mut Random, draft: &mut Draft, length: usize) -> NodeNumber {
    let letter = draft.range(b'a', b'b');
    let word = (1..length).fold(letter, |word, _| draft.pattern_join(word, letter));
    let shown = if random.once_in(3) { draft.copy(word) } else { draft.key(word) };
    let digit = draft.range(b'0', b'9');
    let remark = draft.delete(digit, b"0");
    draft.lens_join(shown, remark)
}

/// The arms as one union, nested on either side.
fn nested(random: &mut Random, draft: &mut Draft, arms: &[NodeNumber]) -> NodeNumber {
    let on_the_left = random.once_in(2);
    let (&first, rest) = arms.split_first().expect("there are at least two arms");
    rest.iter().fold(first, |united, &arm| {
        let (left, right) = if on_the_left { (united, arm) } else { (arm, united) };
        draft.lens_union(left, right)
    })
}

/// One part, any number of them, or a list behind another.
fn place(random: &mut Random, draft: &mut Draft, part: NodeNumber) {
    if random.once_in(8) {
        return;
    }
    let list = draft.lens_repeat(part);
    if random.once_in(3) {
        let end = draft.copy_word(b";");
        draft.lens_row(&[list, end, list]);
    }
}
