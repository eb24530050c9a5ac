//! The questions behind the refusals 7 to 11, for texts of any length.
//!
//! Two runs over one text are a walk through pairs of states. There are
//! finitely many pairs, so whether a text with some property exists is a search
//! for a pair, and no bound on the length of the text comes in. This matters:
//! within the limits of a table there are repeats whose shortest text with two
//! cuts is longer than any text that a call accepts.

use crate::automaton::Automaton;

/// Whether some text belongs to both languages.
pub fn overlap(a: &Automaton, b: &Automaton) -> bool {
    Pairs::of(a, b).reached_from([(a.start, b.start)]).has(a.end, b.end)
}

/// Whether some text has two cuts into a text of `a` and a text of `b`.
///
/// Two cuts of one text are texts u, x, v with x not empty, both u and ux in
/// `a`, both xv and v in `b`. One run takes the early cut and one the late; the
/// three stages read u, x and v. Between stages only the state of one run is
/// open, since the other has just changed from the end of `a` to the start of
/// `b`.
pub fn two_cuts(a: &Automaton, b: &Automaton) -> bool {
    let after_u = Pairs::of(a, a).reached_from([(a.start, a.start)]);
    let late_after_u = (0..a.states.len()).filter(|&late| after_u.has(a.end, late));

    let within_x = Pairs::of(b, a).reached_from(late_after_u.map(|late| (b.start, late)));
    let after_x = Pairs::of(b, a).reached_from(within_x.after_one_byte());
    let early_after_x = (0..b.states.len()).filter(|&early| after_x.has(early, a.end));

    let after_v = Pairs::of(b, b).reached_from(early_after_x.map(|early| (early, b.start)));
    after_v.has(b.end, b.end)
}

/// Whether a repeat over `part` fails, where `parts` is the repeat itself: the
/// empty text is a part, or some text has two cuts into parts.
///
/// If no part is empty, two different lists of parts that join to one text
/// first differ at some place, and from there on the text has two cuts into a
/// part and further parts.
pub fn repeat_fails(part: &Automaton, parts: &Automaton) -> bool {
    part.contains(b"") || two_cuts(part, parts)
}

/// A set of pairs of states, one of each automaton.
struct Pairs<'a> {
    left: &'a Automaton,
    right: &'a Automaton,
    marks: Vec<bool>,
    members: Vec<(usize, usize)>,
}

impl<'a> Pairs<'a> {
    fn of(left: &'a Automaton, right: &'a Automaton) -> Pairs<'a> {
        let marks = vec![false; left.states.len() * right.states.len()];
        Pairs { left, right, marks, members: Vec::new() }
    }

    fn has(&self, left: usize, right: usize) -> bool {
        self.marks[left * self.right.states.len() + right]
    }

    fn enter(&mut self, left: usize, right: usize) {
        let mark = &mut self.marks[left * self.right.states.len() + right];
        if !*mark {
            *mark = true;
            self.members.push((left, right));
        }
    }

    /// All pairs that some text, the empty one included, leads to.
    fn reached_from(mut self, starts: impl IntoIterator<Item = (usize, usize)>) -> Pairs<'a> {
        for (left, right) in starts {
            self.enter(left, right);
        }
        let (left_states, right_states) = (&self.left.states, &self.right.states);
        let mut next = 0;
        while next < self.members.len() {
            let (left, right) = self.members[next];
            next += 1;
            for &to in &left_states[left].free {
                self.enter(to, right);
            }
            for &to in &right_states[right].free {
                self.enter(left, to);
            }
            if let Some((left, right)) = self.one_byte_on(left, right) {
                self.enter(left, right);
            }
        }
        self
    }

    fn one_byte_on(&self, left: usize, right: usize) -> Option<(usize, usize)> {
        let left = self.left.states[left].reading?;
        let right = self.right.states[right].reading?;
        left.class.meets(&right.class).then_some((left.to, right.to))
    }

    fn after_one_byte(&self) -> impl Iterator<Item = (usize, usize)> + '_ {
        self.members.iter().filter_map(|&(left, right)| self.one_byte_on(left, right))
    }
}
