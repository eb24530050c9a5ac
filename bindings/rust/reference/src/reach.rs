//! How far a text that does not fit could be read, and what could have stood
//! where it went wrong.
//!
//! One run answers it. From every state of a Thompson automaton some bytes lead
//! to the end, so as long as a run is in some state a legal text begins with the
//! bytes so far; the place is where no state can read the next byte.

use crate::automaton::Run;
use crate::class::{Class, Pair};
use crate::program::Program;
use crate::table::Side;

/// How far a text that is none of a program's could be read.
#[derive(Clone, Debug, PartialEq, Eq)]
pub struct Reach {
    /// The most bytes of the text with which some legal text begins.
    pub place: usize,
    /// The bytes that could have stood there, as runs from a first to a last
    /// byte (both included), lowest first, not touching each other.
    pub could_follow: Vec<Pair>,
    /// Whether the text could have ended there.
    pub could_end: bool,
}

impl Program {
    /// How far the text can be read; nothing if it is one of the program's on
    /// this side.
    pub fn reach(&self, side: Side, text: &[u8]) -> Option<Reach> {
        let automaton = self.automaton(self.root(), side);
        let mut run = Run::new(&automaton.states, automaton.start);
        let mut place = 0;
        // The run must stop before the byte that it can't read: the states
        // there say what could have followed.
        while place < text.len() && run.readings().any(|reading| reading.class.has(text[place])) {
            run.step(text[place]);
            place += 1;
        }
        let could_end = run.is_at(automaton.end);
        let fits = could_end && place == text.len();
        let could_follow = run.readings().fold(Class::default(), |class, reading| class.joined(&reading.class));
        (!fits).then(|| Reach { place, could_follow: could_follow.runs(), could_end })
    }
}
