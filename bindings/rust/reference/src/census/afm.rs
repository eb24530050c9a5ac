//! What the calls of import and export in a comparison were like and what they were
//! answered.

use std::collections::BTreeMap;
use std::fmt;

use crate::afm::{Answer, Refusal};
use crate::answer::{BAD_LINE, RESULT_TOO_LONG, TEXT_TOO_LONG, WRONG_COUNT};
use crate::generator::afm::flaws::{flaws_of, Flaw};
use crate::generator::afm::{unlimited, AfmCase, Way, WAYS};

/// All numbers that a call can answer; 0 stands for a result.
pub const NUMBERS: [u8; 5] = [0, TEXT_TOO_LONG, RESULT_TOO_LONG, BAD_LINE, WRONG_COUNT];
/// The lines of 18 are counted by the first of these that they do not pass. One more
/// than 255 does not fit a byte.
pub const LINE_STEPS: [usize; 6] = [1, 2, 9, 255, 4096, usize::MAX];

/// How often calls were answered with each number, by the flaw of their text.
#[derive(Clone, Debug, Default)]
pub struct AfmCensus {
    answers: BTreeMap<(Way, Option<Flaw>, u8), usize>,
    lines: BTreeMap<(Way, usize), usize>,
    rooms: BTreeMap<(Way, Room), usize>,
}

/// Buffers at the border between a result and 16.
#[derive(Clone, Copy, Debug, PartialEq, Eq, PartialOrd, Ord)]
pub enum Room {
    /// A result fills the buffer.
    Filled,
    /// A result is one byte longer than the buffer.
    OneShort,
    /// The buffer is longer than the longest result, which this one passes.
    OverTheLimit,
}

pub const ROOMS: [Room; 3] = [Room::Filled, Room::OneShort, Room::OverTheLimit];

/// Which border a call was at, if at any.
fn room_of(case: &AfmCase, answer: Answer) -> Option<Room> {
    match answer {
        Ok(length) => (length == case.lent).then_some(Room::Filled),
        Err(Refusal { number: RESULT_TOO_LONG, .. }) => {
            let needed = unlimited(case.way, &case.text)?.len();
            let is_one_short = (needed == case.lent + 1).then_some(Room::OneShort);
            is_one_short.or((needed <= case.lent).then_some(Room::OverTheLimit))
        }
        Err(_) => None,
    }
}

impl AfmCensus {
    pub fn note(&mut self, case: &AfmCase, answer: Answer) {
        let number = answer.map_or_else(|refusal| refusal.number, |_| 0);
        *self.answers.entry((case.way, case.flaw, number)).or_default() += 1;
        if let Err(Refusal { number: BAD_LINE, node }) = answer {
            let step = LINE_STEPS.into_iter().find(|&step| node <= step).expect("the last step has no end");
            *self.lines.entry((case.way, step)).or_default() += 1;
        }
        if let Some(room) = room_of(case, answer) {
            *self.rooms.entry((case.way, room)).or_default() += 1;
        }
    }

    pub fn add(&mut self, other: &AfmCensus) {
        other.answers.iter().for_each(|(key, count)| *self.answers.entry(*key).or_default() += count);
        other.lines.iter().for_each(|(key, count)| *self.lines.entry(*key).or_default() += count);
        other.rooms.iter().for_each(|(key, count)| *self.rooms.entry(*key).or_default() += count);
    }

    pub fn total(&self) -> usize {
        self.answers.values().sum()
    }

    /// How often calls of one way were answered with a number.
    pub fn of_number(&self, way: Way, number: u8) -> usize {
        let counts = self.answers.iter().filter(|((w, _, n), _)| (*w, *n) == (way, number));
        counts.map(|(_, count)| count).sum()
    }

    /// How often calls of one way with such a flaw were answered with a number.
    pub fn of_flaw(&self, way: Way, flaw: Option<Flaw>, number: u8) -> usize {
        self.answers.get(&(way, flaw, number)).copied().unwrap_or(0)
    }

    /// How often 18 named a line up to a step, and beyond the step before it.
    pub fn of_lines(&self, way: Way, step: usize) -> usize {
        self.lines.get(&(way, step)).copied().unwrap_or(0)
    }

    /// How often a call of one way was at a border.
    pub fn of_room(&self, way: Way, room: Room) -> usize {
        self.rooms.get(&(way, room)).copied().unwrap_or(0)
    }

    /// What came up less often than about half of what is usual, in words: answers,
    /// buffers at a border, lines of 18, and flaws with the answer that they should have.
    pub fn too_seldom(&self) -> Vec<String> {
        let total = self.total();
        let mut seldom = Vec::new();
        let mut require = |name: String, found: usize, once_in: usize| {
            if found * once_in <= total {
                seldom.push(format!("{name}: {found} of {total}"));
            }
        };
        for way in WAYS {
            for number in NUMBERS.into_iter().filter(|&number| can_answer(way, number)) {
                require(format!("{way:?} with {number}"), self.of_number(way, number), 400);
            }
            for room in ROOMS.into_iter().filter(|&room| can_have(way, room)) {
                require(format!("{way:?} with a buffer {room:?}"), self.of_room(way, room), 800);
            }
            for step in LINE_STEPS {
                require(format!("{way:?} with lines up to {step}"), self.of_lines(way, step), 2000);
            }
            for flaw in flaws_of(way) {
                let number = number_of(flaw);
                require(format!("{way:?} of {flaw:?} with {number}"), self.of_flaw(way, Some(flaw), number), 1200);
            }
        }
        seldom
    }

    fn print_flaws(&self, f: &mut fmt::Formatter<'_>, way: Way) -> fmt::Result {
        writeln!(f, "  {:<16}{}", "by flaw", NUMBERS.map(|number| format!("{number:>7}")).concat())?;
        for flaw in [None].into_iter().chain(flaws_of(way).into_iter().map(Some)) {
            let name = flaw.map_or("none".to_string(), |flaw| format!("{flaw:?}"));
            let counts = NUMBERS.map(|number| format!("{:>7}", self.of_flaw(way, flaw, number)));
            writeln!(f, "  {name:<16}{}", counts.concat())?;
        }
        Ok(())
    }
}

/// A sheet has no count that could be wrong.
fn can_answer(way: Way, number: u8) -> bool {
    way == Way::Import || number != WRONG_COUNT
}

/// The sheet of a section is shorter than the section, so none passes the limit.
fn can_have(way: Way, room: Room) -> bool {
    way == Way::Export || room != Room::OverTheLimit
}

/// What a text with this flaw alone is mostly refused with.
fn number_of(flaw: Flaw) -> u8 {
    match flaw {
        Flaw::CountByOne | Flaw::CountOther => WRONG_COUNT,
        _ => BAD_LINE,
    }
}

impl fmt::Display for AfmCensus {
    fn fmt(&self, f: &mut fmt::Formatter<'_>) -> fmt::Result {
        for way in WAYS {
            let counts = NUMBERS.map(|number| format!("{number}: {}", self.of_number(way, number)));
            writeln!(f, "{way:?} by number (0 is a result): {}", counts.join(", "))?;
            let lines = LINE_STEPS.map(|step| match step {
                usize::MAX => format!("beyond: {}", self.of_lines(way, step)),
                _ => format!("to {step}: {}", self.of_lines(way, step)),
            });
            writeln!(f, "  18 by line: {}", lines.join(", "))?;
            let rooms = ROOMS.map(|room| format!("{room:?}: {}", self.of_room(way, room)));
            writeln!(f, "  buffers: {}", rooms.join(", "))?;
            self.print_flaws(f, way)?;
        }
        Ok(())
    }
}
