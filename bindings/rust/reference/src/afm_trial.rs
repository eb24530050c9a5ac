//! Any implementation of import and export compared with the reference, call by
//! call: the answer and every byte of the buffer. And the two claims about them,
//! tried on any implementation.

use std::fmt;

use crate::afm::{AfmCalls, Answer, Refusal, MAX_AFM_TEXT};
use crate::answer::{RESULT_TOO_LONG, TEXT_TOO_LONG};
use crate::census::afm::AfmCensus;
use crate::generator::afm::texts::Names;
use crate::generator::afm::{afm_case, good_section, good_sheet, AfmCase, Way};
use crate::generator::random::Random;
use crate::trial::lent_buffer;
use crate::Reference;

/// What can be seen of a call afterwards.
#[derive(Clone, Debug, PartialEq, Eq)]
pub struct Outcome {
    pub answer: Answer,
    pub buffer: Vec<u8>,
}

impl Outcome {
    /// The text that a call gave, or the refusal.
    pub fn text(&self) -> Result<&[u8], Refusal> {
        self.answer.map(|length| &self.buffer[..length])
    }
}

/// Makes a call with a buffer of this length.
pub fn run(calls: &dyn AfmCalls, way: Way, text: &[u8], lent: usize) -> Outcome {
    let mut buffer = lent_buffer(lent);
    let answer = match way {
        Way::Import => calls.import(text, &mut buffer),
        Way::Export => calls.export(text, &mut buffer),
    };
    Outcome { answer, buffer }
}

/// A call on which two implementations differ.
pub struct Difference {
    /// Which of the random calls it is, from 0.
    pub index: usize,
    pub case: AfmCase,
    pub expected: Outcome,
    pub found: Outcome,
}

impl fmt::Debug for Difference {
    fn fmt(&self, f: &mut fmt::Formatter<'_>) -> fmt::Result {
        let Difference { index, case: AfmCase { way, text, lent, flaw }, expected, found } = self;
        writeln!(f, "call {index}: {way:?} of {} bytes with {lent} lent, flaw {flaw:?}", text.len())?;
        writeln!(f, "expected {:?}, found {:?}", expected.answer, found.answer)?;
        let place = expected.buffer.iter().zip(&found.buffer).position(|(one, other)| one != other);
        writeln!(f, "the buffers differ first at {place:?}")?;
        write!(f, "{}", shown(text))
    }
}

/// A text for a message. It may have 65,536 bytes; then only its beginning and its end
/// are shown.
pub fn shown(text: &[u8]) -> String {
    match text.len() {
        0..=2000 => text.escape_ascii().to_string(),
        length => format!("{} ... {}", text[..1000].escape_ascii(), text[length - 500..].escape_ascii()),
    }
}

/// Compares an implementation with the reference on so many random calls, and stops
/// at the first difference.
pub fn compare(calls: &dyn AfmCalls, seed: u64, count: usize) -> Result<AfmCensus, Box<Difference>> {
    let mut random = Random::new(seed);
    let mut census = AfmCensus::default();
    for index in 0..count {
        let case = afm_case(&mut random);
        let expected = run(&Reference, case.way, &case.text, case.lent);
        let found = run(calls, case.way, &case.text, case.lent);
        if found != expected {
            return Err(Box::new(Difference { index, case, expected, found }));
        }
        census.note(&case, expected.answer);
    }
    Ok(census)
}

/// A call with a buffer of 65,535 bytes.
fn whole(calls: &dyn AfmCalls, way: Way, text: &[u8]) -> Result<Vec<u8>, Refusal> {
    run(calls, way, text, MAX_AFM_TEXT).text().map(<[u8]>::to_vec)
}

/// Exports random sheets and imports what that gives: the same sheet. Gives how many
/// sheets were exported, and how many had no section of 65,535 bytes; panics at the
/// first that does not come back.
pub fn exported_comes_back(calls: &dyn AfmCalls, seed: u64, count: usize) -> (usize, usize) {
    let mut random = Random::new(seed);
    let mut without_section = 0;
    for _ in 0..count {
        let sheet = good_sheet(&mut random);
        match whole(calls, Way::Export, &sheet) {
            Ok(section) => {
                let comes_back = whole(calls, Way::Import, &section).is_ok_and(|found| found == sheet);
                assert!(comes_back, "{} by way of {}", shown(&sheet), shown(&section));
            }
            Err(refusal) => {
                assert!([TEXT_TOO_LONG, RESULT_TOO_LONG].contains(&refusal.number), "{refusal:?}: {}", shown(&sheet));
                without_section += 1;
            }
        }
    }
    (count - without_section, without_section)
}

/// Imports random sections and exports what that gives: the same section with each
/// run of spaces made one. Panics at the first for which that is not so; gives how
/// many had a run of more than one.
pub fn imported_keeps_every_pair(calls: &dyn AfmCalls, seed: u64, count: usize) -> usize {
    let mut random = Random::new(seed);
    let mut with_runs = 0;
    for _ in 0..count {
        let section = good_section(&mut random, Names::Any);
        let sheet =
            whole(calls, Way::Import, &section).unwrap_or_else(|refusal| panic!("{refusal:?}: {}", shown(&section)));
        let squeezed = squeezed(&section);
        with_runs += usize::from(squeezed != section);
        let is_kept = whole(calls, Way::Export, &sheet).is_ok_and(|found| found == squeezed);
        assert!(is_kept, "{} by way of {}", shown(&section), shown(&sheet));
    }
    with_runs
}

/// A text with each run of spaces made one.
pub fn squeezed(text: &[u8]) -> Vec<u8> {
    let mut squeezed = text.to_vec();
    squeezed.dedup_by(|next, before| (*next, *before) == (b' ', b' '));
    squeezed
}
