//! Any implementation of the calls compared with the reference, call by call:
//! the answer, a put's tally, what a clash shows and every byte of the buffer.

use std::collections::BTreeMap;
use std::fmt;

use crate::answer::{Answer, ClashAnswer, PutAnswer, Refusal, Shown, Tally, CLASH_TOO_LONG};
use crate::calls::{Calls, Remembering};
use crate::census::Census;
use crate::generator::cases::{program_cases, Call, Case};
use crate::generator::random::Random;

/// What can be seen of a call afterwards.
#[derive(Clone, Debug, PartialEq, Eq)]
pub struct Outcome {
    pub answer: Answer,
    /// Only a put's result has one.
    pub tally: Option<Tally>,
    /// Only a clash has it; where there is none, its answer is that of an empty
    /// result.
    pub shown: Option<Shown>,
    pub buffer: Vec<u8>,
}

impl Outcome {
    /// The text that a call gave, or the refusal.
    pub fn text(&self) -> Result<&[u8], Refusal> {
        self.answer.map(|length| &self.buffer[..length])
    }
}

/// What a lent buffer holds before the call: no two neighbours alike, so that a
/// byte moved or written out of place shows.
pub fn lent_buffer(length: usize) -> Vec<u8> {
    (0..length).map(|index| (index * 151 + 89) as u8).collect()
}

pub fn run(calls: &dyn Calls, case: &Case) -> Outcome {
    let mut buffer = lent_buffer(case.lent);
    let plain = |answer| (answer, None, None);
    let (answer, tally, shown) = match case.call {
        Call::Check => plain(calls.check(&case.table)),
        Call::Get => plain(calls.get(&case.table, &case.source, &mut buffer)),
        Call::Put => of_put(calls.put(&case.table, &case.sheet, &case.source, &mut buffer)),
        Call::Create => plain(calls.create(&case.table, &case.sheet, &mut buffer)),
        Call::Clash => of_clash(calls.clash(&case.table, &mut buffer)),
    };
    Outcome { answer, tally, shown, buffer }
}

/// The answer as that of any call, and beside it a put's tally and what a clash
/// shows.
type Split = (Answer, Option<Tally>, Option<Shown>);

fn of_put(answer: PutAnswer) -> Split {
    (answer.map(|put| put.length), answer.ok().map(|put| put.tally), None)
}

fn of_clash(answer: ClashAnswer) -> Split {
    (answer.map(|shown| shown.map_or(0, |shown| shown.length)), None, answer.ok().flatten())
}

/// How often each call gave a result (0) or each refusal (its number).
#[derive(Clone, Debug, Default)]
pub struct Counts {
    counts: BTreeMap<(Call, u8), usize>,
}

impl Counts {
    pub fn note(&mut self, call: Call, answer: Answer) {
        let number = answer.map_or_else(|refusal| refusal.number, |_| 0);
        *self.counts.entry((call, number)).or_default() += 1;
    }

    pub fn total(&self) -> usize {
        self.counts.values().sum()
    }

    /// How often a number came up in all calls together.
    pub fn of_number(&self, number: u8) -> usize {
        self.counts.iter().filter(|((_, n), _)| *n == number).map(|(_, count)| count).sum()
    }
}

impl fmt::Display for Counts {
    fn fmt(&self, f: &mut fmt::Formatter<'_>) -> fmt::Result {
        for number in 0..=CLASH_TOO_LONG {
            let name = if number == 0 { "result".to_string() } else { format!("refusal {number}") };
            write!(f, "{name:>10}")?;
            for call in [Call::Check, Call::Get, Call::Put, Call::Create, Call::Clash] {
                let count = self.counts.get(&(call, number)).copied().unwrap_or(0);
                write!(f, "  {call:?} {count:>7}")?;
            }
            writeln!(f)?;
        }
        Ok(())
    }
}

/// A call on which two implementations differ.
#[derive(Debug)]
pub struct Difference {
    pub case: Case,
    pub expected: Outcome,
    pub found: Outcome,
}

/// What a comparison without a difference saw.
#[derive(Clone, Debug, Default)]
pub struct Compared {
    pub counts: Counts,
    pub census: Census,
}

/// Compares an implementation with the reference on the calls of `programs`
/// random programs, and stops at the first difference.
pub fn compare(calls: &dyn Calls, seed: u64, programs: usize) -> Result<Compared, Box<Difference>> {
    let mut random = Random::new(seed);
    let mut compared = Compared::default();
    for _ in 0..programs {
        let mut answered = Vec::new();
        for case in program_cases(&mut random) {
            let expected = run(&Remembering, &case);
            let found = run(calls, &case);
            if found != expected {
                return Err(Box::new(Difference { case, expected, found }));
            }
            compared.counts.note(case.call, expected.answer);
            answered.push((case, expected.answer));
        }
        compared.census.note(&answered);
    }
    Ok(compared)
}
