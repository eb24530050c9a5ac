//! Prints small random calls with the reference's answers, one a line, in the
//! form of a list in an antt module, so that the definitions themselves can be
//! evaluated against them.
//!
//! `crosscheck [SEED [CHECKS GETS PUTS CREATES CLASHES]]`; without arguments seed 1
//! and 100, 100, 120, 80 and 60 calls.

use std::collections::HashSet;

use noontrough_reference::generator::cases::{Call, Case};
use noontrough_reference::generator::faults::PROGRAM_REFUSALS;
use noontrough_reference::generator::random::Random;
use noontrough_reference::generator::small::{small_call, small_check, small_clash};
use noontrough_reference::trial::run;
use noontrough_reference::{Reference, Refusal, Shown};

fn main() {
    let mut arguments = std::env::args().skip(1).map(|text| text.parse().expect("arguments are numbers"));
    let mut next = |usual: u64| arguments.next().unwrap_or(usual);
    let mut random = Random::new(next(1));
    // Every number in turn, with accepted programs in between.
    let mut wanted = PROGRAM_REFUSALS.flat_map(|number| [Some(number), None, Some(number)]).cycle();
    print_lines(next(100), || small_check(&mut random, wanted.next().flatten()));
    for (call, usual) in [(Call::Get, 100), (Call::Put, 120), (Call::Create, 80)] {
        print_lines(next(usual), || small_call(&mut random, call));
    }
    print_lines(next(60), || small_clash(&mut random));
}

/// Prints so many different lines.
fn print_lines(count: u64, mut draw: impl FnMut() -> Case) {
    let mut printed = HashSet::new();
    while (printed.len() as u64) < count {
        let line = line_of(&draw());
        if printed.insert(line.clone()) {
            println!("    ∷ {line}");
        }
    }
}

fn line_of(case: &Case) -> String {
    let (table, sheet, source) = (bytes(&case.table), bytes(&case.sheet), bytes(&case.source));
    let (lent, answer) = (case.lent, answer_of(case));
    match case.call {
        Call::Check => format!("checks {table} {answer}"),
        Call::Get => format!("gets {table} {source} {lent} {answer}"),
        Call::Put => format!("puts {table} {sheet} {source} {lent} {answer}"),
        Call::Create => format!("creates {table} {sheet} {lent} {answer}"),
        Call::Clash => format!("clashes {table} {lent} {answer}"),
    }
}

/// Check gives a number; clash tells of a rule with its text and ends, or that there
/// is nothing to tell; the other calls give a text.
fn answer_of(case: &Case) -> String {
    let outcome = run(&Reference, case);
    match outcome.answer {
        Ok(length) if case.call == Call::Clash => outcome.shown.map_or("noClash".to_string(), |shown| {
            let Shown { rule: Refusal { number, node }, numbers: [first, second], .. } = shown;
            format!("(clash {number} {node} {} ({first} , {second}))", bytes(&outcome.buffer[..length]))
        }),
        Ok(length) if case.call == Call::Check => format!("(gives {length})"),
        Ok(length) => format!("(gives {})", bytes(&outcome.buffer[..length])),
        Err(refusal) if case.call == Call::Clash => format!("(refused {} {})", refusal.number, refusal.node),
        Err(refusal) => format!("(refuses {} {})", refusal.number, refusal.node),
    }
}

fn bytes(text: &[u8]) -> String {
    let listed: String = text.iter().map(|byte| format!("{byte} ∷ ")).collect();
    format!("({listed}[])")
}
