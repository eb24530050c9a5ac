//! What must hold of every put's tally, tried on any implementation of the calls.
//!
//! The entries of the old and of the new source are counted by reading the two
//! texts; how the put came by its tally plays no part.

use crate::answer::Tally;
use crate::calls::{Calls, MAX_ENTRIES, MAX_TEXT};
use crate::generator::cases::{program_cases, Call, Case};
use crate::generator::random::Random;
use crate::program::Program;
use crate::table::Side;
use crate::trial::{run, Outcome};

/// How many puts were tried.
#[derive(Clone, Copy, Debug, Default)]
pub struct Tried {
    /// Puts of random calls that gave a result, and those of them with entries.
    pub puts: usize,
    pub with_entries: usize,
    /// Unedited sheets that were put back, and those of them with entries.
    pub unedited: usize,
    pub unedited_with_entries: usize,
}

/// Tries the puts of random calls, and puts every source's own sheet back.
/// Panics at the first tally that is wrong.
pub fn try_all(calls: &dyn Calls, seed: u64, programs: usize) -> Tried {
    let (mut random, mut tried) = (Random::new(seed), Tried::default());
    for _ in 0..programs {
        let cases = program_cases(&mut random);
        let Ok(program) = Program::read(&cases[0].table) else { continue };
        for case in cases.iter().filter(|case| case.call == Call::Put) {
            try_put(calls, &program, case, &mut tried);
            try_unedited(calls, &program, case, &mut tried);
        }
    }
    tried
}

/// Kept and dropped are the old entries; kept and made are the new ones.
fn try_put(calls: &dyn Calls, program: &Program, case: &Case, tried: &mut Tried) {
    let outcome = run(calls, case);
    let Ok(new) = outcome.text() else {
        assert_eq!(outcome.tally, None, "a refusal has no tally: {case:?}");
        return;
    };
    let Tally { kept, made, dropped } = tally_of(&outcome, case);
    let (old_entries, new_entries) = (program.count_entries(&case.source), program.count_entries(new));
    assert_eq!(kept + dropped, old_entries, "the old source's entries: {case:?}");
    assert_eq!(kept + made, new_entries, "the new source's entries: {case:?}");
    tried.puts += 1;
    tried.with_entries += usize::from(kept + made + dropped > 0);
}

/// An unedited sheet keeps every entry of its source.
fn try_unedited(calls: &dyn Calls, program: &Program, case: &Case, tried: &mut Tried) {
    let is_source = case.source.len() <= MAX_TEXT && program.fits(program.root(), Side::Source, &case.source);
    let entries = if is_source { program.count_entries(&case.source) } else { 0 };
    if !is_source || entries > MAX_ENTRIES {
        return;
    }
    let sheet = program.get(&case.source);
    if sheet.len() > MAX_TEXT {
        return;
    }
    let unedited = Case { sheet, lent: MAX_TEXT, ..case.clone() };
    let tally = tally_of(&run(calls, &unedited), &unedited);
    assert_eq!(tally, Tally { kept: entries, made: 0, dropped: 0 }, "an unedited sheet: {unedited:?}");
    tried.unedited += 1;
    tried.unedited_with_entries += usize::from(entries > 0);
}

fn tally_of(outcome: &Outcome, case: &Case) -> Tally {
    outcome.tally.unwrap_or_else(|| panic!("a result has a tally: {case:?}"))
}
