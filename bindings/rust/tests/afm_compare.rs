//! Import and export of the linked engine against the reference, call by call: the
//! answer, its numbers and every byte of the buffer; and the two claims about them
//! on the linked engine.
//!
//! `NOONTROUGH_AFM_CALLS` sets how many random calls each seed compares.

#[path = "../reference/tests/common/afm_cases.rs"]
mod afm_cases;

use noontrough::afm::{export_into, import_into};
use noontrough::Answer;
use noontrough_reference::afm::{AfmCalls, Answer as Expected, Refusal};
use noontrough_reference::afm_trial::{compare, exported_comes_back, imported_keeps_every_pair};
use noontrough_reference::census::afm::AfmCensus;

/// Each seed is compared on a thread of its own.
const SEEDS: [u64; 4] = [501, 502, 503, 504];
const CALLS: usize = 6000;
/// Texts for each claim.
const TEXTS: usize = 4000;

/// The linked engine by its C functions, so that every number of an answer is seen.
struct Engine;

impl AfmCalls for Engine {
    fn import(&self, section: &[u8], out: &mut [u8]) -> Expected {
        // SAFETY: the pointers come from slices, and `out` is lent alone.
        unsafe { noontrough_afm_import(section.as_ptr(), section.len(), out.as_mut_ptr(), out.len()) }.as_reference()
    }

    fn export(&self, sheet: &[u8], out: &mut [u8]) -> Expected {
        // SAFETY: as for import.
        unsafe { noontrough_afm_export(sheet.as_ptr(), sheet.len(), out.as_mut_ptr(), out.len()) }.as_reference()
    }
}

#[rustfmt::skip]
extern "C" {
    fn noontrough_afm_import(section: *const u8, section_len: usize, out: *mut u8, out_len: usize) -> Numbers;
    fn noontrough_afm_export(sheet: *const u8, sheet_len: usize, out: *mut u8, out_len: usize) -> Numbers;
}

#[repr(C)]
struct Numbers {
    number: u64,
    node: u64,
    length: u64,
}

impl Numbers {
    /// The answer. What does not apply must be 0.
    fn as_reference(&self) -> Expected {
        let &Numbers { number, node, length } = self;
        if number == 0 {
            assert_eq!(node, 0, "a result has no node");
            return Ok(length as usize);
        }
        assert_eq!(length, 0, "a refusal has no length");
        Err(refusal(number, node))
    }
}

/// The same by the functions of this package.
struct Package;

impl AfmCalls for Package {
    fn import(&self, section: &[u8], out: &mut [u8]) -> Expected {
        as_reference(import_into(section, out))
    }

    fn export(&self, sheet: &[u8], out: &mut [u8]) -> Expected {
        as_reference(export_into(sheet, out))
    }
}

fn as_reference(answer: Answer) -> Expected {
    match answer {
        Answer::Result { length } => Ok(length),
        Answer::Refusal { number, node } => Err(refusal(number, node)),
    }
}

fn refusal(number: u64, node: u64) -> Refusal {
    Refusal { number: u8::try_from(number).expect("refusals are below 256"), node: node as usize }
}

fn calls() -> usize {
    match std::env::var("NOONTROUGH_AFM_CALLS") {
        Ok(text) => text.parse().expect("NOONTROUGH_AFM_CALLS is a number"),
        Err(_) => CALLS,
    }
}

#[test]
fn the_engine_answers_as_the_reference_does() {
    let count = calls();
    let compare_seed = move |seed| (seed, compare(&Engine, seed, count));
    let threads = SEEDS.map(|seed| std::thread::spawn(move || compare_seed(seed)));
    let mut census = AfmCensus::default();
    for thread in threads {
        let (seed, compared) = thread.join().expect("the comparison ends");
        let compared = compared.unwrap_or_else(|difference| panic!("seed {seed}: {difference:?}"));
        println!("seed {seed}: {} calls, all alike", compared.total());
        census.add(&compared);
    }
    println!("{} calls in all\n{census}", census.total());
    // A few calls are not enough to have everything among them.
    if count >= CALLS {
        assert_eq!(census.too_seldom(), Vec::<String>::new());
    }
}

#[test]
fn cases_by_hand() {
    for case in afm_cases::all() {
        case.make(&Engine);
        case.make(&Package);
    }
}

#[test]
fn an_exported_sheet_is_imported_as_it_was() {
    let (exported, without_section) = exported_comes_back(&Package, 505, TEXTS);
    println!("{exported} sheets came back, {without_section} had no section");
    assert!(exported > TEXTS * 8 / 10 && without_section > TEXTS / 40);
}

#[test]
fn an_imported_section_is_exported_with_one_space_for_each_run() {
    let with_runs = imported_keeps_every_pair(&Package, 506, TEXTS);
    println!("{with_runs} of {TEXTS} sections had runs of spaces");
    assert!(with_runs > TEXTS / 4);
}
