//! Import and export: cases by hand, the two claims searched by random texts, and
//! what the generator of calls draws.

#[path = "common/afm_cases.rs"]
mod afm_cases;

use noontrough_reference::afm::{AfmCalls, Pair, VALUES};
use noontrough_reference::afm_trial::{compare, exported_comes_back, imported_keeps_every_pair, squeezed};
use noontrough_reference::answer::WRONG_COUNT;
use noontrough_reference::census::afm::AfmCensus;
use noontrough_reference::generator::afm::texts::{few_pairs, Names};
use noontrough_reference::generator::afm::{good_section, Way};
use noontrough_reference::generator::random::Random;
use noontrough_reference::Reference;

/// Texts for each claim.
const TEXTS: usize = 4000;
/// Calls that are drawn to see what there is among them.
const CALLS: usize = 12_000;

#[test]
fn cases_by_hand() {
    afm_cases::all().iter().for_each(|case| case.make(&Reference));
}

#[test]
fn an_exported_sheet_is_imported_as_it_was() {
    let (exported, without_section) = exported_comes_back(&Reference, 31, TEXTS);
    println!("{exported} sheets came back, {without_section} had no section");
    assert!(exported > TEXTS * 8 / 10 && without_section > TEXTS / 40);
}

#[test]
fn an_imported_section_is_exported_with_one_space_for_each_run() {
    let with_runs = imported_keeps_every_pair(&Reference, 32, TEXTS);
    println!("{with_runs} of {TEXTS} sections had runs of spaces");
    assert!(with_runs > TEXTS / 4);
}

#[test]
fn runs_of_spaces_are_squeezed_and_nothing_else() {
    assert_eq!(squeezed(b"a  b c   d\t\t  \n\n"), b"a b c d\t\t \n\n");
}

/// Every value, on its way out and back.
#[test]
fn all_values_go_both_ways() {
    let mut out = [0; 80];
    for value in VALUES {
        let sheet = format!("A;V;{value}\n");
        let section = format!("StartKernPairs 1\nKPX A V {value}\nEndKernPairs\n");
        assert_eq!(Reference.export(sheet.as_bytes(), &mut out), Ok(section.len()));
        assert_eq!(&out[..section.len()], section.as_bytes());
        assert_eq!(Reference.import(section.as_bytes(), &mut out), Ok(sheet.len()));
        assert_eq!(&out[..sheet.len()], sheet.as_bytes());
    }
}

#[test]
fn every_answer_and_every_flaw_is_drawn() {
    let census = compare(&Reference, 33, CALLS).expect("the reference is like itself");
    println!("{census}");
    assert_eq!(census.too_seldom(), Vec::<String>::new());
    assert_eq!(census.of_number(Way::Export, WRONG_COUNT), 0);
}

#[test]
fn nothing_comes_up_in_no_calls() {
    // Numbers, buffers, parts of the lines and flaws: of import, and of export.
    assert_eq!(AfmCensus::default().too_seldom().len(), (5 + 2 + 6 + 26) + (4 + 3 + 6 + 21));
}

#[test]
fn plain_names_are_plain() {
    let is_plain = |byte: u8| byte.is_ascii_alphanumeric() || byte == b'.' || byte == b'_';
    let mut random = Random::new(34);
    let pairs: Vec<Pair> = (0..500).flat_map(|_| few_pairs(&mut random, Names::Plain, 12)).collect();
    assert!(pairs.iter().flat_map(|pair| [&pair.left, &pair.right]).flatten().all(|&byte| is_plain(byte)));
    let sections = (0..500).map(|_| good_section(&mut random, Names::Plain));
    assert!(sections.flatten().all(|byte| is_plain(byte) || b" -\n".contains(&byte)));
}
