//! What became of the entries in a put: the cases of document 02 and by hand, and
//! what must hold of every tally.

mod common;
#[path = "common/tally_cases.rs"]
mod tally_cases;

use common::*;
use noontrough_reference::generator::cases::Call;
use noontrough_reference::{tallies, Reference};

const PROGRAMS: usize = 800;

#[test]
fn cases_by_hand() {
    for case in tally_cases::all() {
        let outcome = outcome(Call::Put, &case.table, &case.sheet, &case.old, BUFFER);
        assert_eq!(outcome.text(), Ok(&case.new[..]), "{}", case.name);
        assert_eq!(outcome.tally, Some(case.tally), "{}", case.name);
    }
}

#[test]
fn the_cases_of_k_are_of_k() {
    let of_k = tally_cases::all().into_iter().filter(|case| case.name == "K");
    let mut checked = of_k.inspect(|case| assert_eq!(check(&case.table), Ok(15)));
    assert!(checked.next().is_some());
}

#[test]
fn only_a_put_with_a_result_has_one() {
    let k = program_k();
    let tally = |call, sheet: &[u8], source: &[u8], lent| outcome(call, &k, sheet, source, lent).tally;
    assert!(tally(Call::Put, b"C;AB;", b"AB1;C22;", 8).is_some());
    assert_eq!(tally(Call::Put, b"C;AB;", b"AB1;C22;", 7), None, "16");
    assert_eq!(tally(Call::Put, b"A;", &b"A;".repeat(257), BUFFER), None, "15");
    assert_eq!(tally(Call::Put, b"AB1;", b"AB1;", BUFFER), None, "14");
    assert_eq!(tally(Call::Put, b"AB;", b"[;", BUFFER), None, "13");
    assert_eq!(tally(Call::Put, &b"A;".repeat(2049), b"", BUFFER), None, "12");
    assert_eq!(tally(Call::Create, b"AB;", b"", BUFFER), None);
    assert_eq!(tally(Call::Get, b"", b"AB1;", BUFFER), None);
}

#[test]
fn kept_and_dropped_are_the_old_entries_and_kept_and_made_the_new_ones() {
    let tried = tallies::try_all(&Reference, 8, PROGRAMS);
    println!("{tried:?}");
    assert!(tried.with_entries > PROGRAMS && tried.unedited_with_entries > PROGRAMS);
}
