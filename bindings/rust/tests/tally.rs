//! What became of the entries in a put, by the linked engine: the cases of document
//! 02 and by hand, and what must hold of every tally. (`tests/compare.rs` compares
//! every tally with the reference's.)

mod common;
#[path = "../reference/tests/common/tally_cases.rs"]
mod tally_cases;

use common::{with_stack, Engine};
use noontrough::{in_place, put, Answer, PutAnswer, Tally, MAX_TEXT};
use noontrough_reference::tallies;
use tally_cases::TallyCase;

const PROGRAMS: usize = 800;

fn make(case: &TallyCase) {
    let noontrough_reference::Tally { kept, made, dropped } = case.tally;
    let (length, tally) = (case.new.len(), Tally { kept, made, dropped });
    for call in [put, in_place::put] {
        let mut out = vec![b'?'; MAX_TEXT];
        let answer = call(&case.table, &case.sheet, &case.old, &mut out);
        assert_eq!(answer, PutAnswer::Result { length, tally }, "{}", case.name);
        assert_eq!((answer.tally(), Answer::from(answer)), (Some(tally), Answer::Result { length }));
        assert_eq!(out[..length], case.new, "{}", case.name);
    }
}

#[test]
fn cases_by_hand() {
    with_stack(|| tally_cases::all().iter().for_each(make));
}

#[test]
fn a_refusal_has_none() {
    let answer = put(&[], b"", b"", &mut []);
    assert_eq!(answer, PutAnswer::Refusal { number: 1, node: 0 });
    assert_eq!((answer.tally(), Answer::from(answer)), (None, Answer::Refusal { number: 1, node: 0 }));
}

#[test]
fn a_tally_is_shown_as_a_line() {
    assert_eq!(Tally { kept: 1, made: 520_192, dropped: 0 }.to_string(), "kept 1 made 520192 dropped 0");
}

#[test]
fn kept_and_dropped_are_the_old_entries_and_kept_and_made_the_new_ones() {
    let tried = with_stack(|| tallies::try_all(&Engine, 15, PROGRAMS));
    println!("{tried:?}");
    assert!(tried.with_entries > PROGRAMS && tried.unedited_with_entries > PROGRAMS);
}
