//! Padded names, by the linked engine and by the reference: keys that are equal once
//! their trailing spaces are cut, among them old keys of over 262,000 bytes. The cases
//! are of document 02 and by hand. (`tests/compare.rs` compares such keys of all sorts.)

mod common;
#[path = "../reference/tests/common/padded_cases.rs"]
mod padded_cases;

use common::{with_stack, Engine};
use noontrough::{in_place, PutAnswer, Tally, MAX_TEXT};
use noontrough_reference::generator::padded_entries::padded_entry_cases;
use noontrough_reference::generator::random::Random;
use noontrough_reference::trial::run;
use noontrough_reference::{Reference, Remembering};

/// Programs with long old keys, of about eight calls each.
const PROGRAMS: usize = 300;

#[test]
fn cases_by_hand() {
    with_stack(|| {
        for case in padded_cases::all() {
            case.make(&Reference);
            case.make(&Engine);
        }
    });
}

/// The bare call, with a buffer of just the length of the result.
#[test]
fn a_padded_name_keeps_its_remark() {
    let table = padded_cases::padded_k().table();
    let tally = Tally { kept: 1, made: 0, dropped: 0 };
    with_stack(move || {
        let mut out = [b'?'; 6];
        assert_eq!(in_place::put(&table, b"AB  ;", b"AB1;", &mut out), PutAnswer::Result { length: 6, tally });
        assert_eq!(&out, b"AB  1;");
        let mut short = [b'?'; 5];
        let refused = PutAnswer::Refusal { number: 16, node: 0 };
        assert_eq!(in_place::put(&table, b"AB  ;", b"AB1;", &mut short), refused);
        assert_eq!(&short, b"?????");
    });
}

/// 256 old entries with equal keys, all padded in their own way, put back unedited.
#[test]
fn unedited_entries_with_equal_keys_are_restored() {
    let table = padded_cases::padded_k().table();
    let entry = |index: usize| format!("A{}{};", " ".repeat(index * 7 % 12), index % 10).into_bytes();
    let source: Vec<u8> = (0..256).flat_map(entry).collect();
    assert!(source.len() <= MAX_TEXT);
    with_stack(move || {
        let (mut sheet, mut out) = (vec![0; MAX_TEXT], vec![0; MAX_TEXT]);
        let length = match noontrough::get(&table, &source, &mut sheet) {
            noontrough::Answer::Result { length } => length,
            refused => panic!("{refused:?}"),
        };
        let answer = noontrough::put(&table, &sheet[..length], &source, &mut out);
        let tally = Tally { kept: 256, made: 0, dropped: 0 };
        assert_eq!(answer, PutAnswer::Result { length: source.len(), tally });
        assert_eq!(out[..source.len()], source);
    });
}

#[test]
fn long_keys_of_all_sorts_are_alike() {
    with_stack(|| {
        let mut random = Random::new(16);
        for case in (0..PROGRAMS).flat_map(|_| padded_entry_cases(&mut random)) {
            let (found, expected) = (run(&Engine, &case), run(&Remembering, &case));
            assert!(found == expected, "{:?} in place of {:?}: {case:?}", found.answer, expected.answer);
        }
    });
}
