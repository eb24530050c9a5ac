//! The three clauses of demand 3 on random accepted programs, and the count of
//! every refusal over random calls.

mod common;

use std::collections::HashSet;

use common::*;
use noontrough_reference::demand3;
use noontrough_reference::generator::cases::{program_cases, Call};
use noontrough_reference::generator::faults::{mutated, refused as draw_refused, PROGRAM_REFUSALS};
use noontrough_reference::generator::programs::accepted;
use noontrough_reference::generator::random::Random;
use noontrough_reference::trial::{compare, lent_buffer, run, Counts};
use noontrough_reference::Reference;

const PROGRAMS: usize = 2000;

#[test]
fn an_unedited_sheet_gives_the_old_source_back() {
    let tried = demand3::unedited(&Reference, 1, PROGRAMS);
    println!("clause 1: {tried:?}");
    assert!(tried.sheets > 4 * PROGRAMS && tried.padded_apart > PROGRAMS / 30);
}

#[test]
fn a_new_source_gives_its_sheet() {
    let (by_put, by_create) = demand3::read_back(&Reference, 2, PROGRAMS);
    println!("clause 2: {by_put} sources by put, {by_create} by create");
    assert!(by_put > 4 * PROGRAMS && by_create > 4 * PROGRAMS);
}

#[test]
fn entries_with_different_keys_are_put_in_any_order() {
    let tried = demand3::reordered(&Reference, 3, PROGRAMS);
    println!("clause 3: {tried:?}");
    assert!(tried.lists > 4 * PROGRAMS && tried.moved > PROGRAMS && tried.padded > PROGRAMS / 20);
}

#[test]
fn every_refusal_comes_up_and_none_touches_the_buffer() {
    let mut random = Random::new(4);
    let mut counts = Counts::default();
    for _ in 0..PROGRAMS {
        for case in program_cases(&mut random) {
            let outcome = run(&Reference, &case);
            let before = lent_buffer(case.lent);
            match outcome.answer {
                Ok(length) if case.call == Call::Check => assert_eq!(length, usize::from(case.table[0])),
                Ok(length) => assert_eq!(outcome.buffer[length..], before[length..]),
                Err(_) => assert_eq!(outcome.buffer, before),
            }
            counts.note(case.call, outcome.answer);
        }
    }
    println!("{} calls\n{counts}", counts.total());
    for number in 0..=17 {
        assert!(counts.of_number(number) >= 20, "{number} came up {} times", counts.of_number(number));
    }
}

#[test]
fn each_fault_of_a_program_can_be_planted() {
    let mut random = Random::new(5);
    for number in PROGRAM_REFUSALS {
        let nodes: HashSet<u8> = (0..40)
            .map(|_| {
                let table = draw_refused(&mut random, number, &mut accepted);
                let refusal = check(&table).expect_err("refused");
                assert_eq!(refusal.number, number);
                refusal.node
            })
            .collect();
        println!("{number}: at {} different nodes", nodes.len());
        assert!(nodes.len() > 3 || number == 1);
    }
}

#[test]
fn changed_tables_are_accepted_or_refused() {
    let mut random = Random::new(6);
    let mut numbers = [0usize; 12];
    for _ in 0..20_000 {
        let table = accepted_once_in_a_while(&mut random);
        let answer = check(&mutated(&mut random, &table));
        numbers[answer.map_or_else(|refusal| usize::from(refusal.number), |_| 0)] += 1;
    }
    println!("accepted, then 1 to 11: {numbers:?}");
}

/// Program K mostly, since drawing a program takes longer than checking it.
fn accepted_once_in_a_while(random: &mut Random) -> Vec<u8> {
    if random.once_in(20) {
        accepted(random).table()
    } else {
        program_k()
    }
}

#[test]
fn the_reference_agrees_with_itself() {
    let counts = compare(&Reference, 7, 200).expect("no difference").counts;
    assert!(counts.total() > 1000);
}
