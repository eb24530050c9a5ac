//! The stack that calls take, held to what `STACK_BYTES`, `READ_STACK_BYTES` and
//! `CLASH_STACK_BYTES` promise.
//!
//! `cargo run --example stack` prints the figures.

#[path = "common/stack.rs"]
mod stack;

use noontrough::{CLASH_STACK_BYTES, READ_STACK_BYTES, STACK_BYTES};
use stack::{afm_cases, cases, clash_cases, clash_of_k, few_words, k, Call, Case, ClashCase, CALLS};

const READS: [Call; 2] = [Call::Check, Call::Get];
/// What check, get and create of a program like K keep to, and what its put and its
/// clash do.
const LIKE_K: usize = 64 * 1024;
const PUT_LIKE_K: usize = 96 * 1024;
const CLASH_LIKE_K: usize = 96 * 1024;
/// What import and export keep to, whatever the text is.
const AFM: usize = 16 * 1024;
/// The stack of a thread that is started without a size.
const DEFAULT_THREAD: usize = 2 << 20;
/// What a thread takes for itself, and more than that.
const OWN: usize = 32 * 1024;
/// What such a thread has left for its own work beside any call.
const SPARE: usize = 192 * 1024;

fn assert_keeps_to(most: usize, case: &Case, call: Call) {
    let taken = case.stack_of(call);
    assert!(taken <= most, "{}: {call:?} takes {taken} bytes of stack, over {most}", case.name);
}

fn assert_clash_keeps_to(most: usize, case: &ClashCase) {
    let taken = case.stack();
    assert!(taken <= most, "{}: clash takes {taken} bytes of stack, over {most}", case.name);
}

/// Makes calls on a thread that has so much stack for them. They are measured
/// first, since a call that finds too little ends the process and says nothing.
fn assert_come_back(stack: usize, case: &Case, calls: &[Call]) {
    calls.iter().for_each(|&call| assert_keeps_to(stack, case, call));
    std::thread::scope(|scope| {
        let thread = std::thread::Builder::new().stack_size(stack + OWN);
        let made = thread.spawn_scoped(scope, || calls.iter().for_each(|&call| case.make(call)));
        made.expect("a thread can be started").join().expect("the calls give results");
    });
}

/// The same on a thread that is started without a size, of which the calls leave
/// so much.
fn assert_come_back_by_default(spare: usize, case: Case, calls: &'static [Call]) {
    calls.iter().for_each(|&call| assert_keeps_to(DEFAULT_THREAD - spare, &case, call));
    let thread = std::thread::spawn(move || calls.iter().for_each(|&call| case.make(call)));
    thread.join().expect("the calls give results");
}

#[test]
fn the_promised_stack_is_enough_for_every_call() {
    cases().iter().for_each(|case| assert_come_back(STACK_BYTES, case, &CALLS));
}

#[test]
fn check_and_get_need_no_more_than_is_promised_for_reading() {
    cases().iter().for_each(|case| assert_come_back(READ_STACK_BYTES, case, &READS));
}

#[test]
fn calls_of_k_take_little() {
    for case in [k(8), k(256)] {
        [Call::Check, Call::Get, Call::Create].iter().for_each(|&call| assert_keeps_to(LIKE_K, &case, call));
        assert_keeps_to(PUT_LIKE_K, &case, Call::Put);
    }
}

#[test]
fn a_default_thread_is_enough_for_every_call() {
    cases().into_iter().for_each(|case| assert_come_back_by_default(SPARE, case, &CALLS));
}

#[test]
fn a_clash_needs_no_more_than_is_promised() {
    for case in clash_cases() {
        assert_clash_keeps_to(CLASH_STACK_BYTES, &case);
        std::thread::scope(|scope| {
            let thread = std::thread::Builder::new().stack_size(CLASH_STACK_BYTES + OWN);
            let made = thread.spawn_scoped(scope, || case.make());
            made.expect("a thread can be started").join().expect("the clash is shown");
        });
        assert_clash_keeps_to(DEFAULT_THREAD - SPARE, &case);
        std::thread::spawn(move || case.make()).join().expect("the clash is shown");
    }
}

#[test]
fn a_clash_of_a_program_like_k_takes_little() {
    [clash_of_k(), few_words(0)].iter().for_each(|case| assert_clash_keeps_to(CLASH_LIKE_K, case));
}

/// There is nothing to look for.
#[test]
fn a_clash_of_an_accepted_program_takes_what_check_does() {
    assert_clash_keeps_to(LIKE_K, &k(8).to_clash());
    cases().iter().for_each(|case| assert_clash_keeps_to(READ_STACK_BYTES, &case.to_clash()));
}

#[test]
fn import_and_export_take_little() {
    for case in afm_cases() {
        let taken = case.stack();
        assert!(taken <= AFM, "{}: {taken} bytes of stack, over {AFM}", case.name);
    }
}
