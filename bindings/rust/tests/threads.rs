//! No call overflows a stack, whatever thread it is made from.
//!
//! The programs are the one whose put takes most, and the one whose clash does. A stack that overflows ends the
//! process, so a call that finds no room fails the whole test file.

#[path = "common/stack.rs"]
mod stack;

use noontrough::{check, clash, create, get, put, Answer, ClashAnswer, MAX_CLASH, MAX_TEXT};
use stack::{clashing_repeat, joins_inside_a_long_sheet as largest, Case};

/// Far less than the call takes.
const SMALL: usize = 64 * 1024;

/// Makes each call through the safe wrappers; all must give results.
fn make_all(case: &Case) {
    show_clash();
    let mut out = vec![0; MAX_TEXT];
    let answers = [
        check(&case.table),
        get(&case.table, &case.source, &mut out),
        put(&case.table, &case.sheet, &case.old, &mut out).into(),
        create(&case.table, &case.sheet, &mut out),
    ];
    for answer in answers {
        assert!(matches!(answer, Answer::Result { .. }), "{answer:?}");
    }
}

/// The text comes from whatever thread the call was made on.
fn show_clash() {
    let (table, mut out) = (clashing_repeat().table, vec![0; MAX_CLASH]);
    let answer = clash(&table, &mut out);
    assert!(matches!(answer, ClashAnswer::Clash(found) if found.text == [b'a'; 254]), "{answer:?}");
}

#[test]
fn from_a_test() {
    make_all(&largest());
}

#[test]
fn from_a_plain_thread() {
    let case = largest();
    std::thread::spawn(move || make_all(&case)).join().expect("the calls give results");
}

#[test]
fn from_a_thread_with_a_small_stack() {
    let case = largest();
    let thread = std::thread::Builder::new().stack_size(SMALL);
    thread.spawn(move || make_all(&case)).expect("a thread can be started").join().expect("the calls give results");
}

/// Each turn takes a part of the stack, until little is left of a default
/// thread's; the calls are made on the way down.
#[inline(never)]
fn down(case: &Case, turns: usize) -> u8 {
    let frame = std::hint::black_box([turns as u8; 120 * 1024]);
    make_all(case);
    let below = if turns > 0 { down(case, turns - 1) } else { 0 };
    frame[turns] ^ below
}

#[test]
fn from_a_deep_recursion() {
    let case = largest();
    std::thread::spawn(move || down(&case, 14)).join().expect("the calls give results");
}

/// Many threads at once, each with too little for its calls.
#[test]
fn from_many_small_threads() {
    let case = largest();
    std::thread::scope(|scope| {
        for _ in 0..16 {
            let thread = std::thread::Builder::new().stack_size(SMALL);
            thread.spawn_scoped(scope, || make_all(&case)).expect("a thread can be started");
        }
    });
}
