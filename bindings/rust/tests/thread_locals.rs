//! No call overflows a stack in a program with large thread-local variables: they
//! lie in the stack of every thread, those that the calls start among them. (In a
//! file of its own, since it holds for the whole program.)

#[path = "common/stack.rs"]
mod stack;

use std::cell::Cell;

use noontrough::{put, PutAnswer, MAX_TEXT};

const SIZE: usize = 1 << 20;

thread_local! {
    static LARGE: [Cell<u8>; SIZE] = const { [const { Cell::new(0) }; SIZE] };
}

#[test]
fn calls_find_room_beside_them() {
    let case = stack::joins_inside_a_long_sheet();
    let thread = std::thread::Builder::new().stack_size(SIZE + 64 * 1024);
    let made = thread.spawn(move || {
        LARGE.with(|large| large[7].set(1));
        let answer = put(&case.table, &case.sheet, &case.old, &mut vec![0; MAX_TEXT]);
        let sum: usize = LARGE.with(|large| large.iter().map(|cell| usize::from(cell.get())).sum());
        (answer, sum)
    });
    let (answer, sum) = made.expect("a thread can be started").join().expect("the call comes back");
    assert_eq!(sum, 1);
    assert!(matches!(answer, PutAnswer::Result { .. }), "{answer:?}");
}
