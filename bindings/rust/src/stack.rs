//! Room on the stack: a call is made where it stands if its thread has enough
//! left, and on a thread of its own otherwise.
//!
//! A thread of `std::thread` usually has enough for every call. One that was
//! started with less, a deep recursion, large thread-local variables, which lie in
//! a thread's stack too, or a main thread under a small `ulimit -s` may not, and a
//! stack that overflows ends the process.

use std::cell::Cell;
use std::ops::Range;
use std::thread::{scope, Builder};

/// For the frames between the test for room and the engine, and for a guard page
/// that some C libraries count as part of the stack.
const MARGIN: usize = 16 * 1024;

/// For what else may lie in the stack of a new thread. It is reserved and not
/// used, so it costs nothing.
const RESERVE: usize = 1 << 20;

thread_local! {
    /// Where this thread's stack lies, once it was asked for; an empty range if
    /// that is not known.
    static STACK: Cell<Option<Range<usize>>> = const { Cell::new(None) };
}

/// Makes a call that takes up to `needed` bytes of stack.
///
/// # Panics
///
/// If there is too little room and no thread can be started.
pub(crate) fn with_room<T: Send>(needed: usize, call: impl FnOnce() -> T + Send) -> T {
    match left() {
        Some(left) if left >= needed + MARGIN => call(),
        _ => on_a_thread(needed + RESERVE, needed, Box::new(call)),
    }
}

/// The same on a new thread with a stack of this size, or of more, if the new
/// thread finds that too little of it is left. (The call is boxed, so that one
/// function serves however often it is tried.)
fn on_a_thread<T: Send>(size: usize, needed: usize, call: Box<dyn FnOnce() -> T + Send + '_>) -> T {
    let made = move || match left() {
        Some(left) if left < needed + MARGIN => on_a_thread(2 * size, needed, call),
        _ => call(),
    };
    scope(|scope| {
        let thread = Builder::new().stack_size(size).spawn_scoped(scope, made);
        thread.expect("a thread for the call can be started").join().expect("the engine does not panic")
    })
}

/// The bytes of stack below this frame, if that can be told. The stack of a thread
/// is asked for once: a main thread whose limit is lowered after its first call is
/// not noticed.
fn left() -> Option<usize> {
    let local = 0u8;
    let here = std::hint::black_box(&local) as *const u8 as usize;
    let stack = STACK.take().unwrap_or_else(|| of_this_thread().unwrap_or(0..0));
    // A stack of somebody's own making, such as a coroutine's, lies elsewhere.
    let left = stack.contains(&here).then(|| here - stack.start);
    STACK.set(Some(stack));
    left
}

/// The addresses of this thread's stack, lowest first.
#[cfg(all(target_os = "linux", target_arch = "x86_64"))]
fn of_this_thread() -> Option<Range<usize>> {
    use std::ffi::{c_int, c_void};

    /// `pthread_attr_t`, which has 56 bytes with glibc and with musl.
    #[repr(C, align(8))]
    struct Attributes([u8; 64]);

    extern "C" {
        fn pthread_self() -> usize;
        fn pthread_getattr_np(thread: usize, attributes: *mut Attributes) -> c_int;
        fn pthread_attr_getstack(attributes: *const Attributes, low: *mut *mut c_void, size: *mut usize) -> c_int;
        fn pthread_attr_destroy(attributes: *mut Attributes) -> c_int;
    }

    let mut attributes = Attributes([0; 64]);
    let mut low = std::ptr::null_mut();
    let mut size = 0;
    // SAFETY: the pointers are to locals of the types that the C library asks for. The attributes are read and given
    // back only if they were filled.
    let known = unsafe {
        pthread_getattr_np(pthread_self(), &mut attributes) == 0 && {
            let read = pthread_attr_getstack(&attributes, &mut low, &mut size);
            pthread_attr_destroy(&mut attributes);
            read == 0
        }
    };
    let low = low as usize;
    known.then(|| low..low.saturating_add(size))
}

/// Elsewhere a call always gets a thread of its own.
#[cfg(not(all(target_os = "linux", target_arch = "x86_64")))]
fn of_this_thread() -> Option<Range<usize>> {
    None
}
