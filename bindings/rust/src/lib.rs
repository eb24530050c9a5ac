//! Rust calls onto the sheet engine.
//!
//! The engine itself is a static library with seven C functions (check, get,
//! put, create, clash, and import and export of [`afm`]; `include/noontrough.h`). This
//! package declares them and wraps each in a safe function. The workspace member
//! `noontrough-reference` is a second, independent implementation of the same paper,
//! and the tests compare the two call by call.
//!
//! ```
//! use noontrough::{get, put, Answer, PutAnswer};
//!
//! // copy of any number of capitals
//! let table = [3, 0, 0, 1, 4, 16, 65, 90, 0, 0, 0, 0, 1, 0, 0];
//! let mut out = [0; 16];
//! assert_eq!(get(&table, b"AV", &mut out), Answer::Result { length: 2 });
//! assert_eq!(&out[..2], b"AV");
//! assert_eq!(put(&table, b"av", b"AV", &mut out), PutAnswer::Refusal { number: 14, node: 0 });
//! ```
//!
//! No call overflows a stack: where a thread has too little left, the call is made
//! on a thread of its own, and panics if none can be started. [`in_place`] has the
//! calls without that.

pub mod afm;
mod clash;
mod sentences;
mod stack;
mod tally;

pub use clash::{Clash, ClashAnswer, Ways};
pub use sentences::sentence;
pub use tally::Tally;

/// The stack that any call of any program keeps to.
///
/// A call takes what its program needs. For a program like K of the repository's
/// examples, check, get and create take under 64 KiB, and a put or a clash under
/// 96 KiB. A thread of 2 MiB, as `std::thread` starts them, is enough for every
/// call, and has 192 KiB left for its own work.
///
/// The bound is measured on x86-64, not proved. `cargo test` fails if a call of
/// the programs that take most passes it.
pub const STACK_BYTES: usize = 1840 * 1024;

/// The stack that check and get of any program keep to. Measured and tested as
/// [`STACK_BYTES`] is, and not proved.
pub const READ_STACK_BYTES: usize = 704 * 1024;

/// The stack that a clash of any program keeps to. Measured and tested as
/// [`STACK_BYTES`] is, and not proved.
pub const CLASH_STACK_BYTES: usize = 832 * 1024;

/// The longest source, sheet and result. A buffer of this length is long enough
/// for every result. ([`afm`] has a limit of its own.)
pub const MAX_TEXT: usize = 4096;

/// The longest text that a clash can have. A buffer of this length is never too
/// short for one.
pub const MAX_CLASH: usize = 16_512;

/// What check, get and create answer, and the calls of [`afm`] that are lent a buffer.
#[derive(Clone, Copy, Debug, PartialEq, Eq)]
pub enum Answer {
    /// The result stands in the first `length` bytes of the buffer, and the
    /// bytes behind it are as they were. For check, the number of nodes.
    Result { length: usize },
    /// A refusal from 1 to 16, 18 or 19, and the node it concerns (for 18 the line,
    /// counted from 1; 0 if it concerns none). The buffer is as it was.
    Refusal { number: u64, node: u64 },
}

/// What a put answers: as [`Answer`], and with a result the [`Tally`] of its
/// entries. `Answer::from` leaves the tally away.
#[derive(Clone, Copy, Debug, PartialEq, Eq)]
pub enum PutAnswer {
    /// The new source stands in the first `length` bytes of the buffer, and the
    /// bytes behind it are as they were.
    Result { length: usize, tally: Tally },
    /// A refusal from 1 to 16 and the node it concerns (0 if it concerns none).
    /// The buffer is as it was.
    Refusal { number: u64, node: u64 },
}

impl PutAnswer {
    /// The tally of a result. A refusal has none.
    pub fn tally(self) -> Option<Tally> {
        match self {
            PutAnswer::Result { tally, .. } => Some(tally),
            PutAnswer::Refusal { .. } => None,
        }
    }
}

impl From<PutAnswer> for Answer {
    fn from(answer: PutAnswer) -> Answer {
        match answer {
            PutAnswer::Result { length, .. } => Answer::Result { length },
            PutAnswer::Refusal { number, node } => Answer::Refusal { number, node },
        }
    }
}

/// The answer as the engine gives it.
#[repr(C)]
struct Numbers {
    number: u64,
    node: u64,
    length: u64,
}

impl From<Numbers> for Answer {
    fn from(numbers: Numbers) -> Answer {
        match numbers.number {
            // A result fits the buffer that was lent, so its length is a usize.
            0 => Answer::Result { length: numbers.length as usize },
            number => Answer::Refusal { number, node: numbers.node },
        }
    }
}

/// The answer of a put as the engine gives it.
#[repr(C)]
struct PutNumbers {
    number: u64,
    node: u64,
    length: u64,
    kept: u64,
    made: u64,
    dropped: u64,
}

impl From<PutNumbers> for PutAnswer {
    fn from(numbers: PutNumbers) -> PutAnswer {
        // No count passes 2,097,152 (`met-few` in crates/laws), so each is a usize.
        let [kept, made, dropped] = [numbers.kept, numbers.made, numbers.dropped].map(|count| count as usize);
        match numbers.number {
            0 => PutAnswer::Result { length: numbers.length as usize, tally: Tally { kept, made, dropped } },
            number => PutAnswer::Refusal { number, node: numbers.node },
        }
    }
}

/// Tests a program; the length is its number of nodes.
///
/// # Panics
///
/// If the thread has too little stack left and no other can be started.
pub fn check(table: &[u8]) -> Answer {
    stack::with_room(READ_STACK_BYTES, || in_place::check(table))
}

/// Gives the sheet of a source.
///
/// # Panics
///
/// If the thread has too little stack left and no other can be started.
pub fn get(table: &[u8], source: &[u8], out: &mut [u8]) -> Answer {
    stack::with_room(READ_STACK_BYTES, || in_place::get(table, source, out))
}

/// Gives a source from an edited sheet and the old source, and counts the
/// entries that were kept, made and dropped.
///
/// Entries are found by their keys. Spaces at the end of a key do not count there, so
/// a name may be padded; they are written as the sheet has them.
///
/// ```
/// use noontrough::{put, PutAnswer, Tally};
///
/// # fn main() -> std::io::Result<()> {
/// let k = std::fs::read("../../examples/k/program.table")?;
/// let mut out = [0; 16];
/// let tally = Tally { kept: 1, made: 1, dropped: 1 }; // C, D and AB
/// assert_eq!(put(&k, b"C;D;", b"AB1;C22;", &mut out), PutAnswer::Result { length: 7, tally });
/// assert_eq!(&out[..7], b"C22;D0;");
/// assert_eq!(tally.to_string(), "kept 1 made 1 dropped 1");
/// # Ok(())
/// # }
/// ```
///
/// # Panics
///
/// If the thread has too little stack left and no other can be started.
pub fn put(table: &[u8], sheet: &[u8], source: &[u8], out: &mut [u8]) -> PutAnswer {
    stack::with_room(STACK_BYTES, || in_place::put(table, sheet, source, out))
}

/// Gives a source from a sheet alone.
///
/// # Panics
///
/// If the thread has too little stack left and no other can be started.
pub fn create(table: &[u8], sheet: &[u8], out: &mut [u8]) -> Answer {
    stack::with_room(STACK_BYTES, || in_place::create(table, sheet, out))
}

/// Shows why a program is refused with 7 to 11: a shortest text that breaks the
/// rule, the lowest in byte order, and two ways to read it. Every buffer is used as
/// far as it goes, also one of more than [`MAX_TEXT`] bytes.
///
/// ```
/// use noontrough::{clash, Clash, ClashAnswer, Ways, MAX_CLASH};
///
/// // any number of capitals behind any number of capitals
/// let table = [4, 0, 0, 1, 4, 16, 19, 65, 90, 0, 0, 0, 0, 1, 0, 0, 2, 2, 0];
/// let mut out = [0; MAX_CLASH];
/// let shown = Clash { number: 7, node: 3, text: b"A", ways: Ways::Ends(0, 1) }; // nothing and A, or A and nothing
/// assert_eq!(clash(&table, &mut out), ClashAnswer::Clash(shown));
/// assert_eq!(clash(&table, &mut []), ClashAnswer::Refusal { number: 17, node: 0 });
///
/// // a copy of any number of capitals
/// let table = [3, 0, 0, 1, 4, 16, 65, 90, 0, 0, 0, 0, 1, 0, 0];
/// assert_eq!(clash(&table, &mut out), ClashAnswer::NoClash);
/// ```
///
/// # Panics
///
/// If the thread has too little stack left and no other can be started.
pub fn clash<'a>(table: &[u8], out: &'a mut [u8]) -> ClashAnswer<'a> {
    stack::with_room(CLASH_STACK_BYTES, || in_place::clash(table, out))
}

/// The same calls on the stack of this thread, whatever it has left: for callers
/// who know that there is room, and never want a thread to be started. A call
/// that finds too little ends the process.
pub mod in_place {
    use crate::clash::ClashNumbers;
    use crate::{Answer, ClashAnswer, Numbers, PutAnswer, PutNumbers};

    #[rustfmt::skip]
    extern "C" {
        fn noontrough_check(table: *const u8, table_len: usize) -> Numbers;

        fn noontrough_get(
            table: *const u8, table_len: usize,
            source: *const u8, source_len: usize,
            out: *mut u8, out_len: usize,
        ) -> Numbers;

        fn noontrough_put(
            table: *const u8, table_len: usize,
            sheet: *const u8, sheet_len: usize,
            source: *const u8, source_len: usize,
            out: *mut u8, out_len: usize,
        ) -> PutNumbers;

        fn noontrough_create(
            table: *const u8, table_len: usize,
            sheet: *const u8, sheet_len: usize,
            out: *mut u8, out_len: usize,
        ) -> Numbers;

        fn noontrough_clash(
            table: *const u8, table_len: usize,
            out: *mut u8, out_len: usize,
        ) -> ClashNumbers;
    }

    // For all five: the pointers come from slices, so they are not null, their
    // bytes can be read, and `out`, lent alone, overlaps none of the others. The
    // engine keeps none of them.

    pub fn check(table: &[u8]) -> Answer {
        // SAFETY: as said above.
        unsafe { noontrough_check(table.as_ptr(), table.len()) }.into()
    }

    #[rustfmt::skip]
    pub fn get(table: &[u8], source: &[u8], out: &mut [u8]) -> Answer {
        // SAFETY: as said above.
        unsafe {
            noontrough_get(
                table.as_ptr(), table.len(),
                source.as_ptr(), source.len(),
                out.as_mut_ptr(), out.len(),
            )
        }
        .into()
    }

    #[rustfmt::skip]
    pub fn put(table: &[u8], sheet: &[u8], source: &[u8], out: &mut [u8]) -> PutAnswer {
        // SAFETY: as said above.
        unsafe {
            noontrough_put(
                table.as_ptr(), table.len(),
                sheet.as_ptr(), sheet.len(),
                source.as_ptr(), source.len(),
                out.as_mut_ptr(), out.len(),
            )
        }
        .into()
    }

    #[rustfmt::skip]
    pub fn create(table: &[u8], sheet: &[u8], out: &mut [u8]) -> Answer {
        // SAFETY: as said above.
        unsafe {
            noontrough_create(
                table.as_ptr(), table.len(),
                sheet.as_ptr(), sheet.len(),
                out.as_mut_ptr(), out.len(),
            )
        }
        .into()
    }

    pub fn clash<'a>(table: &[u8], out: &'a mut [u8]) -> ClashAnswer<'a> {
        // SAFETY: as said above.
        let numbers = unsafe { noontrough_clash(table.as_ptr(), table.len(), out.as_mut_ptr(), out.len()) };
        numbers.with_text(out)
    }
}
