//! The system's descriptors. Rust opens `/dev/null` in the place of a standard
//! descriptor that is closed, and takes no notice of one that can't be written;
//! a result would be lost without a word.

use std::ffi::c_int;
use std::fs::File;
use std::io;
use std::os::fd::{BorrowedFd, RawFd};
use std::path::Path;
use std::sync::atomic::{AtomicBool, Ordering};

pub const INPUT: RawFd = 0;
pub const OUTPUT: RawFd = 1;
pub const ERRORS: RawFd = 2;

extern "C" {
    fn fcntl(fd: c_int, command: c_int, ...) -> c_int;
    fn signal(number: c_int, handler: usize) -> usize;
}

const F_GETFD: c_int = 1;
const EBADF: i32 = 9;
const SIGXFSZ: c_int = 25;
const SIG_IGN: usize = 1;

/// Of the three standard descriptors, whether it was closed when the program was
/// started.
static WAS_CLOSED: [AtomicBool; 3] = [const { AtomicBool::new(false) }; 3];

/// Called by the system before Rust's own beginnings.
#[used]
#[cfg_attr(target_os = "linux", link_section = ".init_array")]
static LOOK: extern "C" fn() = look;

extern "C" fn look() {
    for (fd, was_closed) in [INPUT, OUTPUT, ERRORS].into_iter().zip(&WAS_CLOSED) {
        was_closed.store(!is_open(fd), Ordering::Relaxed);
    }
}

fn is_open(fd: RawFd) -> bool {
    // SAFETY: asking for a descriptor's flags changes nothing, whatever the number is.
    unsafe { fcntl(fd, F_GETFD) != -1 }
}

/// A file onto a descriptor, which stays open when the file is closed.
pub fn file(fd: RawFd) -> io::Result<File> {
    let flag = usize::try_from(fd).ok().and_then(|index| WAS_CLOSED.get(index));
    let was_closed = flag.is_some_and(|flag| flag.load(Ordering::Relaxed));
    if was_closed || !is_open(fd) {
        return Err(io::Error::from_raw_os_error(EBADF));
    }
    // SAFETY: it is open, and nothing here closes descriptors that it did not open.
    let lent = unsafe { BorrowedFd::borrow_raw(fd) };
    lent.try_clone_to_owned().map(File::from)
}

/// The descriptor that a path stands for, as `/dev/stdout` and `/dev/fd/3` do.
pub fn of_path(path: &Path) -> Option<RawFd> {
    match path.to_str()? {
        "/dev/stdin" => Some(INPUT),
        "/dev/stdout" => Some(OUTPUT),
        "/dev/stderr" => Some(ERRORS),
        path => {
            let folders = ["/dev/fd/", "/proc/self/fd/"];
            let number = folders.iter().find_map(|folder| path.strip_prefix(folder))?;
            number.bytes().all(|byte| byte.is_ascii_digit()).then(|| number.parse().ok())?
        }
    }
}

/// A file that would pass the limit on sizes makes the write fail, so that it can
/// be told, and does not end the program half way.
pub fn let_writes_fail() {
    // SAFETY: to ignore a signal runs no code of ours.
    unsafe { signal(SIGXFSZ, SIG_IGN) };
}
