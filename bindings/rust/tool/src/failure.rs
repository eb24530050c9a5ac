//! Why there is no result, and the exit status for it.

use std::io::{self, Write};
use std::process::ExitCode;

use crate::files::Place;

/// The lines for standard error are without a last newline.
#[derive(Debug)]
pub enum Failure {
    /// The engine or the assembler turned it down: exit status 1.
    Refused(String),
    /// Wrong usage, or a file that can't be read or written: exit status 2.
    Trouble(String),
}

impl Failure {
    pub fn to_read(place: &Place, error: &io::Error) -> Failure {
        Failure::of_file(place, "standard input", "read", error)
    }

    pub fn to_write(place: &Place, error: &io::Error) -> Failure {
        Failure::of_file(place, "standard output", "written", error)
    }

    fn of_file(place: &Place, standard: &str, done: &str, error: &io::Error) -> Failure {
        let name = if *place == Place::Standard { standard.to_string() } else { place.name() };
        Failure::Trouble(format!("noontrough: {name} can't be {done}: {error}"))
    }

    /// Says it on standard error. If that can't be written either, the status
    /// still tells.
    pub fn tell(&self) -> ExitCode {
        let (message, status) = match self {
            Failure::Refused(message) => (message, 1),
            Failure::Trouble(message) => (message, 2),
        };
        let _ = writeln!(io::stderr(), "{message}");
        ExitCode::from(status)
    }
}
