//! `noontrough`: lens programs, sheets and sources on the command line, and the kerning
//! of Adobe's metrics.
//!
//! The answers are the linked engine's, which is proved, and so are the counts of
//! entries that `put` tells on standard error, and the text and the two ends or arms
//! that show an ambiguity. What this program adds is not: where a refusal comes from,
//! told there too, and the two numbers of positions that `check` writes behind its
//! `ok`. They are worked out by the reference, by the assembler and here.
//!
//! It never harms a file. The exit status is 0 for a result, 1 for a refusal and
//! 2 for wrong usage or a file that can't be read or written; standard output and
//! the file of `-o` get a whole result or nothing. What is only told changes no
//! status: a result that is written is 0, also where standard error is closed.
//!
//! | Module | Holds |
//! |---|---|
//! | [`arguments`] | the command line: commands, options, and what is wrong with it |
//! | [`files`] | files read and written, standard input and output among them |
//! | [`descriptors`] | what the system's descriptors are |
//! | [`program`] | a program from a file, as a table or as text |
//! | [`commands`] | what each command does |
//! | [`afm`] | Adobe's metrics in and out, and what is told where they are refused |
//! | [`lines`] | why a line of these is not of its form |
//! | [`refusals`] | what is told of a refusal |
//! | [`programs`] | where in a program a refusal comes from, and what shows it |
//! | [`clashes`] | the text that a program could read in two ways, and both ways |
//! | [`texts`] | how far a text could be read, and what could have followed |
//! | [`words`] | bytes, names and lists in words |
//! | [`failure`] | why there is no result, and the exit status for it |

mod afm;
mod arguments;
mod clashes;
mod commands;
mod descriptors;
mod failure;
mod files;
mod lines;
mod program;
mod programs;
mod refusals;
mod texts;
mod words;

use std::ffi::OsString;
use std::io::{self, Write};
use std::panic::catch_unwind;
use std::process::ExitCode;

use arguments::{Call, Request};
use failure::Failure;
use files::Place;

fn main() -> ExitCode {
    descriptors::let_writes_fail();
    let words: Vec<OsString> = std::env::args_os().skip(1).collect();
    // A panic has been told when it comes here: a mistake of ours, or no memory for a thread.
    let done =
        catch_unwind(|| run(&words)).unwrap_or_else(|_| Err(Failure::Trouble("noontrough: no result".to_string())));
    match done {
        Ok(()) => ExitCode::SUCCESS,
        Err(failure) => failure.tell(),
    }
}

fn run(words: &[OsString]) -> Result<(), Failure> {
    match arguments::read(words)? {
        Request::Tell(text) => files::write(&Place::Standard, text.as_bytes()),
        Request::Run(call) => {
            let done = commands::run(&call)?;
            files::write(&call.output, &done.bytes)?;
            done.told.into_iter().for_each(|told| tell(&call, &told));
            Ok(())
        }
    }
}

/// Tells what is known beside a result, unless it is not wanted or would stand in
/// the result. That is written by now, so nothing is wrong if this can't be.
fn tell(call: &Call, told: &str) {
    if !call.is_quiet && !files::is_told_into(&call.output) {
        let _ = writeln!(io::stderr(), "{told}");
    }
}
