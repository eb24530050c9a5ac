//! The program `sheet` itself: what it writes to standard output, and what it
//! says on standard error. `rt run` in `crates/sheet` builds it; where it is not built,
//! each test fails and says so.

use std::path::{Path, PathBuf};
use std::process::{Command, Output};

fn in_repository(name: &str) -> PathBuf {
    Path::new(env!("CARGO_MANIFEST_DIR")).join("../..").join(name)
}

/// A file of program K's example.
fn k(file: &str) -> String {
    in_repository("examples/k").join(file).display().to_string()
}

fn run(arguments: &[&str]) -> Output {
    let program = in_repository("crates/sheet/out/sheet");
    assert!(program.is_file(), "the program sheet is not built: run 'rt run' in crates/sheet");
    Command::new(program).args(arguments).output().expect("the program runs")
}

/// What is written to standard output, and a part of what is said on standard error (nothing is said if it is empty).
fn writes(arguments: &[&str], stdout: &[u8], said: &str) {
    let output = run(arguments);
    let message = String::from_utf8_lossy(&output.stderr).into_owned();
    assert_eq!(String::from_utf8_lossy(&output.stdout), String::from_utf8_lossy(stdout), "{arguments:?}");
    assert!(message.contains(said) && message.is_empty() == said.is_empty(), "{arguments:?}: {message}");
}

/// A file with these bytes, which is removed when it is dropped.
struct Scratch(PathBuf);

impl Scratch {
    fn new(name: &str, bytes: &[u8]) -> Scratch {
        let path = std::env::temp_dir().join(format!("sheet-{}-{name}", std::process::id()));
        std::fs::write(&path, bytes).expect("the temporary folder takes files");
        Scratch(path)
    }

    fn name(&self) -> &str {
        self.0.to_str().expect("the temporary folder has a plain name")
    }
}

impl Drop for Scratch {
    fn drop(&mut self) {
        let _ = std::fs::remove_file(&self.0);
    }
}

#[test]
fn runs_each_command_on_the_examples() {
    for folder in ["k", "composers", "kerning"] {
        let file = |name: &str| in_repository("examples").join(folder).join(name).display().to_string();
        let bytes = |name: &str| std::fs::read(file(name)).expect("the examples are complete");
        let table = file("program.table");
        writes(&["get", &table, &file("source")], &bytes("sheet"), "");
        writes(&["put", &table, &file("edited"), &file("source")], &bytes("result"), "");
        writes(&["create", &table, &file("edited")], &bytes("created"), "");
    }
    writes(&["check", &k("program.table")], b"ok 15 4 3\n", "");
}

#[test]
fn explains_refusals() {
    let table = k("program.table");
    let two_stars = Scratch::new("two-stars", &[4, 0, 0, 1, 4, 16, 19, 97, 97, 0, 0, 0, 0, 1, 0, 0, 2, 2, 0]);
    let many = Scratch::new("many", &b"A;".repeat(257));
    let full = Scratch::new("full", &b"A;".repeat(2048));
    let long = Scratch::new("long", &[b'A'; 4097]);
    let longest = Scratch::new("longest", &[b'A'; 65_535]);
    let torn = Scratch::new("torn", &[1, 0, 0]);
    writes(&["check", torn.name()], b"refused 1 0\n", "The sizes of the table are wrong");
    writes(&["check", &k("program.lens")], b"refused 1 0\n", "This file is a text and no table");
    writes(&["check", two_stars.name()], b"refused 7 3\n", "A source of this join");
    writes(&["get", two_stars.name(), &k("source")], b"refused 7 3\n", "A source of this join");
    writes(&["get", &table, long.name()], b"refused 12 0\n", "longer than 4,096 bytes");
    writes(&["get", &table, longest.name()], b"refused 12 0\n", "longer than 4,096 bytes");
    writes(&["check", longest.name()], b"refused 1 0\n", "This file is a text and no table");
    writes(&["get", &table, &k("program.lens")], b"refused 13 0\n", "The source is none of this program");
    writes(&["create", &table, &k("source")], b"refused 14 0\n", "The sheet is none of this program");
    writes(&["put", &table, &k("sheet"), many.name()], b"refused 15 0\n", "more than 256 entries");
    writes(&["create", &table, full.name()], b"refused 16 0\n", "The result would be longer");
}

#[test]
fn says_what_is_wrong_and_writes_nothing() {
    let table = k("program.table");
    let over = Scratch::new("over", &[b'A'; 65_536]);
    let long_name = "x".repeat(5000);
    let cases: [(&[&str], &str); 9] = [
        (&[], "usage: sheet check TABLE\n"),
        (&["check"], "usage:"),
        (&["get", &table], "usage:"),
        (&["create", &table, &k("sheet"), &k("source")], "usage:"),
        (&["list", &table], "usage:"),
        (&["check", "no-such-file"], "no-such-file: No such file or directory\nsheet: this file cannot be read"),
        (&["get", &table, &k("")], "Is a directory\nsheet: this file cannot be read"),
        (&["get", &table, over.name()], ": too long\n"),
        (&["check", &long_name], "File name too long\nsheet: this file cannot be read"),
    ];
    for (arguments, said) in cases {
        writes(arguments, b"", said);
    }
}
