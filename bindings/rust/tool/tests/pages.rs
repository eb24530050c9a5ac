//! What the repository shows a newcomer: `./demo`, and the example at the top of
//! the README.

mod common;

use common::*;

/// The README's source, between the lines that the program of examples/kerning
/// asks for.
#[test]
fn the_example_of_the_readme() {
    let readme = String::from_utf8(read(&in_repository("README.md"))).expect("it is UTF-8");
    let mut blocks = readme.split("\n\n").filter(|block| block.starts_with("    "));
    let mut block = || -> Vec<&str> {
        blocks.next().expect("the README begins with three blocks").lines().map(|line| &line[4..]).collect()
    };
    let (source, sheets, result) = (block(), block(), block());
    let column = |side: usize| -> String {
        let cells = sheets.iter().filter_map(|line| line.split_whitespace().nth(side));
        cells.map(|cell| format!("{cell}\n")).collect()
    };
    let between = |lines: &[&str]| format!("begin\n{}\nend\n", lines.join("\n"));

    let folder = Folder::of_example("kerning");
    folder.write("source", between(&source));
    folder.gives("noontrough get program.lens source", &column(0));
    folder.write("edited", column(1));
    // T;comma and A;V stay, A;W goes.
    folder.puts("noontrough put program.lens edited source", &between(&result), "kept 2 made 0 dropped 1");
}

/// Each step, and the source that is left, worked out from the example's files.
#[test]
fn the_demo() {
    let folder = Folder::new();
    let demo = in_repository("demo");
    let tool = env!("CARGO_BIN_EXE_noontrough");
    let done = folder.sh(&format!("NOONTROUGH='{tool}' '{}'", demo.display()));
    assert_eq!(done.status, 0, "{}", done.stderr);
    let moved = "@A;Y    -95\n@O;T    -35\n\n# seen at 7 pt by the night shift\nA;V     -80\n\n# quotes stand off\n\
        L;quoteright 12\nT;comma -115  # not below -120\nV;A -75\nf.alt;l 0  # checked, leave it\n";
    for shown in ["A;V     -80\nA;W     -60  # was -65\n", "A;V;-80\nA;W;-60\n", "T;comma;-115\nV;A;-75\n", moved] {
        assert!(done.stdout.contains(shown), "{shown} is not in\n{}", done.stdout);
    }
    assert!(
        done.stdout.ends_with("$ noontrough put program.lens wrong source -o source\n(exit status 1)\n"),
        "{}",
        done.stdout
    );
    assert!(done.stderr.starts_with("kept 8 made 1 dropped 1\n"), "V;A is made, A;W dropped: {}", done.stderr);
    assert!(done.stderr.contains("wrong:5:6: 'A;V;- 80' cannot go on here; '1' to '9' could"), "{}", done.stderr);
}

/// Where the engine can't be proved, the demo shows all that the prover said, and
/// ends there.
#[test]
fn the_demo_without_a_proof() {
    let folder = Folder::new();
    folder.write("rt", "#!/bin/sh\necho 'rt: table proved (1 s)'\necho 'fn table::read: returns' >&2\nexit 1\n");
    let demo = in_repository("demo");
    let done = folder.sh(&format!("chmod +x rt && PATH=$PWD:$PATH NOONTROUGH= '{}'", demo.display()));
    assert_eq!(done.status, 2, "{}", done.stdout);
    assert!(done.stdout.ends_with("\nrt: table proved (1 s)\n"), "{}", done.stdout);
    assert_eq!(done.stderr, "rt: table proved (1 s)\nfn table::read: returns\n");
}
