//! The tool in a real shell: what it writes, its exit status, and that no file
//! is harmed. Results are those of the repository's examples.

mod common;

use std::os::unix::fs::{symlink, PermissionsExt};

use common::*;

const EXAMPLES: [&str; 3] = ["k", "composers", "kerning"];

/// What a put of each example's `edited` on its `source` tells, counted by hand: D
/// is made and Z dropped; Tansman and Sibelius; V;A and A;W.
const TALLIES: [&str; 3] = ["kept 4 made 1 dropped 1", "kept 2 made 1 dropped 1", "kept 8 made 1 dropped 1"];

#[test]
fn each_call_by_text_and_by_table() {
    for (name, tally) in EXAMPLES.into_iter().zip(TALLIES) {
        let folder = Folder::of_example(name);
        let text = |file: &str| String::from_utf8(folder.read(file)).expect("the examples are ASCII");
        for program in ["program.lens", "program.table"] {
            folder.gives(&format!("noontrough get {program} source"), &text("sheet"));
            folder.puts(&format!("noontrough put {program} edited source"), &text("result"), tally);
            folder.gives(&format!("noontrough put {program} edited source --quiet"), &text("result"));
            folder.gives(&format!("noontrough create {program} edited"), &text("created"));
        }
    }
    let k = Folder::of_example("k");
    k.gives("noontrough check program.lens", "ok 15 4 3\n");
    k.gives("noontrough check program.table", "ok 15 4 3\n");
}

#[test]
fn programs_from_text_to_table_and_back() {
    for name in EXAMPLES {
        let folder = Folder::of_example(name);
        folder.gives("noontrough assemble program.lens -o new.table", "");
        assert_eq!(folder.read("new.table"), folder.read("program.table"), "{name}");
        folder
            .gives("noontrough show program.table -o shown.lens && noontrough assemble shown.lens -o again.table", "");
        assert_eq!(folder.read("again.table"), folder.read("program.table"), "{name}");
        // The short forms of a text are shown as what they stand for.
        folder.gives("noontrough show program.lens | cmp - shown.lens", "");
    }
    let k = Folder::of_example("k");
    k.write("short.lens", "all = lens join (key [A-Z]) (copy \";\")\n");
    k.gives("noontrough where short.lens 2", "short.lens:1:35: node 2 is '\";\"', which 'all' makes beside its own\n");
    k.gives("noontrough where program.lens 13", "program.lens:18:12: node 13 is 'entry'\n");
    k.gives("noontrough where program.table 13", "program.table: node 13 is 'n13 = match n12'\n");
    k.fails("noontrough where program.lens 15", 1, &["program.lens: there is no node 15; they are 0 to 14"]);
    k.fails("noontrough assemble program.table", 1, &["program.table: this is a table; 'show' writes its text"]);
    k.fails("printf 'a = copy b\\n' | noontrough check -", 1, &["-:1:10: there is no node 'b'"]);
    k.fails("printf '' | noontrough check -", 1, &["-:1:1: the program has no node"]);
}

#[test]
fn standard_input_and_output() {
    let k = Folder::of_example("k");
    k.gives("noontrough get program.lens - < source", "AB;C;Z;A;A;");
    k.gives("noontrough get - source < program.lens", "AB;C;Z;A;A;");
    k.puts("cat program.table | noontrough put - edited source -o -", "C22;D0;A1;AB1;A2;", "kept 4 made 1 dropped 1");
    let unedited = "noontrough get program.lens source | noontrough put program.lens - source | cmp - source";
    k.puts(unedited, "", "kept 5 made 0 dropped 0");
    k.gives("noontrough get -o - -- program.lens source", "AB;C;Z;A;A;");
    k.gives(
        "cp source ./-odd && noontrough get program.lens ./-odd && noontrough get program.lens -- -odd",
        "AB;C;Z;A;A;AB;C;Z;A;A;",
    );
    k.fails(
        "noontrough get - - < source",
        2,
        &["noontrough get: standard input is to be PROGRAM and SOURCE, and is one file"],
    );
}

#[test]
fn a_refusal_is_status_1_and_writes_nothing() {
    let k = Folder::of_example("k");
    k.write("many", b"A;".repeat(257));
    k.write("full", b"A;".repeat(2048));
    k.write("long", b"A;".repeat(2049));
    k.write("longest", b"A".repeat(65_536));
    k.write("longer-still", b"A".repeat((1 << 20) + 2));
    k.fails("noontrough get program.lens sheet.txt", 2, &["sheet.txt can't be read: No such file"]);
    k.fails("noontrough put program.lens source source", 1, &["refused 14 0: The sheet is none of this program"]);
    k.fails("noontrough get program.lens long", 1, &["refused 12 0", "long: 4,098 bytes"]);
    k.fails("noontrough get program.lens longest", 1, &["refused 12 0", "longest: 65,536 bytes"]);
    k.fails("noontrough get program.lens longer-still", 1, &["refused 12 0", "longer-still: over 1,048,576 bytes"]);
    k.fails("noontrough check longer-still", 2, &["longer-still has over 1,048,576 bytes"]);
    k.fails("noontrough put program.lens sheet many", 1, &["refused 15 0", "many: 257 entries"]);
    k.fails("noontrough create program.lens full", 1, &["refused 16 0", "the result would have 6,144 bytes"]);
    k.write("short.table", &k.read("program.table")[..64]);
    k.fails(
        "noontrough get short.table source",
        1,
        &["refused 1 0", "short.table: the first three bytes ask for 65 bytes"],
    );
}

/// The line that once replaced a source by the words of a refusal.
#[test]
fn a_source_is_not_replaced_by_a_refusal() {
    let k = Folder::of_example("k");
    let source = k.read("source");
    k.write("wrong", "C1;");
    k.fails("noontrough put program.lens wrong source > new && mv new source", 1, &["refused 14 0"]);
    assert_eq!(k.read("source"), source);
    k.fails("noontrough put program.lens wrong source -o source", 1, &["refused 14 0"]);
    assert_eq!(k.read("source"), source);
    k.puts("noontrough put program.lens edited source -o source", "", "kept 4 made 1 dropped 1");
    assert_eq!(k.read("source"), k.read("result"));
}

#[test]
fn a_put_tells_what_became_of_the_entries() {
    let k = Folder::of_example("k");
    k.write("old", "AB1;C22;");
    let puts = |sheet: &str, stdout: &str, tally: &str| {
        k.write("new", sheet);
        k.puts("noontrough put program.lens new old", stdout, tally);
        k.puts("noontrough put program.lens new old -o out && cat out", stdout, tally);
        for quiet in ["-q", "--quiet", "-q --quiet"] {
            k.gives(&format!("noontrough put {quiet} program.lens new old"), stdout);
            k.gives(&format!("noontrough put program.lens new old -o out {quiet} && cat out"), stdout);
        }
    };
    puts("C;D;", "C22;D0;", "kept 1 made 1 dropped 1");
    puts("C;AB;", "C22;AB1;", "kept 2 made 0 dropped 0");
    puts("", "", "kept 0 made 0 dropped 2");
    k.write("old", "A1;");
    puts("A;A;A;", "A1;A0;A0;", "kept 1 made 2 dropped 0");
    k.write("new", "A;");
    k.gives("noontrough put program.lens new old 2>&1 | cat", "A1;kept 1 made 0 dropped 0\n");
    k.write("-q", "A;");
    k.puts("noontrough put program.lens -- -q old", "A1;", "kept 1 made 0 dropped 0");
}

/// The result stands, and the status with it. Only what was to be told is lost.
#[test]
fn where_a_tally_cannot_be_told() {
    let k = Folder::of_example("k");
    let result = String::from_utf8(k.read("result")).expect("it is ASCII");
    for line in
        ["noontrough put program.lens edited source", "noontrough put program.lens edited source -o out && cat out"]
    {
        k.gives(&line.replace("source", "source 2>&-"), &result);
        k.gives(&line.replace("source", "source 2> /dev/full"), &result);
        k.gives(&line.replace("source", "source 2< /dev/null"), &result);
    }
    k.gives(
        "{ sleep 0.5; noontrough put program.lens edited source 2>&1 > out; echo $? > status; } | true; cat out",
        &result,
    );
    assert_eq!(k.read("status"), b"0\n", "a tally that nobody reads changes nothing");
}

/// A source with the words of a tally behind it would be none.
#[test]
fn no_tally_goes_into_the_result() {
    let k = Folder::of_example("k");
    let result = k.read("result");
    for line in [
        "noontrough put program.lens edited source > out 2>&1",
        "noontrough put program.lens edited source 2> out >&2",
        "noontrough put program.lens edited source > out 2>> out",
        "noontrough put program.lens edited source -o /dev/stderr 2> out",
        "noontrough put program.lens edited source -o /dev/stdout > out 2>&1",
        "noontrough put program.lens edited source -o /dev/fd/3 3> out 2>&3",
    ] {
        k.gives(line, "");
        assert_eq!(k.read("out"), result, "{line}");
    }
    k.gives("noontrough put program.lens edited source -o out 2> told; cat told", "kept 4 made 1 dropped 1\n");
    assert_eq!(k.read("out"), result);
}

/// Nor is it told where nothing is written.
#[test]
fn a_refusal_has_no_tally() {
    let k = Folder::of_example("k");
    k.write("none", "[;");
    k.write("wrong", "C1;");
    k.write("many", b"A;".repeat(257));
    k.write("long", b"A;".repeat(2049));
    k.write("full", b"A;".repeat(2048));
    for (line, status) in [
        ("noontrough put edited edited source", 1),
        ("noontrough put program.lens long source", 1),
        ("noontrough put program.lens edited no-such-file", 2),
        ("noontrough put program.lens edited none", 1),
        ("noontrough put program.lens wrong source", 1),
        ("noontrough put program.lens edited many", 1),
        ("noontrough put program.lens full source", 1),
        ("noontrough put program.lens edited source > /dev/full", 2),
        ("noontrough put program.lens edited source -o no/such/folder", 2),
    ] {
        for quiet in ["", " -q"] {
            let line = line.replace("noontrough put", &format!("noontrough put{quiet}"));
            let done = k.sh(&line);
            assert_eq!((done.status, done.stdout.as_str()), (status, ""), "{line}");
            assert!(!done.stderr.is_empty() && !done.stderr.contains("kept"), "{line}: {}", done.stderr);
        }
    }
}

#[test]
fn a_result_replaces_none_of_its_own_files() {
    let k = Folder::of_example("k");
    let files = ["program.lens", "edited", "source"];
    let before = files.map(|file| k.read(file));
    symlink("source", k.0.join("link")).expect("links can be made");
    std::fs::hard_link(k.0.join("edited"), k.0.join("twin")).expect("links can be made");
    k.fails(
        "noontrough get program.lens source -o source",
        2,
        &["the result would replace source, which it is made from"],
    );
    k.fails("noontrough get program.lens link -o source", 2, &["the result would replace link"]);
    k.fails("noontrough put program.lens edited source -o edited", 2, &["the result would replace edited"]);
    k.fails("noontrough create program.lens edited -o twin", 2, &["the result would replace edited"]);
    k.fails("noontrough assemble program.lens -o ./program.lens", 2, &["the result would replace program.lens"]);
    assert_eq!(files.map(|file| k.read(file)), before);
    // What the shell has emptied is gone, but nobody takes it for a result.
    k.fails(
        "noontrough put program.lens edited source > source",
        2,
        &["the output goes into source, which the result is made from"],
    );
    assert_eq!(k.read("source"), b"");
}

/// Standard input and output are files too, if the shell makes them so.
#[test]
fn a_redirection_is_no_way_around_that() {
    let k = Folder::of_example("k");
    let files = ["program.lens", "edited", "source"];
    let before = files.map(|file| k.read(file));
    for line in [
        "noontrough get program.lens - -o source < source",
        "noontrough put program.lens - source -o edited < edited",
        "noontrough put program.lens source source -o source",
        "noontrough assemble - -o program.lens < program.lens",
    ] {
        k.fails(line, 2, &["the result would replace "]);
    }
    for line in [
        "noontrough get program.lens - < source >> source",
        "noontrough get program.lens source 1<> source",
        "noontrough get program.lens - -o /dev/fd/3 < source 3>> source",
        "noontrough put program.lens edited source -o /dev/stdout >> source",
        "noontrough put program.lens edited source -o /dev/fd/3 3<> source",
        "noontrough put program.lens edited - -o /dev/stdout < source >> source",
    ] {
        k.fails(line, 2, &["the output goes into ", ", which the result is made from"]);
    }
    assert_eq!(files.map(|file| k.read(file)), before);
}

/// What lies behind a descriptor is written through it and not replaced.
#[test]
fn descriptors_by_name() {
    let k = Folder::of_example("k");
    k.gives(
        "{ echo head; noontrough get program.lens source -o /dev/stdout; echo tail; } > out; cat out",
        "head\nAB;C;Z;A;A;tail\n",
    );
    k.gives("echo old > log; noontrough get program.lens source -o /dev/fd/3 3>> log; cat log", "old\nAB;C;Z;A;A;");
    k.gives("ln -s /dev/stdout link; noontrough get program.lens source -o link | cat", "AB;C;Z;A;A;");
    k.gives("noontrough get program.lens /dev/stdin < source | cat", "AB;C;Z;A;A;");
    k.fails("noontrough get program.lens source -o /dev/fd/9", 2, &["/dev/fd/9 can't be written: Bad file descriptor"]);
}

#[test]
fn a_closed_descriptor_is_status_2() {
    let k = Folder::of_example("k");
    k.fails("noontrough get program.lens source >&-", 2, &["standard output can't be written: Bad file descriptor"]);
    k.fails("noontrough check program.lens >&-", 2, &["standard output can't be written: Bad file descriptor"]);
    k.fails(
        "noontrough get program.lens source 1< /dev/null",
        2,
        &["standard output can't be written: Bad file descriptor"],
    );
    k.fails("noontrough get program.lens - <&-", 2, &["standard input can't be read: Bad file descriptor"]);
    k.fails(
        "noontrough put program.lens /dev/stdin source -o source <&-",
        2,
        &["/dev/stdin can't be read: Bad file descriptor"],
    );
    k.fails("noontrough get program.lens source -o /dev/stderr 2>&-", 2, &[]);
    assert_eq!(k.read("source"), read(&in_repository("examples/k/source")));
    k.gives("noontrough get program.lens source > /dev/null", "");
    // Nothing is told, and the status still tells.
    k.fails("noontrough get program.lens no-such-file 2>&-", 2, &[]);
}

#[test]
fn a_program_saved_with_a_mark_before_it() {
    let k = Folder::of_example("k");
    k.write("marked.lens", [b"\xEF\xBB\xBF", k.read("program.lens").as_slice()].concat());
    k.gives("noontrough check marked.lens", "ok 15 4 3\n");
}

/// The automata of 94 joins, one inside the other, take 628 KB of stack, more than
/// the main thread has here.
#[test]
fn a_small_stack() {
    let folder = Folder::new();
    let joins: String = (1..94).map(|n| format!("j{n} = lens join x j{}\n", n - 1)).collect();
    folder.write("deep.lens", format!("x = copy \"a\"\nj0 = lens join x x\n{joins}"));
    folder.write("text", "a".repeat(95));
    folder.gives("ulimit -s 512 && noontrough check deep.lens", "ok 96 95 95\n");
    folder.puts("ulimit -s 512 && noontrough put deep.lens text text", &"a".repeat(95), "kept 0 made 0 dropped 0");
}

/// The file system refuses the bytes half way, as a full disk does. (A limit on
/// the size of files can be set by everybody; with its signal ignored, the write
/// itself fails.)
#[test]
fn a_full_disk_leaves_the_file_as_it_was() {
    let kerning = Folder::of_example("kerning");
    let before = kerning.names();
    let source = kerning.read("source");
    // Also where nobody ignores the signal but the tool.
    kerning.fails(
        "ulimit -f 0; noontrough put program.lens edited source -o source",
        2,
        &["source can't be written: "],
    );
    let full = "trap '' XFSZ; ulimit -f 0; noontrough put program.lens edited source -o";
    kerning.fails(&format!("{full} source"), 2, &["noontrough: source can't be written: "]);
    assert_eq!(kerning.read("source"), source);
    kerning.fails(&format!("{full} new"), 2, &["noontrough: new can't be written: "]);
    assert_eq!(kerning.names(), before, "nothing is left behind");
}

#[test]
fn what_cannot_be_written_is_status_2() {
    let k = Folder::of_example("k");
    k.fails(
        "noontrough get program.lens source > /dev/full",
        2,
        &["noontrough: standard output can't be written: No space left"],
    );
    k.fails("noontrough get program.lens source -o /dev/full", 2, &["/dev/full can't be written: No space left"]);
    assert!(std::fs::metadata("/dev/full").is_ok_and(|full| !full.is_file()), "the device is still one");
    k.gives("noontrough get program.lens source -o /dev/null", "");
    k.fails("noontrough get program.lens source -o .", 2, &["noontrough: . can't be written: is a directory"]);
    k.fails(
        "noontrough get program.lens source -o no/such/folder",
        2,
        &["no/such/folder can't be written: its folder takes no new file: No such file"],
    );
    k.fails("noontrough get program.lens source -o ''", 2, &["behind -o a file is missing"]);
    let long = "x".repeat(255);
    k.gives(&format!("noontrough get program.lens source --output={long} && cat {long}"), "AB;C;Z;A;A;");
    k.gives(
        "ln -s nowhere link && noontrough get program.lens source -o link && cat nowhere && test -L link",
        "AB;C;Z;A;A;",
    );
    k.fails("ln -s loop loop && noontrough get program.lens source -o loop", 2, &["loop can't be written"]);
    k.fails("noontrough --help > /dev/full", 2, &["can't be written"]);
}

#[test]
fn a_closed_pipe_is_status_2() {
    let k = Folder::of_example("k");
    // The reader is gone before the first byte is written.
    let done = k.sh("{ sleep 0.5; noontrough get program.lens source; echo $? > status; } | true");
    assert_eq!(k.read("status"), b"2\n");
    assert!(done.stderr.contains("noontrough: standard output can't be written: Broken pipe"), "{}", done.stderr);
}

#[test]
fn what_cannot_be_read_is_status_2() {
    let k = Folder::of_example("k");
    k.fails("noontrough get program.lens no-such-file", 2, &["noontrough: no-such-file can't be read: No such file"]);
    k.fails("noontrough get no-such-file source", 2, &["noontrough: no-such-file can't be read: No such file"]);
    k.fails("noontrough get program.lens .", 2, &["noontrough: . can't be read: Is a directory"]);
    k.fails("noontrough check .", 2, &["noontrough: . can't be read: Is a directory"]);
    // Nobody can read this file at its beginning, whatever the permissions.
    k.fails("noontrough get program.lens /proc/self/mem", 2, &["noontrough: /proc/self/mem can't be read: "]);
    k.fails("noontrough get program.lens - < /proc/self/mem", 2, &["noontrough: standard input can't be read: "]);
    let long = "x".repeat(5000);
    k.fails(&format!("noontrough get program.lens {long}"), 2, &["can't be read: File name too long"]);
}

#[test]
fn a_written_file_keeps_its_permissions_and_links() {
    let k = Folder::of_example("k");
    let mode = |name: &str| std::fs::metadata(k.0.join(name)).expect("it is there").permissions().mode() & 0o777;
    std::fs::set_permissions(k.0.join("source"), PermissionsExt::from_mode(0o640)).expect("it is ours");
    symlink("source", k.0.join("link")).expect("links can be made");
    k.puts("noontrough put program.lens edited source -o link", "", "kept 4 made 1 dropped 1");
    assert_eq!(k.read("source"), k.read("result"));
    assert!(std::fs::symlink_metadata(k.0.join("link")).expect("it is there").is_symlink());
    assert_eq!(mode("source"), 0o640);
    k.gives("umask 027; noontrough get program.lens source -o fresh", "");
    assert_eq!(mode("fresh"), 0o640);
}

#[test]
fn wrong_usage_names_the_argument() {
    let k = Folder::of_example("k");
    let cases = [
        ("noontrough", "noontrough: a command is missing\nusage: noontrough check|get|put|"),
        ("noontrough -o x get y z", "noontrough: '-o' stands before the command; options come behind it\nusage:"),
        ("noontrough help nonsense", "noontrough: there is no command 'nonsense'\nusage:"),
        ("noontrough --version x", "noontrough: 'x' is one argument too many\nusage:"),
        ("noontrough get /dev/stdin - < source", "noontrough get: standard input is to be PROGRAM and SOURCE"),
        ("noontrough get program.lens source --output=", "noontrough get: there is no option '--output='"),
        ("noontrough where - - < source", "noontrough where: '-' is no node's number"),
        ("noontrough where program.lens +1", "noontrough where: '+1' is no node's number"),
        ("noontrough get --version", "noontrough get: there is no option '--version'"),
        ("noontrough list x", "noontrough: there is no command 'list'\nusage:"),
        ("noontrough check", "noontrough check: PROGRAM is missing\nusage: noontrough check PROGRAM [-o FILE]"),
        (
            "noontrough put program.lens sheet",
            "noontrough put: SOURCE is missing\nusage: noontrough put PROGRAM SHEET SOURCE [-o FILE] [-q]",
        ),
        ("noontrough -q put program.lens sheet source", "noontrough: '-q' stands before the command"),
        ("noontrough get program.lens source -q", "noontrough get: there is no option '-q'"),
        ("noontrough clash", "noontrough clash: PROGRAM is missing\nusage: noontrough clash PROGRAM [-o FILE] [-q]"),
        ("noontrough clash program.lens source", "noontrough clash: 'source' is one argument too many"),
        ("noontrough check --quiet program.lens", "noontrough check: there is no option '--quiet'"),
        ("noontrough put program.lens sheet source --quiet=yes", "noontrough put: there is no option '--quiet=yes'"),
        ("noontrough get program.lens source more", "noontrough get: 'more' is one argument too many"),
        (
            "noontrough get -x program.lens source",
            "noontrough get: there is no option '-x' (a file of that name is './-x')",
        ),
        ("noontrough get program.lens source -o", "noontrough get: behind -o a file is missing"),
        ("noontrough get program.lens source -o a -o b", "noontrough get: a second -o, 'b'"),
        ("noontrough where program.lens x", "noontrough where: 'x' is no node's number"),
    ];
    for (line, said) in cases {
        k.fails(line, 2, &[said]);
    }
    assert!(!k.names().contains(&"a".to_string()));
}

#[test]
fn help_and_version() {
    let k = Folder::new();
    k.gives("noontrough --version", "noontrough 0.1.0\n");
    let all = k.sh("noontrough --help");
    for command in ["check", "get", "put", "create", "clash", "assemble", "show", "where"] {
        assert!(all.stdout.contains(&format!("\n  {command} PROGRAM")), "{}", all.stdout);
        let one = k.sh(&format!("noontrough {command} --help"));
        assert!(one.stdout.starts_with(&format!("usage: noontrough {command} PROGRAM")), "{}", one.stdout);
        assert_eq!((one.status, one.stderr.as_str()), (0, ""));
        assert_eq!(k.sh(&format!("noontrough help {command}")).stdout, one.stdout);
        assert_eq!(one.stdout.contains("\n  -q, --quiet  "), ["put", "clash"].contains(&command), "{}", one.stdout);
    }
    assert!(all.stdout.contains("\n  -q, --quiet  "), "{}", all.stdout);
    assert!(k.sh("noontrough put --help").stdout.contains("'kept 1 made 1 dropped 1'"));
    assert!(k.sh("noontrough clash --help").stdout.contains("16,512 bytes"));
    assert!(all.stdout.contains("Exit status: 0 a result, 1 a refusal or no clash"));
}
