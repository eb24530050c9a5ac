//! `include/noontrough.h` from C: a program that includes it makes each call, and the answers are those of documents 01 and 02. It is compiled as C and
//! as C++; where there is no compiler, the test fails and says so.

use std::path::{Path, PathBuf};
use std::process::Command;

/// Number, node and length of each call, a put's counts, and its whole buffer of ten bytes afterwards. A clash has its outcome
/// before these, and its ends or children behind them. The buffers of Adobe's metrics have forty-six bytes.
const ANSWERS: &str = "\
check 0 0 15 []
check 1 0 0 []
get 0 0 5 [AB;C;-----]
get 13 0 0 [----------]
put 0 0 8 kept 2 made 0 dropped 0 [C22;AB1;--]
put 0 0 7 kept 1 made 1 dropped 1 [C22;D0;---]
put 0 0 9 kept 1 made 2 dropped 0 [A1;A0;A0;-]
put 0 0 0 kept 0 made 0 dropped 2 [----------]
put 16 0 0 kept 0 made 0 dropped 0 [----------]
put 14 0 0 kept 0 made 0 dropped 0 [----------]
put 13 0 0 kept 0 made 0 dropped 0 [----------]
put 1 0 0 kept 0 made 0 dropped 0 [----------]
create 0 0 4 [AB0;------]
create 14 0 0 [----------]
clash 1 7 12 4 1 2 [abcd------]
clash 1 7 12 4 1 2 [abcd------]
clash 2 17 0 0 0 0 [----------]
clash 0 0 0 0 0 0 [----------]
clash 1 9 12 1 10 10 [a---------]
clash 0 0 0 0 0 0 [----------]
clash 2 1 0 0 0 0 [----------]
import 0 0 8 [A;V;-80
--------------------------------------]
import 0 0 8 [A;V;-80
--------------------------------------]
import 16 0 0 [----------------------------------------------]
import 19 0 0 [----------------------------------------------]
import 18 3 0 [----------------------------------------------]
export 0 0 42 [StartKernPairs 1
KPX A V -80
EndKernPairs
----]
export 0 0 42 [StartKernPairs 1
KPX A V -80
EndKernPairs
----]
export 16 0 0 [----------------------------------------------]
export 18 2 0 [----------------------------------------------]
export 0 0 30 [StartKernPairs 0
EndKernPairs
----------------]
import 12 0 0 [-]
import 18 1 0 [-]
export 12 0 0 [-]
export 18 1 0 [-]
18 19
";

fn in_package(name: &str) -> PathBuf {
    Path::new(env!("CARGO_MANIFEST_DIR")).join(name)
}

/// Compiles the program by that compiler, runs it, and removes it again.
fn answers_by(compiler: &str, words: &[&str]) {
    let program = std::env::temp_dir().join(format!("noontrough-header-{}-{compiler}", std::process::id()));
    let built = Command::new(compiler)
        .args(["-Wall", "-Wextra", "-Werror", "-I"])
        .arg(in_package("../../include"))
        .args(words)
        .arg(in_package("tests/header.c"))
        .args(["-x", "none"])
        .arg(in_package("../../target/staticlib/libnoontrough.a"))
        .arg("-o")
        .arg(&program)
        .status();
    let built = built.unwrap_or_else(|error| panic!("this test needs the compiler {compiler}: {error}"));
    assert!(built.success(), "{compiler} takes the header and links the library");
    let output = Command::new(&program).output().expect("the program runs");
    std::fs::remove_file(&program).expect("the program is there");
    assert_eq!(String::from_utf8_lossy(&output.stdout), ANSWERS);
}

#[test]
fn answers_from_c() {
    answers_by("cc", &["-std=c99", "-x", "c"]);
}

#[test]
fn answers_from_cplusplus() {
    answers_by("c++", &["-std=c++11", "-x", "c++"]);
}
