//! The Python package: its library is linked by its own script, its tests run
//! through it, and its example does what its page says.

use std::path::{Path, PathBuf};
use std::process::Command;

fn package() -> PathBuf {
    Path::new(env!("CARGO_MANIFEST_DIR")).join("../python")
}

/// What a command writes to standard output. If it can't be run or fails, so does the test.
fn run(program: &str, arguments: &[&str]) -> String {
    let output = Command::new(program).args(arguments).current_dir(package()).output();
    let output = output.unwrap_or_else(|error| panic!("{program} is needed for this test, and can't be run: {error}"));
    let said = String::from_utf8_lossy(&output.stderr);
    assert!(output.status.success(), "{program} {arguments:?}: {said}");
    String::from_utf8_lossy(&output.stdout).into_owned()
}

#[test]
fn its_own_tests_and_its_example() {
    run("./build", &[]);
    run("python3", &["-m", "unittest", "discover", "-s", "tests"]);
    let page = std::fs::read_to_string(package().join("README.md")).expect("the package has a page");
    let printed: String = run("python3", &["example.py"])
        .lines()
        .map(|line| format!("    {line}").trim_end().to_string() + "\n")
        .collect();
    assert!(page.contains(&printed), "the page does not print this:\n{printed}");
}
