//! The tool in a shell, in a folder of its own.

#![allow(dead_code)] // Every test file uses its own part of this.

use std::path::{Path, PathBuf};
use std::process::Command;
use std::sync::atomic::{AtomicUsize, Ordering};

/// A file or folder, named from the top of the repository.
pub fn in_repository(name: &str) -> PathBuf {
    Path::new(env!("CARGO_MANIFEST_DIR")).join("../../..").join(name)
}

pub fn read(path: &Path) -> Vec<u8> {
    std::fs::read(path).unwrap_or_else(|error| panic!("can't read {}: {error}", path.display()))
}

/// A folder that goes when it is dropped.
pub struct Folder(pub PathBuf);

/// What a command did.
#[derive(Debug)]
pub struct Outcome {
    pub status: i32,
    pub stdout: String,
    pub stderr: String,
}

impl Folder {
    pub fn new() -> Folder {
        static COUNT: AtomicUsize = AtomicUsize::new(0);
        let number = COUNT.fetch_add(1, Ordering::Relaxed);
        let path = std::env::temp_dir().join(format!("noontrough-{}-{number}", std::process::id()));
        std::fs::create_dir_all(&path).expect("the temporary folder takes folders");
        Folder(path)
    }

    /// With the files of one of the repository's examples.
    pub fn of_example(name: &str) -> Folder {
        let folder = Folder::new();
        let files = std::fs::read_dir(in_repository("examples").join(name)).expect("the examples are there");
        for file in files {
            let file = file.expect("the folder can be read");
            std::fs::copy(file.path(), folder.0.join(file.file_name())).expect("the example can be copied");
        }
        folder
    }

    pub fn write(&self, name: &str, bytes: impl AsRef<[u8]>) {
        std::fs::write(self.0.join(name), bytes).expect("the folder takes files");
    }

    pub fn read(&self, name: &str) -> Vec<u8> {
        read(&self.0.join(name))
    }

    /// The names in it, in order, hidden ones too.
    pub fn names(&self) -> Vec<String> {
        let entries = std::fs::read_dir(&self.0).expect("the folder can be read");
        let mut names: Vec<String> =
            entries.map(|entry| entry.expect("it can be read").file_name().to_string_lossy().into_owned()).collect();
        names.sort();
        names
    }

    /// Runs a line of shell in the folder, with the tool on its path.
    pub fn sh(&self, line: &str) -> Outcome {
        let tool = Path::new(env!("CARGO_BIN_EXE_noontrough")).parent().expect("a program lies in a folder");
        let path = std::env::var_os("PATH").unwrap_or_default();
        let paths = std::env::join_paths(std::iter::once(tool.to_path_buf()).chain(std::env::split_paths(&path)))
            .expect("the path has no odd names");
        let output = Command::new("sh").args(["-c", line]).current_dir(&self.0).env("PATH", paths).output();
        let output = output.expect("sh runs");
        Outcome {
            status: output.status.code().unwrap_or(-1),
            stdout: String::from_utf8_lossy(&output.stdout).into_owned(),
            stderr: String::from_utf8_lossy(&output.stderr).into_owned(),
        }
    }

    /// A line that gives a result and says nothing.
    pub fn gives(&self, line: &str, stdout: &str) {
        let done = self.sh(line);
        assert_eq!((done.status, done.stdout.as_str(), done.stderr.as_str()), (0, stdout, ""), "{line}");
    }

    /// A put that gives a result and says what became of the entries.
    pub fn puts(&self, line: &str, stdout: &str, tally: &str) {
        let (done, told) = (self.sh(line), format!("{tally}\n"));
        assert_eq!((done.status, done.stdout, done.stderr), (0, stdout.to_string(), told), "{line}");
    }

    /// A line that writes nothing to standard output, with each part of what it
    /// says.
    pub fn fails(&self, line: &str, status: i32, said: &[&str]) {
        let done = self.sh(line);
        assert_eq!((done.status, done.stdout.as_str()), (status, ""), "{line}: {}", done.stderr);
        for part in said {
            assert!(done.stderr.contains(part), "{line}: '{part}' is not said:\n{}", done.stderr);
        }
    }
}

impl Drop for Folder {
    fn drop(&mut self) {
        let _ = std::fs::remove_dir_all(&self.0);
    }
}
