//! fontTools, a Python library that reads and writes AFM files too, in a process of
//! its own. `afm.py` says what it is asked.

#![allow(dead_code)] // The test and the benchmark each use their own part of this.

use std::io::{BufRead, BufReader, Write};
use std::path::{Path, PathBuf};
use std::process::{Child, ChildStdout, Command, Stdio};
use std::time::Duration;

/// Every Python of the search path, the first one first: fontTools may be there for a
/// later one only.
fn interpreters() -> Vec<PathBuf> {
    let path = std::env::var_os("PATH").unwrap_or_default();
    std::env::split_paths(&path).map(|folder| folder.join("python3")).filter(|file| file.is_file()).collect()
}

pub struct FontTools {
    process: Child,
    answers: BufReader<ChildStdout>,
    /// Its version, such as 4.38.0.
    pub version: String,
}

impl FontTools {
    /// Starts it, or tells why that can't be done.
    pub fn start() -> Result<FontTools, String> {
        let found = interpreters().into_iter().find_map(|python| version_at(&python).map(|version| (python, version)));
        let (interpreter, version) = found.ok_or("no python3 of the search path has fontTools.afmLib")?;
        let script = Path::new(env!("CARGO_MANIFEST_DIR")).join("tests/fonttools/afm.py");
        let mut command = Command::new(interpreter);
        let started = command.arg("-B").arg(script).stdin(Stdio::piped()).stdout(Stdio::piped()).spawn();
        let mut process = started.map_err(|error| error.to_string())?;
        let answers = BufReader::new(process.stdout.take().expect("its output is a pipe"));
        Ok(FontTools { process, answers, version })
    }

    /// Gives it a section, to be read next.
    pub fn load(&mut self, section: &[u8]) {
        self.ask(format!("load {}", section.len()).as_bytes());
        self.send(section);
    }

    /// Reads the section. A panic if it is none for fontTools.
    pub fn read(&mut self) -> Duration {
        self.ask(b"read");
        self.time()
    }

    /// Writes the pairs that were read to a file.
    pub fn write(&mut self) -> Duration {
        self.ask(b"write");
        self.time()
    }

    /// The pairs that were read as the lines of a sheet. A pair that stands twice is
    /// where it stood first, with its last value.
    pub fn sheet(&mut self) -> Vec<u8> {
        self.ask(b"pairs");
        let count: usize = self.line().trim().parse().expect("fontTools gives a count");
        (0..count).flat_map(|_| self.line().into_bytes()).collect()
    }

    fn ask(&mut self, command: &[u8]) {
        self.send(&[command, b"\n"].concat());
    }

    fn send(&mut self, bytes: &[u8]) {
        let input = self.process.stdin.as_mut().expect("its input is a pipe");
        input.write_all(bytes).and_then(|()| input.flush()).expect("fontTools takes what it is sent");
    }

    fn time(&mut self) -> Duration {
        Duration::from_nanos(self.line().trim().parse().expect("fontTools gives a time"))
    }

    fn line(&mut self) -> String {
        let mut line = String::new();
        self.answers.read_line(&mut line).expect("fontTools answers");
        line
    }
}

impl Drop for FontTools {
    fn drop(&mut self) {
        // Without input it ends.
        drop(self.process.stdin.take());
        let _ = self.process.wait();
    }
}

/// The version of fontTools that an interpreter has, if there is one.
fn version_at(interpreter: &Path) -> Option<String> {
    let mut command = Command::new(interpreter);
    let asked = command.args(["-B", "-c", "import fontTools.afmLib; print(fontTools.version)"]);
    let output = asked.stderr(Stdio::null()).output().ok()?;
    output.status.success().then(|| String::from_utf8_lossy(&output.stdout).trim().to_string())
}
