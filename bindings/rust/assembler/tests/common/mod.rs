//! The folders of the repository, and the reference's calls in short form.

#![allow(dead_code)] // Every test file uses its own part of this.

use std::path::{Path, PathBuf};

use noontrough_reference::{Answer, Calls, Reference, Refusal};

pub const BUFFER: usize = 4096;

/// A file or folder, named from the top of the repository.
pub fn in_repository(name: &str) -> PathBuf {
    Path::new(env!("CARGO_MANIFEST_DIR")).join("../../..").join(name)
}

pub fn read(path: &Path) -> Vec<u8> {
    std::fs::read(path).unwrap_or_else(|error| panic!("can't read {}: {error}", path.display()))
}

/// The text that a call gives, or its refusal.
pub fn given(lent: usize, call: impl FnOnce(&mut [u8]) -> Answer) -> Result<Vec<u8>, Refusal> {
    let mut out = vec![b'?'; lent];
    let length = call(&mut out)?;
    out.truncate(length);
    Ok(out)
}

pub fn get(table: &[u8], source: &[u8], lent: usize) -> Result<Vec<u8>, Refusal> {
    given(lent, |out| Reference.get(table, source, out))
}

pub fn put(table: &[u8], sheet: &[u8], source: &[u8], lent: usize) -> Result<Vec<u8>, Refusal> {
    given(lent, |out| Reference.put(table, sheet, source, out).map(|put| put.length))
}

pub fn create(table: &[u8], sheet: &[u8], lent: usize) -> Result<Vec<u8>, Refusal> {
    given(lent, |out| Reference.create(table, sheet, out))
}
