//! Files read and written. `-` is standard input or output.
//!
//! A file is written beside its place and then renamed, so that whatever goes
//! wrong, a full disk too, leaves it as it was.

use std::ffi::OsStr;
use std::fs::{self, File, Metadata, OpenOptions, Permissions};
use std::io::{self, Read, Write};
use std::os::fd::RawFd;
use std::os::unix::fs::{fchown, FileTypeExt, MetadataExt, OpenOptionsExt, PermissionsExt};
use std::path::{Path, PathBuf};
use std::time::{SystemTime, UNIX_EPOCH};

use crate::descriptors::{self, ERRORS, INPUT, OUTPUT};
use crate::failure::Failure;

/// Where a text comes from or goes to.
#[derive(Clone, Debug, PartialEq, Eq)]
pub enum Place {
    /// Standard input or standard output.
    Standard,
    File(PathBuf),
}

impl Place {
    pub fn of(word: &OsStr) -> Place {
        if word == "-" {
            Place::Standard
        } else {
            Place::File(PathBuf::from(word))
        }
    }

    /// How messages call it: a line of them has one line, whatever the file's name.
    pub fn name(&self) -> String {
        let path = self.path_or("-").to_string_lossy();
        path.chars().map(|letter| if letter.is_control() { '?' } else { letter }).collect()
    }

    /// The descriptor that it stands for, if it is none that has a file of its own:
    /// `-`, given the one that it is here, and names such as `/dev/stdout`.
    pub fn descriptor(&self, standard: RawFd) -> Option<RawFd> {
        match self {
            Place::Standard => Some(standard),
            Place::File(path) => descriptors::of_path(&behind_links(path.clone())),
        }
    }

    /// A path to it, given one for standard input or output.
    fn path_or<'a>(&'a self, standard: &'static str) -> &'a Path {
        match self {
            Place::Standard => Path::new(standard),
            Place::File(path) => path,
        }
    }
}

/// Whether what is written to `output` would go into the file that `input` is,
/// by whatever name, link or redirection.
pub fn is_same_file(output: &Place, input: &Place) -> bool {
    let identity = |path: &Path| {
        let found = fs::metadata(path).ok()?;
        found.is_file().then(|| (found.dev(), found.ino()))
    };
    let input = identity(input.path_or("/dev/stdin"));
    input.is_some() && identity(output.path_or("/dev/stdout")) == input
}

/// Whether standard error goes into the same file as a result, so that what is
/// told there would stand behind it.
pub fn is_told_into(output: &Place) -> bool {
    let errors = Place::File(PathBuf::from("/dev/stderr"));
    output.descriptor(OUTPUT) == Some(ERRORS) || is_same_file(output, &errors)
}

/// No program or text comes near this; what is longer is not read to its end.
pub const MOST: usize = 1 << 20;

/// The bytes of a file, or the first [`MOST`] and one of a longer one.
pub fn read(place: &Place) -> Result<Vec<u8>, Failure> {
    let mut bytes = Vec::new();
    let file = match place.descriptor(INPUT) {
        Some(descriptor) => descriptors::file(descriptor),
        None => File::open(place.path_or("-")),
    };
    let read = file.and_then(|file| file.take(MOST as u64 + 1).read_to_end(&mut bytes));
    read.map(|_| bytes).map_err(|error| Failure::to_read(place, &error))
}

pub fn write(place: &Place, bytes: &[u8]) -> Result<(), Failure> {
    let written = match place.descriptor(OUTPUT) {
        Some(descriptor) => descriptors::file(descriptor).and_then(|mut file| file.write_all(bytes)),
        None => write_file(place.path_or("-"), bytes),
    };
    written.map_err(|error| Failure::to_write(place, &error))
}

fn write_file(path: &Path, bytes: &[u8]) -> io::Result<()> {
    let target = behind_links(path.to_path_buf());
    let found = match fs::metadata(&target) {
        Err(error) if error.kind() == io::ErrorKind::NotFound => return replace(&target, None, bytes),
        found => found?,
    };
    if found.is_dir() {
        return Err(io::Error::from(io::ErrorKind::IsADirectory));
    }
    if found.file_type().is_block_device() {
        return Err(io::Error::other("is a block device"));
    }
    // Whoever may not write a file may not replace it either. Nothing is changed by opening it.
    let mut opened = OpenOptions::new().write(true).open(&target)?;
    if !found.is_file() {
        // A terminal or a pipe can't be replaced, and holds nothing that could be lost.
        return opened.write_all(bytes);
    }
    replace(&target, Some(&found), bytes)
}

/// More links than any path needs.
const LINKS: usize = 40;

/// What a link names in the end, so that the link stays one when the file is
/// replaced. A descriptor is as far as one can go: what lies behind it is open.
fn behind_links(mut path: PathBuf) -> PathBuf {
    for _ in 0..LINKS {
        match fs::read_link(&path) {
            Ok(next) if descriptors::of_path(&path).is_none() => path = path.with_file_name("").join(next),
            _ => break,
        }
    }
    path
}

/// Writes a new file in the same folder and gives it the place of the old one.
fn replace(target: &Path, old: Option<&Metadata>, bytes: &[u8]) -> io::Result<()> {
    let fresh = beside(target)?;
    // Until it has the permissions of the old one, nobody else may read it.
    let mode = if old.is_some() { 0o600 } else { 0o666 };
    let made = OpenOptions::new().write(true).create_new(true).mode(mode).open(&fresh);
    let file = made.map_err(|error| io::Error::other(format!("its folder takes no new file: {error}")))?;
    let written = fill(file, old, bytes).and_then(|()| fs::rename(&fresh, target));
    if written.is_err() {
        // What went wrong is told; that this could not be undone would not help.
        let _ = fs::remove_file(&fresh);
    }
    written
}

fn fill(mut file: File, old: Option<&Metadata>, bytes: &[u8]) -> io::Result<()> {
    if let Some(old) = old {
        take_after(&file, old)?;
    }
    file.write_all(bytes)?;
    // Some file systems find out only now that there is no room.
    file.sync_all()
}

/// Gives a file the owner, the group and the permissions of the one that it
/// replaces. Only root may give a file away; if the owner changes, the group has
/// to stay, or whoever shared the file could no longer write it. If the group
/// changes, the new one gets no rights that the old one had.
fn take_after(file: &File, old: &Metadata) -> io::Result<()> {
    let kept = fchown(file, Some(old.uid()), Some(old.gid())).or_else(|_| fchown(file, None, Some(old.gid())));
    let new = file.metadata()?;
    if new.uid() != old.uid() {
        kept?;
    }
    let group = if new.gid() == old.gid() { 0o070 } else { 0 };
    file.set_permissions(Permissions::from_mode(old.mode() & (0o7707 | group)))
}

/// A name in the folder of a file that no other run of this program uses, and
/// that is not too long where the file's own is not.
fn beside(target: &Path) -> io::Result<PathBuf> {
    target.file_name().ok_or(io::ErrorKind::InvalidInput)?;
    let time = SystemTime::now().duration_since(UNIX_EPOCH).map_or(0, |time| time.as_nanos());
    Ok(target.with_file_name(format!(".noontrough-{}-{time}", std::process::id())))
}
