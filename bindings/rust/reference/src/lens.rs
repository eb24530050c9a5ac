//! Get, key, book, put and create of an accepted program.
//!
//! Every function here expects texts of the right language; the calls test this
//! once for the whole text, and the typing rules pass it on to the parts.

use crate::answer::Tally;
use crate::program::Program;
use crate::table::{Node, Side};

/// A key as it is compared: without the spaces at its end. Two keys are equal if this
/// is; the key text that a put writes keeps its spaces.
pub fn trimmed(key: &[u8]) -> &[u8] {
    let length = key.iter().rposition(|&byte| byte != b' ').map_or(0, |last| last + 1);
    &key[..length]
}

/// An old entry: a text that a match read.
#[derive(Clone, Debug, PartialEq, Eq)]
pub struct Entry {
    /// The node number of the match's child.
    pub child: usize,
    /// The key of the entry's own sheet, spaces included.
    pub key: Vec<u8>,
    pub source: Vec<u8>,
}

/// Whether two entries of one child have keys that differ by trailing spaces only.
pub fn has_padded_twins(entries: &[Entry]) -> bool {
    let mut keys: Vec<(usize, &[u8], usize)> =
        entries.iter().map(|entry| (entry.child, trimmed(&entry.key), entry.key.len())).collect();
    // Equal keys stand side by side, and their lengths tell how they are padded.
    keys.sort_unstable();
    keys.windows(2).any(|two| (two[0].0, two[0].1) == (two[1].0, two[1].1) && two[0].2 != two[1].2)
}

/// The old entries that no match has taken yet, in the order of the old source,
/// and how many lookups there were.
#[derive(Clone, Debug, Default)]
pub struct Book {
    entries: Vec<Entry>,
    /// Lookups that found an entry, and those that found none.
    found: usize,
    in_vain: usize,
}

impl Book {
    pub fn entries(&self) -> &[Entry] {
        &self.entries
    }

    /// Takes out the first entry with this child and an equal key.
    pub fn take(&mut self, child: usize, key: &[u8]) -> Option<Entry> {
        let answers = |entry: &Entry| entry.child == child && trimmed(&entry.key) == trimmed(key);
        let place = self.entries.iter().position(answers);
        match place {
            Some(_) => self.found += 1,
            None => self.in_vain += 1,
        }
        place.map(|place| self.entries.remove(place))
    }

    /// What became of the entries so far: every match that a put passes makes one
    /// lookup, and what is left at its end is dropped.
    pub fn tally(&self) -> Tally {
        Tally { kept: self.found, made: self.in_vain, dropped: self.entries.len() }
    }
}

/// A put's new source, and what became of the entries.
#[derive(Clone, Debug, PartialEq, Eq)]
pub struct Written {
    pub source: Vec<u8>,
    pub tally: Tally,
}

impl Program {
    /// The sheet of a source.
    pub fn get(&self, source: &[u8]) -> Vec<u8> {
        let mut sheet = Vec::new();
        self.get_at(self.root(), source, &mut sheet);
        sheet
    }

    /// The source that a sheet gives on an old source.
    pub fn put(&self, sheet: &[u8], old: &[u8]) -> Written {
        let (mut book, mut source) = (self.book(old), Vec::new());
        self.put_at(self.root(), sheet, old, &mut book, &mut source);
        Written { source, tally: book.tally() }
    }

    /// The source that a sheet gives with no old source.
    pub fn create(&self, sheet: &[u8]) -> Vec<u8> {
        let mut source = Vec::new();
        self.create_at(self.root(), sheet, &mut Book::default(), &mut source);
        source
    }

    /// The number of texts that matches read in a source, empty ones included.
    pub fn count_entries(&self, source: &[u8]) -> usize {
        let mut count = 0;
        self.each_entry(self.root(), source, &mut |_, _| count += 1);
        count
    }

    /// The entries of an old source, in order.
    pub fn book(&self, source: &[u8]) -> Book {
        let mut entries = Vec::new();
        self.each_entry(self.root(), source, &mut |child, text| {
            let mut sheet = Vec::new();
            self.get_at(child, text, &mut sheet);
            entries.push(Entry { child, key: self.key(child, &sheet), source: text.to_vec() });
        });
        Book { entries, ..Book::default() }
    }

    /// The key of a sheet text of a node: key parts joined in order, spaces included.
    pub fn key(&self, node: usize, sheet: &[u8]) -> Vec<u8> {
        let mut key = Vec::new();
        self.key_at(node, sheet, &mut key);
        key
    }

    /// Appends the sheet of a source text of a node.
    pub fn get_at(&self, node: usize, source: &[u8], sheet: &mut Vec<u8>) {
        match *self.node(node) {
            Node::Copy(_) | Node::Key(_) => sheet.extend_from_slice(source),
            Node::Const { sheet: word, .. } => sheet.extend_from_slice(self.table().word(word)),
            Node::LensJoin(a, b) => {
                let (first, second) = self.cut(a, b, Side::Source, source);
                self.get_at(a, first, sheet);
                self.get_at(b, second, sheet);
            }
            Node::LensUnion(a, b) => self.get_at(self.arm_of_source(a, b, source), source, sheet),
            Node::LensRepeat(part) => {
                for range in self.parts(node, part, Side::Source, source) {
                    self.get_at(part, &source[range], sheet);
                }
            }
            Node::Match(child) => self.get_at(child, source, sheet),
            _ => unreachable!("patterns have no get"),
        }
    }

    fn key_at(&self, node: usize, sheet: &[u8], key: &mut Vec<u8>) {
        match *self.node(node) {
            Node::Copy(_) | Node::Const { .. } => {}
            Node::Key(_) => key.extend_from_slice(sheet),
            Node::LensJoin(a, b) => {
                let (first, second) = self.cut(a, b, Side::Sheet, sheet);
                self.key_at(a, first, key);
                self.key_at(b, second, key);
            }
            // The arm that the text came from plays no part: the key of an old
            // entry and that of a sheet entry must be found in the same way.
            Node::LensUnion(a, b) => self.key_at(self.arm_of_sheet(a, b, sheet), sheet, key),
            Node::LensRepeat(part) => {
                for range in self.parts(node, part, Side::Sheet, sheet) {
                    self.key_at(part, &sheet[range], key);
                }
            }
            Node::Match(child) => self.key_at(child, sheet, key),
            _ => unreachable!("patterns have no key"),
        }
    }

    /// Calls on `visit` with the child number and the text of every entry.
    fn each_entry(&self, node: usize, source: &[u8], visit: &mut dyn FnMut(usize, &[u8])) {
        if !self.table().measures[node].holds_match {
            return;
        }
        match *self.node(node) {
            Node::LensJoin(a, b) => {
                let (first, second) = self.cut(a, b, Side::Source, source);
                self.each_entry(a, first, visit);
                self.each_entry(b, second, visit);
            }
            Node::LensUnion(a, b) => self.each_entry(self.arm_of_source(a, b, source), source, visit),
            Node::LensRepeat(part) => {
                for range in self.parts(node, part, Side::Source, source) {
                    self.each_entry(part, &source[range], visit);
                }
            }
            Node::Match(child) => visit(child, source),
            _ => unreachable!("only these hold a match"),
        }
    }

    fn put_at(&self, node: usize, sheet: &[u8], old: &[u8], book: &mut Book, source: &mut Vec<u8>) {
        match *self.node(node) {
            Node::Copy(_) | Node::Key(_) => source.extend_from_slice(sheet),
            Node::Const { .. } => source.extend_from_slice(old),
            Node::LensJoin(a, b) => {
                let (first, second) = self.cut(a, b, Side::Sheet, sheet);
                let (old_first, old_second) = self.cut(a, b, Side::Source, old);
                self.put_at(a, first, old_first, book, source);
                self.put_at(b, second, old_second, book, source);
            }
            Node::LensUnion(a, b) => self.put_union(a, b, sheet, old, book, source),
            Node::LensRepeat(part) => {
                let mut old_parts = self.parts(node, part, Side::Source, old).into_iter();
                for range in self.parts(node, part, Side::Sheet, sheet) {
                    match old_parts.next() {
                        Some(old_range) => self.put_at(part, &sheet[range], &old[old_range], book, source),
                        None => self.create_at(part, &sheet[range], book, source),
                    }
                }
            }
            // The old text at this place is left aside: the book alone decides.
            Node::Match(child) => self.meet_entry(child, sheet, book, source),
            _ => unreachable!("patterns have no put"),
        }
    }

    /// The old source's arm stays if the sheet is of that arm, even if it is of
    /// both; otherwise the other arm creates.
    fn put_union(&self, a: usize, b: usize, sheet: &[u8], old: &[u8], book: &mut Book, source: &mut Vec<u8>) {
        let old_arm = self.arm_of_source(a, b, old);
        let other_arm = if old_arm == a { b } else { a };
        if self.fits(old_arm, Side::Sheet, sheet) {
            self.put_at(old_arm, sheet, old, book, source);
        } else {
            self.create_at(other_arm, sheet, book, source);
        }
    }

    fn create_at(&self, node: usize, sheet: &[u8], book: &mut Book, source: &mut Vec<u8>) {
        match *self.node(node) {
            Node::Copy(_) | Node::Key(_) => source.extend_from_slice(sheet),
            Node::Const { default, .. } => source.extend_from_slice(self.table().word(default)),
            Node::LensJoin(a, b) => {
                let (first, second) = self.cut(a, b, Side::Sheet, sheet);
                self.create_at(a, first, book, source);
                self.create_at(b, second, book, source);
            }
            Node::LensUnion(a, b) => self.create_at(self.arm_of_sheet(a, b, sheet), sheet, book, source),
            Node::LensRepeat(part) => {
                for range in self.parts(node, part, Side::Sheet, sheet) {
                    self.create_at(part, &sheet[range], book, source);
                }
            }
            Node::Match(child) => self.meet_entry(child, sheet, book, source),
            _ => unreachable!("patterns have no create"),
        }
    }

    /// Put and create of a match are the same: onto the entry found by key if
    /// there is one, with the defaults otherwise. The child holds no match, so
    /// it leaves the book alone.
    fn meet_entry(&self, child: usize, sheet: &[u8], book: &mut Book, source: &mut Vec<u8>) {
        match book.take(child, &self.key(child, sheet)) {
            Some(entry) => self.put_at(child, sheet, &entry.source, book, source),
            None => self.create_at(child, sheet, book, source),
        }
    }

    /// The arm that a source belongs to; there is only one.
    fn arm_of_source(&self, a: usize, b: usize, source: &[u8]) -> usize {
        if self.fits(a, Side::Source, source) {
            a
        } else {
            b
        }
    }

    /// The arm that a sheet is worked by where no old source decides: the left
    /// one when both fit.
    fn arm_of_sheet(&self, a: usize, b: usize, sheet: &[u8]) -> usize {
        if self.fits(a, Side::Sheet, sheet) {
            a
        } else {
            b
        }
    }
}
