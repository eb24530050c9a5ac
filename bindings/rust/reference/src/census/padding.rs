//! Keys with spaces at their end, and keys that differ by other blanks: what a put
//! finds by them, and what comparing bytes would not find.

use super::Kind;
use crate::calls::MAX_TEXT;
use crate::lens::{has_padded_twins, trimmed, Entry};
use crate::program::Program;
use crate::table::{Node, Side};

/// The kinds of the old entries.
pub(super) fn book_kinds(entries: &[Entry]) -> Vec<Kind> {
    let is_padded = |entry: &&Entry| entry.key.ends_with(b" ");
    let at_limit = |entry: &Entry| trimmed(&entry.key).len().abs_diff(MAX_TEXT) <= 1;
    let facts = [
        (has_padded_twins(entries), Kind::KeysApartBySpaces),
        (entries.iter().filter(is_padded).any(at_limit), Kind::TrimmedAt4095To4097),
    ];
    facts.into_iter().filter(|(holds, _)| *holds).map(|(_, kind)| kind).collect()
}

/// Whether any of these kinds can come up.
pub(super) fn has_blanks(entries: &[Entry], sheet: &[u8]) -> bool {
    sheet.iter().any(is_blank) || entries.iter().any(|entry| entry.key.iter().any(is_blank))
}

fn is_blank(byte: &u8) -> bool {
    matches!(byte, b' ' | b'\t')
}

/// A match that asks for an old entry.
pub(super) struct Lookup<'a> {
    pub program: &'a Program,
    pub child: usize,
    pub sheet: &'a [u8],
    pub key: &'a [u8],
    /// The old entries that are left before it.
    pub left: &'a [Entry],
}

impl Lookup<'_> {
    pub fn kinds(&self) -> Vec<Kind> {
        let of_child = || self.left.iter().filter(|entry| entry.child == self.child);
        let short = trimmed(self.key);
        let found = of_child().find(|entry| trimmed(&entry.key) == short);
        let same_bytes = of_child().any(|entry| entry.key == self.key);
        let found_with = |holds: &dyn Fn(&Entry) -> bool| found.is_some_and(holds);
        let is_other = |entry: &Entry| entry.key != self.key;
        let facts = [
            (found_with(&is_other) && !same_bytes, Kind::FoundByTrimmedKey),
            (found_with(&is_other) && same_bytes, Kind::PaddedOneBeforeTheSame),
            (found_with(&|entry| self.key.len() > entry.key.len()), Kind::KeyGainsSpaces),
            (found_with(&|entry| self.key.len() < entry.key.len()), Kind::KeyLosesSpaces),
            (short.is_empty() && found_with(&is_other), Kind::SpacesMeetTheEmptyKey),
            (found_with(&|entry| entry.key.len() > MAX_TEXT), Kind::LongPaddedKeyFound),
            (found.is_none() && of_child().any(|entry| self.is_apart_by_other_blanks(entry)), Kind::ApartByOtherBlanks),
            (of_child().any(|entry| self.asks_for_the_beginning(entry)), Kind::LongKeyCutAsked),
            (trimmed(&self.parts_trimmed()) != short, Kind::SpaceAtTheSeam),
        ];
        facts.into_iter().filter(|(holds, _)| *holds).map(|(_, kind)| kind).collect()
    }

    /// Whether the keys would be equal without spaces in front and inside, and tabs.
    fn is_apart_by_other_blanks(&self, entry: &Entry) -> bool {
        let visible = |key: &[u8]| key.iter().copied().filter(|byte| !is_blank(byte)).collect::<Vec<u8>>();
        visible(&entry.key) == visible(self.key)
    }

    /// Whether the keys would be equal if nothing stood behind the first 4,096 bytes.
    fn asks_for_the_beginning(&self, entry: &Entry) -> bool {
        let key = trimmed(&entry.key);
        key.len() > MAX_TEXT && trimmed(&key[..MAX_TEXT]) == trimmed(self.key)
    }

    /// The key parts joined, each without its own trailing spaces.
    fn parts_trimmed(&self) -> Vec<u8> {
        let mut key = Vec::new();
        self.program.each_part_at(self.child, Side::Sheet, self.sheet, &mut |node, text| {
            if matches!(self.program.node(node), Node::Key(_)) {
                key.extend_from_slice(trimmed(text));
            }
        });
        key
    }
}
