//! What a put meets on its way: the arms that it keeps, the entries that it
//! finds, the parts that it has too many or too few of.

use std::collections::BTreeSet;

use super::padding::{self, Lookup};
use super::Kind;
use crate::answer::Tally;
use crate::calls::MAX_TEXT;
use crate::generator::cases::Case;
use crate::lens::{Book, Entry};
use crate::program::Program;
use crate::table::{Node, Side};

/// So many empty matches in one part are many.
const MANY: usize = 30;
const VERY_MANY: usize = 100;
/// Keys of old entries that come to more than this together are long.
const LONG_KEYS: usize = 16_384;
/// A key of so many bytes can differ from another at its end only.
const TELLING: usize = 8;

/// The kinds of a put with legal texts.
pub(super) fn put_kinds(program: &Program, has_union: &[bool], case: &Case) -> Vec<Kind> {
    if !program.table().measures[program.root()].holds_match && !has_union[program.root()] {
        return Vec::new();
    }
    let book = program.book(&case.source);
    let kinds = [book_kinds(book.entries()), padding::book_kinds(book.entries())].concat();
    let has_blanks = padding::has_blanks(book.entries(), &case.sheet);
    let children = book.entries().iter().map(|entry| entry.child).collect();
    let (empty, met) = (Vec::new(), BTreeSet::new());
    let mut walk = Walk { program, has_union, has_blanks, children, book, empty, met, found_by_key: false, kinds };
    walk.go(program.root(), &case.sheet, Some(&case.source), Above::default());
    walk.note_tally(&case.sheet);
    if walk.found_by_key && walk.kinds.contains(&Kind::LongKeys) {
        walk.kinds.push(Kind::LongKeysFound);
    }
    walk.kinds.sort_unstable();
    walk.kinds.dedup();
    walk.kinds
}

fn book_kinds(entries: &[Entry]) -> Vec<Kind> {
    let mut keys: Vec<(usize, &[u8])> = entries.iter().map(|entry| (entry.child, &entry.key[..])).collect();
    keys.sort_unstable();
    // Keys that are alike stand side by side.
    let any_pair = |holds: fn(&[u8], &[u8]) -> bool| {
        keys.windows(2).any(|pair| pair[0].0 == pair[1].0 && holds(pair[0].1, pair[1].1))
    };
    let total: usize = keys.iter().map(|(_, key)| key.len()).sum();
    let at_limit = keys.iter().any(|(_, key)| key.len().abs_diff(MAX_TEXT) <= 1);
    let facts = [
        (any_pair(|one, other| !one.is_empty() && one == other), Kind::EqualKeys),
        (any_pair(are_apart_at_the_end), Kind::KeysApartAtTheEnd),
        (total > LONG_KEYS, Kind::LongKeys),
        (at_limit, Kind::KeyAt4095To4097),
    ];
    facts.into_iter().filter(|(holds, _)| *holds).map(|(_, kind)| kind).collect()
}

/// Whether two keys of some length differ in their last byte, or in that one of
/// them has one more.
fn are_apart_at_the_end(one: &[u8], other: &[u8]) -> bool {
    let longest = one.len().max(other.len());
    let alike = one.iter().zip(other).take_while(|(one, other)| one == other).count();
    one != other && longest >= TELLING && alike + 1 == longest
}

/// What stands above a step of a put.
#[derive(Clone, Copy, Default)]
struct Above {
    in_repeat: bool,
    /// A right arm was kept, though the sheet fits the left one too.
    kept_right: bool,
}

struct Walk<'a> {
    program: &'a Program,
    has_union: &'a [bool],
    /// Whether keys may differ by blanks.
    has_blanks: bool,
    /// The children of all old entries.
    children: Vec<usize>,
    book: Book,
    /// The children of the matches met that read the empty text.
    empty: Vec<usize>,
    /// The children of all matches met.
    met: BTreeSet<usize>,
    /// An entry was found by a key that is not empty.
    found_by_key: bool,
    kinds: Vec<Kind>,
}

impl Walk<'_> {
    fn note(&mut self, holds: bool, kind: Kind) {
        if holds && !self.kinds.contains(&kind) {
            self.kinds.push(kind);
        }
    }

    /// A sheet text is put onto an old one, or nothing old is there.
    fn go(&mut self, node: usize, sheet: &[u8], old: Option<&[u8]>, above: Above) {
        let program = self.program;
        match *program.node(node) {
            Node::LensJoin(a, b) => {
                let (first, second) = program.cut(a, b, Side::Sheet, sheet);
                let halves = old.map(|old| program.cut(a, b, Side::Source, old));
                self.go(a, first, halves.map(|(first, _)| first), above);
                self.go(b, second, halves.map(|(_, second)| second), above);
            }
            Node::LensUnion(a, b) => self.union(node, (a, b), sheet, old, above),
            Node::LensRepeat(part) => self.repeat(node, part, sheet, old, above),
            Node::Match(child) => self.entry(child, sheet, above),
            _ => {}
        }
    }

    fn union(&mut self, node: usize, (a, b): (usize, usize), sheet: &[u8], old: Option<&[u8]>, above: Above) {
        let program = self.program;
        let [fits_left, fits_right] = [a, b].map(|arm| program.fits(arm, Side::Sheet, sheet));
        let holds_match = program.table().measures[node].holds_match;
        let old_left = old.map(|old| program.fits(a, Side::Source, old));
        let kept_right = old_left == Some(false) && fits_left && fits_right;
        let crossed = old_left == Some(true) && !fits_left || old_left == Some(false) && !fits_right;
        self.note(kept_right, Kind::KeptRightArm);
        self.note(kept_right && above.kept_right, Kind::KeptRightArmTwice);
        self.note(kept_right && above.kept_right && holds_match, Kind::KeptRightArmTwiceOverAMatch);
        self.note(kept_right && above.in_repeat, Kind::KeptRightArmInARepeat);
        self.note(kept_right && holds_match, Kind::KeptRightArmOverAMatch);
        self.note(crossed && holds_match, Kind::CrossedOverAMatch);
        let goes_left = if crossed { fits_left } else { old_left.unwrap_or(fits_left) };
        let above = Above { kept_right: above.kept_right || kept_right, ..above };
        self.go(if goes_left { a } else { b }, sheet, old.filter(|_| !crossed), above);
    }

    fn repeat(&mut self, node: usize, part: usize, sheet: &[u8], old: Option<&[u8]>, above: Above) {
        let program = self.program;
        let old_parts = old.map_or(Vec::new(), |old| program.parts(node, part, Side::Source, old));
        let parts = program.parts(node, part, Side::Sheet, sheet);
        let holds_match = program.table().measures[part].holds_match;
        self.note(holds_match && !old_parts.is_empty() && parts.len() > old_parts.len(), Kind::MorePartsThanOld);
        self.note(holds_match && !parts.is_empty() && parts.len() < old_parts.len(), Kind::FewerPartsThanOld);
        for (index, range) in parts.into_iter().enumerate() {
            let before = self.empty.len();
            let old_part = old.and_then(|old| Some(&old[old_parts.get(index)?.clone()]));
            self.go(part, &sheet[range], old_part, Above { in_repeat: true, ..above });
            self.note_empty(before);
        }
    }

    /// Notes the empty matches of one part.
    fn note_empty(&mut self, before: usize) {
        let met = &self.empty[before..];
        let (count, any_old) = (met.len(), !self.children.is_empty());
        let asks = self.children.iter().any(|child| met.contains(child));
        self.note(count >= MANY, Kind::EmptyMatches30);
        self.note(count >= VERY_MANY, Kind::EmptyMatches100);
        self.note(count >= MANY && asks, Kind::EmptyMatchesWithOld);
        self.note(count >= MANY && any_old && !asks, Kind::EmptyMatchesOldOfOtherChild);
    }

    /// Notes what became of the entries, once all of the sheet is worked.
    fn note_tally(&mut self, sheet: &[u8]) {
        let Tally { kept, made, dropped } = self.book.tally();
        let by_left_arms = self.has_union[self.program.root()].then(|| entries_read(self.program, sheet));
        let unasked = self.book.entries().iter().any(|entry| !self.met.contains(&entry.child));
        self.note(made > 0, Kind::EntryMade);
        self.note(dropped > 0, Kind::EntryDropped);
        self.note(kept > 0 && made > 0 && dropped > 0, Kind::KeptMadeAndDropped);
        self.note(made > usize::from(u8::MAX), Kind::MadeOver255);
        self.note(made > usize::from(u16::MAX), Kind::MadeOver65535);
        self.note(self.met.len() > 1, Kind::EntriesOfSeveralChildren);
        self.note(by_left_arms.is_some_and(|read| read != kept + made), Kind::EntriesByOtherArms);
        self.note(unasked, Kind::DroppedUnasked);
    }

    fn entry(&mut self, child: usize, sheet: &[u8], above: Above) {
        let key = self.program.key(child, sheet);
        self.met.insert(child);
        self.note_blanks(child, sheet, &key);
        let found = self.book.take(child, &key);
        if sheet.is_empty() {
            self.empty.push(child);
            self.note(found.is_some(), Kind::EmptyEntryKept);
            self.note(found.is_none(), Kind::EmptyEntryMade);
        }
        if let Some(entry) = &found {
            self.found_by_key = self.found_by_key || !key.is_empty();
            let (union, right) = (self.has_union[child], takes_right_arm(self.program, entry));
            self.note(!union && !key.is_empty(), Kind::FoundWithoutUnion);
            self.note(union && !right && !key.is_empty(), Kind::FoundOfLeftArm);
            self.note(right && !key.is_empty(), Kind::FoundOfRightArm);
        }
        self.go(child, sheet, found.as_ref().map(|entry| &entry.source[..]), above);
    }

    fn note_blanks(&mut self, child: usize, sheet: &[u8], key: &[u8]) {
        if !self.has_blanks {
            return;
        }
        let lookup = Lookup { program: self.program, child, sheet, key, left: self.book.entries() };
        for kind in lookup.kinds() {
            self.note(true, kind);
        }
    }
}

/// The entries of a sheet, read by the left arm where both fit.
fn entries_read(program: &Program, sheet: &[u8]) -> usize {
    let mut count = 0;
    program.each_part(Side::Sheet, sheet, &mut |node, _| {
        count += usize::from(matches!(program.node(node), Node::Match(_)));
    });
    count
}

fn takes_right_arm(program: &Program, entry: &Entry) -> bool {
    let mut takes = false;
    program.each_part_at(entry.child, Side::Source, &entry.source, &mut |node, text| {
        if let Node::LensUnion(a, _) = *program.node(node) {
            takes = takes || !program.fits(a, Side::Source, text);
        }
    });
    takes
}
