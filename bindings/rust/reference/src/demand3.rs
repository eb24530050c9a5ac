//! The three clauses of demand 3, tried on any implementation of the calls.
//!
//! Each function draws random accepted programs and panics at the first call
//! that breaks its clause; it answers how often the clause was tried.

use std::collections::HashSet;

use crate::answer::Refusal;
use crate::calls::{Calls, MAX_ENTRIES, MAX_TEXT};
use crate::generator::cases::{legal_text, one_repeated_entry, text_at_entry_limit, text_at_length_limit, Call, Case};
use crate::generator::programs::accepted;
use crate::generator::random::Random;
use crate::generator::texts::{draw, edit};
use crate::lens::{has_padded_twins, trimmed};
use crate::program::Program;
use crate::table::Side;
use crate::trial::run;

/// Texts for each program.
const TEXTS: usize = 5;

/// A result's text, or the refusal.
pub type Text = Result<Vec<u8>, Refusal>;

/// The text calls with a buffer that is long enough for every result.
struct Whole<'a>(&'a dyn Calls);

impl Whole<'_> {
    fn call(&self, call: Call, table: &[u8], sheet: &[u8], source: &[u8]) -> Text {
        let case = Case { call, table: table.to_vec(), sheet: sheet.to_vec(), source: source.to_vec(), lent: MAX_TEXT };
        run(self.0, &case).text().map(<[u8]>::to_vec)
    }

    fn get(&self, table: &[u8], source: &[u8]) -> Text {
        self.call(Call::Get, table, b"", source)
    }

    fn put(&self, table: &[u8], sheet: &[u8], source: &[u8]) -> Text {
        self.call(Call::Put, table, sheet, source)
    }

    fn create(&self, table: &[u8], sheet: &[u8]) -> Text {
        self.call(Call::Create, table, sheet, b"")
    }
}

/// How often clause 1 was tried.
#[derive(Clone, Copy, Debug, Default)]
pub struct Unedited {
    /// Sheets put back.
    pub sheets: usize,
    /// Those with two entries of one child whose keys differ by trailing spaces only.
    pub padded_apart: usize,
}

/// Clause 1: an unedited sheet gives the old source back.
pub fn unedited(calls: &dyn Calls, seed: u64, programs: usize) -> Unedited {
    let (whole, mut random, mut tried) = (Whole(calls), Random::new(seed), Unedited::default());
    for _ in 0..programs {
        let table = accepted(&mut random).table();
        let program = Program::read(&table).expect("accepted");
        for _ in 0..TEXTS {
            let source = some_text(&mut random, &program, Side::Source);
            let Ok(sheet) = whole.get(&table, &source) else { continue };
            if program.count_entries(&source) <= MAX_ENTRIES {
                tried.sheets += 1;
                tried.padded_apart += usize::from(has_padded_twins(program.book(&source).entries()));
                assert_eq!(whole.put(&table, &sheet, &source), Ok(source), "table {table:?}");
            }
        }
    }
    tried
}

/// Clause 2: a new source gives its sheet. Sources by put and by create.
pub fn read_back(calls: &dyn Calls, seed: u64, programs: usize) -> (usize, usize) {
    let (whole, mut random) = (Whole(calls), Random::new(seed));
    let (mut by_put, mut by_create) = (0, 0);
    for _ in 0..programs {
        let table = accepted(&mut random).table();
        let program = Program::read(&table).expect("accepted");
        for _ in 0..TEXTS {
            let old = some_text(&mut random, &program, Side::Source);
            let mut sheet = some_text(&mut random, &program, Side::Sheet);
            if let (Ok(old_sheet), true) = (whole.get(&table, &old), random.once_in(2)) {
                sheet = edit(&mut random, &program, &old_sheet);
            }
            if let Ok(source) = whole.put(&table, &sheet, &old) {
                assert_eq!(whole.get(&table, &source), Ok(sheet.clone()), "put, table {table:?}");
                by_put += 1;
            }
            if let Ok(source) = whole.create(&table, &sheet) {
                assert_eq!(whole.get(&table, &source), Ok(sheet), "create, table {table:?}");
                by_create += 1;
            }
        }
    }
    (by_put, by_create)
}

/// How often clause 3 was tried.
#[derive(Clone, Copy, Debug, Default)]
pub struct Reordered {
    /// Lists of entries.
    pub lists: usize,
    /// Those that were out of the old order.
    pub moved: usize,
    /// Those out of the old order in which a key ends in spaces.
    pub padded: usize,
}

/// Clause 3: entries with different keys are put in any order.
pub fn reordered(calls: &dyn Calls, seed: u64, programs: usize) -> Reordered {
    let (whole, mut random, mut tried) = (Whole(calls), Random::new(seed), Reordered::default());
    for _ in 0..programs {
        let (draft, program) = one_repeated_entry(&mut random);
        let table = draft.table();
        for _ in 0..TEXTS {
            let entries = different_entries(&mut random, &program);
            let source = entries.concat();
            let Some((sheet, expected)) = any_order(&mut random, &program, entries) else { continue };
            assert_eq!(whole.put(&table, &sheet, &source), Ok(expected.clone()), "table {table:?}");
            let is_moved = !source.starts_with(&expected);
            let is_padded = program.book(&expected).entries().iter().any(|entry| entry.key.ends_with(b" "));
            tried.lists += 1;
            tried.moved += usize::from(is_moved);
            tried.padded += usize::from(is_moved && is_padded);
        }
    }
    tried
}

/// Mostly short texts, some at the limits of length and entries.
fn some_text(random: &mut Random, program: &Program, side: Side) -> Vec<u8> {
    match random.below(40) {
        0 => text_at_length_limit(random, program, side),
        1 => text_at_entry_limit(random, program, side),
        _ => legal_text(random, program, side),
    }
}

/// The sheet of one entry of a program that is one repeated entry.
fn sheet_entry(program: &Program, source: &[u8]) -> Vec<u8> {
    let entry = program.node(program.root()).children()[0];
    let mut sheet = Vec::new();
    program.get_at(entry, source, &mut sheet);
    sheet
}

/// Source entries with keys that all differ once their trailing spaces are cut,
/// sometimes as many as are allowed.
fn different_entries(random: &mut Random, program: &Program) -> Vec<Vec<u8>> {
    let entry = program.node(program.root()).children()[0];
    let wanted = if random.once_in(20) { MAX_ENTRIES } else { random.below(12) };
    let (mut keys, mut entries, mut length) = (HashSet::new(), Vec::new(), 0);
    for _ in 0..2 * wanted {
        let part = draw(random, program.table(), entry, Side::Source, 2, 24);
        let key = program.key(entry, &sheet_entry(program, &part));
        let fits = entries.len() < wanted && length + part.len() <= MAX_TEXT;
        if fits && keys.insert(trimmed(&key).to_vec()) {
            length += part.len();
            entries.push(part);
        }
    }
    entries
}

/// Some of the entries in some order, as sheet and as source; nothing if the
/// sheet is too long.
fn any_order(random: &mut Random, program: &Program, mut entries: Vec<Vec<u8>>) -> Option<(Vec<u8>, Vec<u8>)> {
    random.shuffle(&mut entries);
    let count = random.below(entries.len() + 1).max(random.below(entries.len() + 1));
    entries.truncate(count);
    let sheet: Vec<u8> = entries.iter().flat_map(|entry| sheet_entry(program, entry)).collect();
    (sheet.len() <= MAX_TEXT).then_some((sheet, entries.concat()))
}
