//! The calls, and the order in which they refuse.
//!
//! Every call checks the program first (1 to 11), then looks at the lengths of
//! the texts (12), at the texts themselves (13, 14), at the number of old
//! entries (15) and at the room for the result (16; for a clash 17, which knows
//! no limit but the buffer's length).

use std::cell::RefCell;
use std::rc::Rc;

use crate::answer::*;
use crate::clash::{shown, Clash};
use crate::program::Program;
use crate::table::Side;

/// The longest source, sheet and result.
pub const MAX_TEXT: usize = 4096;
/// No clash has a longer text: its two readings are in one pair of positions, of at
/// most 128 each, only once before their first cut and once behind it.
pub const MAX_CLASH: usize = 128 * 129;
/// The most entries that an old source may have in a put.
pub const MAX_ENTRIES: usize = 256;

/// The calls, so that implementations can be compared.
///
/// A result stands at the start of `out` and leaves the bytes behind it alone;
/// a refusal leaves all of `out` as it was.
pub trait Calls {
    /// Tests a program; the length is its number of nodes.
    fn check(&self, table: &[u8]) -> Answer;
    /// Gives the sheet of a source.
    fn get(&self, table: &[u8], source: &[u8], out: &mut [u8]) -> Answer;
    /// Gives a source from a sheet and an old source, and a tally of the entries.
    fn put(&self, table: &[u8], sheet: &[u8], source: &[u8], out: &mut [u8]) -> PutAnswer;
    /// Gives a source from a sheet only.
    fn create(&self, table: &[u8], sheet: &[u8], out: &mut [u8]) -> Answer;
    /// Gives the text that shows a refusal 7 to 11.
    fn clash(&self, table: &[u8], out: &mut [u8]) -> ClashAnswer;
}

/// What there is to show of a table: nothing, the rule that is broken with the
/// text that breaks it, or another refusal.
pub type Finding = Result<Option<(Refusal, Clash)>, Refusal>;

/// What gives the program of a table. Everything else of the calls is the same.
pub trait Reads {
    /// The program of a table, as [`Program::read`] gives it.
    fn read(&self, table: &[u8]) -> Result<Rc<Program>, Refusal>;
    /// What there is to show of a table, as [`shown`] gives it.
    fn find(&self, table: &[u8]) -> Finding;
}

/// This crate's own implementation of the calls. Every call checks the program
/// anew, as the engine's do.
pub struct Reference;

impl Reads for Reference {
    fn read(&self, table: &[u8]) -> Result<Rc<Program>, Refusal> {
        Program::read(table).map(Rc::new)
    }

    fn find(&self, table: &[u8]) -> Finding {
        shown(table)
    }
}

/// The same, but a program that was accepted last is not checked again, and what
/// there is to show of a table is not looked for twice in a row. Calls about one
/// program mostly come together, and checking a large one takes longer than a
/// call.
pub struct Remembering;

thread_local! {
    /// The last accepted table with its program.
    static LAST: RefCell<Option<(Vec<u8>, Rc<Program>)>> = const { RefCell::new(None) };
    /// The last table whose clash was asked for, with what there is to show of it.
    static LAST_SHOWN: RefCell<Option<(Vec<u8>, Finding)>> = const { RefCell::new(None) };
}

impl Reads for Remembering {
    fn read(&self, table: &[u8]) -> Result<Rc<Program>, Refusal> {
        let last = LAST.with_borrow(Option::clone);
        if let Some((_, program)) = last.filter(|(bytes, _)| bytes == table) {
            return Ok(program);
        }
        let program = Reference.read(table)?;
        LAST.set(Some((table.to_vec(), Rc::clone(&program))));
        Ok(program)
    }

    fn find(&self, table: &[u8]) -> Finding {
        if let Some((_, finding)) = LAST_SHOWN.with_borrow(Option::clone).filter(|(bytes, _)| bytes == table) {
            return finding;
        }
        let is_last_accepted = LAST.with_borrow(|last| last.as_ref().is_some_and(|(bytes, _)| bytes == table));
        let finding = if is_last_accepted { Ok(None) } else { shown(table) };
        LAST_SHOWN.set(Some((table.to_vec(), finding.clone())));
        finding
    }
}

impl<R: Reads> Calls for R {
    fn check(&self, table: &[u8]) -> Answer {
        self.read(table).map(|program| program.table().nodes.len())
    }

    fn get(&self, table: &[u8], source: &[u8], out: &mut [u8]) -> Answer {
        let program = self.read(table)?;
        limit_lengths(&[source])?;
        admit_source(&program, source)?;
        hand_over(&program.get(source), out)
    }

    fn put(&self, table: &[u8], sheet: &[u8], source: &[u8], out: &mut [u8]) -> PutAnswer {
        let program = self.read(table)?;
        limit_lengths(&[sheet, source])?;
        admit_source(&program, source)?;
        admit_sheet(&program, sheet)?;
        if program.count_entries(source) > MAX_ENTRIES {
            return Err(Refusal::of_call(TOO_MANY_ENTRIES));
        }
        let written = program.put(sheet, source);
        let length = hand_over(&written.source, out)?;
        Ok(Put { length, tally: written.tally })
    }

    fn create(&self, table: &[u8], sheet: &[u8], out: &mut [u8]) -> Answer {
        let program = self.read(table)?;
        limit_lengths(&[sheet])?;
        admit_sheet(&program, sheet)?;
        hand_over(&program.create(sheet), out)
    }

    fn clash(&self, table: &[u8], out: &mut [u8]) -> ClashAnswer {
        let Some((rule, Clash { text, numbers, .. })) = self.find(table)? else { return Ok(None) };
        require(text.len() <= out.len(), CLASH_TOO_LONG)?;
        out[..text.len()].copy_from_slice(&text);
        Ok(Some(Shown { rule, length: text.len(), numbers }))
    }
}

/// The line that the program `lenscheck` prints for a table.
pub fn lenscheck(table: &[u8]) -> String {
    match Program::read(table) {
        Ok(program) => {
            let root = &program.table().measures[program.root()];
            let count = program.table().nodes.len();
            format!("ok {count} {} {}", root.source_positions, root.sheet_positions)
        }
        Err(refusal) => format!("refused {} {}", refusal.number, refusal.node),
    }
}

fn limit_lengths(texts: &[&[u8]]) -> Result<(), Refusal> {
    require(texts.iter().all(|text| text.len() <= MAX_TEXT), TEXT_TOO_LONG)
}

fn admit_source(program: &Program, source: &[u8]) -> Result<(), Refusal> {
    require(program.fits(program.root(), Side::Source, source), NOT_A_SOURCE)
}

fn admit_sheet(program: &Program, sheet: &[u8]) -> Result<(), Refusal> {
    require(program.fits(program.root(), Side::Sheet, sheet), NOT_A_SHEET)
}

fn require(holds: bool, number: u8) -> Result<(), Refusal> {
    holds.then_some(()).ok_or(Refusal::of_call(number))
}

/// Copies a whole result out, or refuses before the first byte is written.
fn hand_over(result: &[u8], out: &mut [u8]) -> Answer {
    require(result.len() <= out.len().min(MAX_TEXT), RESULT_TOO_LONG)?;
    out[..result.len()].copy_from_slice(result);
    Ok(result.len())
}
