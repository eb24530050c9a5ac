//! Random calls: a program, its texts, and the length of the lent buffer.

use super::clashes::clashing;
use super::draft::Draft;
use super::faults::{mutated, refused, refused_for_sets, PROGRAM_REFUSALS};
use super::keys::like_key_cases;
use super::long_entries::long_entry_cases;
use super::many_empty::many_empty_cases;
use super::padded_entries::padded_entry_cases;
use super::programs::accepted;
use super::random::Random;
use super::texts::{draw, draw_of_length, edit, garbage};
use crate::calls::{Reads, Remembering, MAX_CLASH, MAX_ENTRIES, MAX_TEXT};
use crate::program::Program;
use crate::table::{Node, Side};

#[derive(Clone, Copy, Debug, PartialEq, Eq, Hash, PartialOrd, Ord)]
pub enum Call {
    Check,
    Get,
    Put,
    Create,
    Clash,
}

/// One call. Texts that a call does not take are empty.
#[derive(Clone, Debug)]
pub struct Case {
    pub call: Call,
    pub table: Vec<u8>,
    pub sheet: Vec<u8>,
    pub source: Vec<u8>,
    /// The length of the lent output buffer.
    pub lent: usize,
}

/// Calls about one program: refused ones are checked and called with texts that
/// would fit other programs, accepted ones get texts of all sorts. Programs with
/// long old entries, with many empty matches, with keys that are much alike or with
/// long keys that are short without their spaces bring their own texts. All are asked
/// for their clash.
pub fn program_cases(random: &mut Random) -> Vec<Case> {
    let mut cases = cases_without_clash(random);
    let clashes = clash_cases(random, &cases[0].table);
    cases.extend(clashes);
    cases
}

/// The same without the calls of clash.
pub fn cases_without_clash(random: &mut Random) -> Vec<Case> {
    let table = match random.below(38) {
        0..=2 => return long_entry_cases(random),
        3..=4 => return many_empty_cases(random),
        5 => return like_key_cases(random),
        6..=8 => {
            let number = random.between(usize::from(*PROGRAM_REFUSALS.start()), usize::from(*PROGRAM_REFUSALS.end()));
            refused(random, number as u8, &mut accepted)
        }
        9..=11 => {
            let table = accepted(random).table();
            mutated(random, &table)
        }
        12..=13 => refused_for_sets(random, &mut accepted),
        14..=17 => clashing(random),
        18..=19 => return padded_entry_cases(random),
        _ => accepted(random).table(),
    };
    cases_of(random, table)
}

/// The clash of a table with buffers of lengths around the text's; at the limit for
/// other texts, where this one knows none; and of the greatest length that a text can
/// have.
pub fn clash_cases(random: &mut Random, table: &[u8]) -> Vec<Case> {
    let others = [0, MAX_TEXT, MAX_CLASH];
    let lent = match Remembering.find(table) {
        Ok(Some((_, clash))) => {
            let exact = clash.text.len();
            let around = [exact.checked_sub(1), Some(exact), Some(exact + 1)];
            around.into_iter().flatten().chain(others).collect()
        }
        _ => vec![0, *random.pick(&[1, 20, MAX_TEXT, MAX_CLASH])],
    };
    lent.into_iter().map(|lent| case(Call::Clash, table, (Vec::new(), Vec::new()), lent)).collect()
}

/// A check of a table, and gets, puts and creates with it.
pub fn cases_of(random: &mut Random, table: Vec<u8>) -> Vec<Case> {
    let mut cases =
        vec![Case { call: Call::Check, table: table.clone(), sheet: Vec::new(), source: Vec::new(), lent: 0 }];
    match Program::read(&table) {
        Ok(program) => {
            for _ in 0..8 {
                cases.push(text_case(random, &table, &program));
            }
        }
        Err(_) => {
            for call in [Call::Get, Call::Put, Call::Create] {
                let text = garbage(random, b"AB1;");
                cases.push(case(call, &table, (text.clone(), text), random.below(20)));
            }
        }
    }
    cases
}

/// A call with those of the two texts, sheet and source, that it takes.
pub(super) fn case(call: Call, table: &[u8], (sheet, source): (Vec<u8>, Vec<u8>), lent: usize) -> Case {
    let (sheet, source) = match call {
        Call::Check | Call::Clash => (Vec::new(), Vec::new()),
        Call::Get => (Vec::new(), source),
        Call::Put => (sheet, source),
        Call::Create => (sheet, Vec::new()),
    };
    Case { call, table: table.to_vec(), sheet, source, lent }
}

fn text_case(random: &mut Random, table: &[u8], program: &Program) -> Case {
    let call = *random.pick(&[Call::Get, Call::Put, Call::Put, Call::Put, Call::Create]);
    let source = any_text(random, program, Side::Source);
    let sheet = if call == Call::Put && !random.once_in(4) && is_source(program, &source) {
        let sheet = program.get(&source);
        if random.once_in(4) {
            sheet
        } else {
            edit(random, program, &sheet)
        }
    } else {
        any_text(random, program, Side::Sheet)
    };
    let lent = lent_length(random, program, call, &sheet, &source);
    case(call, table, (sheet, source), lent)
}

fn is_source(program: &Program, text: &[u8]) -> bool {
    text.len() <= MAX_TEXT && program.fits(program.root(), Side::Source, text)
}

fn is_sheet(program: &Program, text: &[u8]) -> bool {
    text.len() <= MAX_TEXT && program.fits(program.root(), Side::Sheet, text)
}

/// Mostly a short legal text; sometimes garbage, a text with a length at a
/// limit, or one with a number of entries at the limit.
fn any_text(random: &mut Random, program: &Program, side: Side) -> Vec<u8> {
    match random.below(24) {
        0..=1 => {
            let legal = legal_text(random, program, side);
            garbage(random, &legal)
        }
        2..=5 => text_at_length_limit(random, program, side),
        6 => text_at_entry_limit(random, program, side),
        _ => legal_text(random, program, side),
    }
}

pub fn legal_text(random: &mut Random, program: &Program, side: Side) -> Vec<u8> {
    let more = *random.pick(&[1, 3, 3, 8]);
    draw(random, program.table(), program.root(), side, more, 120)
}

/// A legal text of a length at or beside a limit or a multiple of 64 if there is
/// one; otherwise garbage of that length.
pub fn text_at_length_limit(random: &mut Random, program: &Program, side: Side) -> Vec<u8> {
    let length = match random.below(11) {
        0 => random.below(2),
        1..=3 => MAX_TEXT - 1 + random.below(3),
        _ => 64 * random.pick(&[1, 1, 1, 2, 2, 2, 3, 4, 9]) - 1 + random.below(3),
    };
    draw_of_length(random, program.automaton(program.root(), side), length).unwrap_or_else(|| vec![b'A'; length])
}

/// A text of 256 or 257 parts at the root, if the root is a repeat.
pub fn text_at_entry_limit(random: &mut Random, program: &Program, side: Side) -> Vec<u8> {
    let Node::LensRepeat(part) = *program.node(program.root()) else {
        return legal_text(random, program, side);
    };
    let count = MAX_ENTRIES + random.below(2);
    (0..count).flat_map(|_| draw(random, program.table(), part, side, 1, 2)).collect()
}

/// A length around that of the result, or around the longest result.
pub(super) fn lent_length(random: &mut Random, program: &Program, call: Call, sheet: &[u8], source: &[u8]) -> usize {
    let legal = (call == Call::Create || is_source(program, source)) && (call == Call::Get || is_sheet(program, sheet));
    let exact = match call {
        Call::Get if legal => program.get(source).len(),
        Call::Create if legal => program.create(sheet).len(),
        // Over the limit put is refused before a result is measured.
        Call::Put if legal && program.count_entries(source) <= MAX_ENTRIES => program.put(sheet, source).source.len(),
        _ => random.below(16),
    };
    // Results far over the limit need no buffer of their size.
    let exact = exact.min(2 * MAX_TEXT);
    match random.below(8) {
        0 => 0,
        1 | 2 => exact,
        3 => exact.saturating_sub(1),
        4 => exact + 1,
        5 => MAX_TEXT + random.below(1000),
        _ => MAX_TEXT,
    }
}

/// An accepted program of the shape that the last clause of demand 3 speaks of.
pub fn one_repeated_entry(random: &mut Random) -> (Draft, Program) {
    loop {
        let draft = accepted(random);
        let Ok(program) = Program::read(&draft.table()) else { continue };
        if let Node::LensRepeat(part) = *program.node(program.root()) {
            if matches!(program.node(part), Node::Match(_)) {
                return (draft, program);
            }
        }
    }
}
