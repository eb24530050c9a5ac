//! Small calls, for tools that evaluate definitions and not code: at most 14
//! nodes, 6 positions a side, texts of 8 bytes.

use super::cases::{Call, Case};
use super::draft::Draft;
use super::faults::refused;
use super::padded_names::small_padded_names;
use super::programs::{grown, records, two_kinds, Room};
use super::random::Random;
use super::texts::{draw, edit, garbage};
use crate::answer::*;
use crate::calls::Remembering;
use crate::program::Program;
use crate::table::{Side, Table};
use crate::trial::run;

const NODES: usize = 14;
const POSITIONS: usize = 6;
const TEXT: usize = 8;
const RESULT: usize = 16;

/// A check of a small program that is refused with this number, or accepted if
/// there is none.
pub fn small_check(random: &mut Random, number: Option<u8>) -> Case {
    let table = match number {
        Some(number) => refused_table(random, number),
        None => accepted_table(random),
    };
    Case { call: Call::Check, table, sheet: Vec::new(), source: Vec::new(), lent: 0 }
}

/// A clash of a small program, mostly of one that has one, with a short text.
pub fn small_clash(random: &mut Random) -> Case {
    loop {
        let least = if random.once_in(8) { SIZES_WRONG } else { SOURCE_JOIN_AMBIGUOUS };
        let any = random.between(usize::from(least), usize::from(SHEET_REPEAT_AMBIGUOUS)) as u8;
        let number = (!random.once_in(8)).then_some(any);
        let mut case = with_texts(Call::Clash, small_check(random, number).table, Vec::new(), Vec::new(), TEXT);
        let answer = run(&Remembering, &case).answer;
        if answer.is_ok_and(|length| length <= 4) || answer.is_err_and(|refusal| refusal.number != CLASH_TOO_LONG) {
            case.lent = lent_length(random, answer);
            return case;
        }
    }
}

/// A small get, put or create.
pub fn small_call(random: &mut Random, call: Call) -> Case {
    loop {
        let case = text_case(random, call);
        let is_short = case.sheet.len().max(case.source.len()) <= TEXT && result_is_short(&case);
        if is_short && (random.once_in(4) || is_telling(&case)) {
            return case;
        }
    }
}

/// Whether a call shows more than bytes copied: its result is neither of the
/// texts handed in, and what put gives is not what create would give; or a text
/// is refused.
fn is_telling(case: &Case) -> bool {
    let outcome = run(&Remembering, case);
    let length = match outcome.answer {
        Ok(length) => length,
        Err(refusal) => return refusal.number == NOT_A_SOURCE || refusal.number == NOT_A_SHEET,
    };
    let text = &outcome.buffer[..length];
    let created = || Program::read(&case.table).map(|program| program.create(&case.sheet));
    match case.call {
        Call::Check | Call::Clash => true,
        Call::Get => text != case.source,
        Call::Put => text != case.sheet && text != case.source && created().is_ok_and(|created| created != text),
        Call::Create => text != case.sheet,
    }
}

fn result_is_short(case: &Case) -> bool {
    run(&Remembering, case).answer.map_or(true, |length| length <= RESULT)
}

fn accepted_table(random: &mut Random) -> Vec<u8> {
    loop {
        let draft = match random.below(6) {
            0..=1 => grown(random, Room::SMALL),
            2 => records(random),
            3 => small_padded_names(random),
            _ => two_kinds(random),
        };
        let table = draft.table();
        if is_small(&table) {
            return table;
        }
    }
}

fn refused_table(random: &mut Random, number: u8) -> Vec<u8> {
    // A fault adds some nodes, so the program underneath must be smaller.
    const UNDERNEATH: Room = Room { nodes: 7, positions: 4, attempts: 16 };
    let underneath = &mut |random: &mut Random| match number {
        // Passing a limit takes most of the nodes.
        LIMIT_PASSED => {
            let mut draft = Draft::new();
            draft.copy_word(b"a");
            draft
        }
        _ => grown(random, UNDERNEATH),
    };
    loop {
        let table = refused(random, number, underneath);
        if is_small(&table) {
            return table;
        }
    }
}

/// Tables that are refused in the first round have no measures to look at; they
/// are small enough by their number of nodes.
fn is_small(table: &[u8]) -> bool {
    let few_positions = Table::read(table).map_or(true, |table| {
        table.measures.iter().all(|measure| measure.source_positions.max(measure.sheet_positions) <= POSITIONS)
    });
    table.len() <= 3 + 4 * NODES + 2 * TEXT
        && table.first().is_none_or(|&count| usize::from(count) <= NODES)
        && few_positions
}

/// Mostly legal texts of an accepted program, and rarely a refused program.
fn text_case(random: &mut Random, call: Call) -> Case {
    let number = random.once_in(25).then(|| random.between(1, 11) as u8);
    let table = small_check(random, number).table;
    let Ok(program) = Program::read(&table) else {
        return with_texts(call, table, b"ab".to_vec(), b"a;".to_vec(), TEXT);
    };
    let source = mostly_legal(random, &program, Side::Source);
    let sheet = match call {
        Call::Put if !random.once_in(3) && program.fits(program.root(), Side::Source, &source) => {
            let sheet = program.get(&source);
            edit(random, &program, &sheet)
        }
        _ => mostly_legal(random, &program, Side::Sheet),
    };
    let mut case = with_texts(call, table, sheet, source, RESULT);
    case.lent = lent_length(random, run(&Remembering, &case).answer);
    case
}

fn with_texts(call: Call, table: Vec<u8>, sheet: Vec<u8>, source: Vec<u8>, lent: usize) -> Case {
    let sheet = if call == Call::Get { Vec::new() } else { sheet };
    let source = if call == Call::Create { Vec::new() } else { source };
    Case { call, table, sheet, source, lent }
}

/// Empty texts say little, so most are drawn again.
fn mostly_legal(random: &mut Random, program: &Program, side: Side) -> Vec<u8> {
    let mut text = Vec::new();
    for _ in 0..4 {
        text = draw(random, program.table(), program.root(), side, 2, TEXT - 1);
        if !text.is_empty() {
            break;
        }
    }
    if random.once_in(12) {
        garbage(random, &text)
    } else {
        text
    }
}

fn lent_length(random: &mut Random, answer: Answer) -> usize {
    let exact = answer.unwrap_or(TEXT);
    match random.below(10) {
        0 => exact.saturating_sub(1),
        1 => exact,
        2 => random.below(4),
        _ => RESULT,
    }
}
