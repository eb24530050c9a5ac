//! Programs of the papers, and short forms of the calls for the tests.

#![allow(dead_code)] // Every test file uses its own part of this.

use noontrough_reference::generator::cases::{Call, Case};
use noontrough_reference::generator::draft::{Draft, NodeNumber};
use noontrough_reference::generator::programs::{grown, two_kinds, Room};
use noontrough_reference::generator::random::Random;
use noontrough_reference::trial::{run, Outcome};
use noontrough_reference::{Answer, Calls, Reference, Refusal};

pub const BUFFER: usize = 4096;

/// Program K of document 01, byte for byte.
pub fn program_k() -> Vec<u8> {
    let mut table = vec![15, 0, 2];
    table.extend([1, 4, 2, 1, 4, 0, 0, 0, 18, 17, 16, 19, 19, 22, 21]);
    table.extend([65, 90, 0, 0, 0, 0, 0, 1, 0, 48, 57, 0, 3, 0, 0]);
    table.extend([0, 0, 0, 0, 0, 1, 0, 1, 1, 2, 0, 0, 4, 5, 6]);
    table.extend([7, 0, 0, 9, 10, 0, 8, 11, 0, 12, 0, 0, 13, 0, 0]);
    table.extend(b"0;");
    table
}

/// l$ of the report: key x*, y* hidden, z*$ copied.
pub fn dollar(draft: &mut Draft) -> NodeNumber {
    let [x, y, z] = [b'x', b'y', b'z'].map(|byte| draft.range(byte, byte));
    let [xs, ys, zs] = [x, y, z].map(|byte| draft.pattern_repeat(byte));
    let end = draft.word(b"$");
    let tail = draft.pattern_join(zs, end);
    let row = [draft.key(xs), draft.delete(ys, b""), draft.copy(tail)];
    draft.lens_row(&row)
}

/// Parts `c (a^p)*`, `c a (a^q)* d` and `d`: two cuts exactly if some number is
/// 0 modulo p and 1 modulo q.
pub fn two_moduli(p: usize, q: usize) -> Vec<u8> {
    let mut draft = Draft::new();
    let power = |draft: &mut Draft, count: usize| {
        let text = b"a".repeat(count);
        let word = draft.word(&text);
        draft.pattern_repeat(word)
    };
    let c = draft.copy_word(b"c");
    let (by_p, by_q) = (power(&mut draft, p), power(&mut draft, q));
    let (by_p, by_q) = (draft.copy(by_p), draft.copy(by_q));
    let d = draft.copy_word(b"d");
    let ca = draft.copy_word(b"ca");
    let first = draft.lens_join(c, by_p);
    let second = draft.lens_row(&[ca, by_q, d]);
    let arms = draft.lens_union(first, second);
    let part = draft.lens_union(arms, d);
    draft.lens_repeat(part);
    draft.table()
}

/// The join of `(a^p)*` and `(a^q)*`. If p and q have no common divisor, no text
/// shorter than p times q bytes has two cuts.
pub fn joined_powers(p: usize, q: usize) -> Vec<u8> {
    let mut draft = Draft::new();
    let [first, second] = [p, q].map(|count| {
        let (half, rest) = (draft.word(&b"a".repeat(count / 2)), draft.word(&b"a".repeat(count - count / 2)));
        let word = draft.pattern_join(half, rest);
        let many = draft.pattern_repeat(word);
        draft.copy(many)
    });
    draft.lens_join(first, second);
    draft.table()
}

/// An accepted program with one more join, union or repeat on top.
pub fn with_new_root(random: &mut Random) -> Draft {
    let mut draft = if random.once_in(4) { two_kinds(random) } else { grown(random, Room::SMALL) };
    let lenses: Vec<NodeNumber> = draft.lenses();
    let (a, b) = (*random.pick(&lenses), *random.pick(&lenses));
    match random.below(5) {
        0 | 1 => draft.lens_join(a, b),
        2 => draft.lens_union(a, b),
        _ => draft.lens_repeat(a),
    };
    draft
}

pub fn check(table: &[u8]) -> Answer {
    Reference.check(table)
}

pub fn refuses(number: u8, node: u8) -> Answer {
    Err(Refusal { number, node })
}

pub fn outcome(call: Call, table: &[u8], sheet: &[u8], source: &[u8], lent: usize) -> Outcome {
    let case = Case { call, table: table.to_vec(), sheet: sheet.to_vec(), source: source.to_vec(), lent };
    run(&Reference, &case)
}

fn text_or_refusal(outcome: Outcome) -> Result<Vec<u8>, Refusal> {
    outcome.text().map(<[u8]>::to_vec)
}

pub fn get(table: &[u8], source: &[u8]) -> Result<Vec<u8>, Refusal> {
    text_or_refusal(outcome(Call::Get, table, b"", source, BUFFER))
}

pub fn put(table: &[u8], sheet: &[u8], source: &[u8]) -> Result<Vec<u8>, Refusal> {
    text_or_refusal(outcome(Call::Put, table, sheet, source, BUFFER))
}

pub fn create(table: &[u8], sheet: &[u8]) -> Result<Vec<u8>, Refusal> {
    text_or_refusal(outcome(Call::Create, table, sheet, b"", BUFFER))
}

/// A result that is this text.
pub fn text(expected: &str) -> Result<Vec<u8>, Refusal> {
    Ok(expected.as_bytes().to_vec())
}

/// A refusal of a call, which concerns no node.
pub fn refused(number: u8) -> Result<Vec<u8>, Refusal> {
    Err(Refusal { number, node: 0 })
}
