//! Kerning as AFM has it and as sheet lines: the calls import and export, which
//! take no program.
//!
//! A section is a line `StartKernPairs` with a count, any number of lines `KPX` with
//! two names and a value, and a line `EndKernPairs`. A sheet is any number of lines
//! `left;right;value`. A text is cut into lines and a line into its fields, and a
//! number is one if it prints as it was written; nothing is read byte by byte.

use std::ops::RangeInclusive;

use crate::answer::{BAD_LINE, RESULT_TOO_LONG, TEXT_TOO_LONG, WRONG_COUNT};
use crate::Reference;

/// The longest section, sheet and result.
pub const MAX_AFM_TEXT: usize = 65_535;
/// The longest name of a glyph.
pub const MAX_NAME: usize = 63;
/// What a pair's value can be.
pub const VALUES: RangeInclusive<i64> = -32_768..=32_767;
/// What can stand behind `StartKernPairs`, whatever the number of pairs is.
pub const COUNTS: RangeInclusive<i64> = 0..=65_535;

const START: &[u8] = b"StartKernPairs";
const PAIR: &[u8] = b"KPX";
const END: &[u8] = b"EndKernPairs";

/// The length of the result, or a refusal.
pub type Answer = Result<usize, Refusal>;

/// A numbered refusal. Its node can be the number of a line, which no byte holds, so
/// it is not the refusal of the other calls.
#[derive(Clone, Copy, Debug, PartialEq, Eq, Hash, PartialOrd, Ord)]
pub struct Refusal {
    pub number: u8,
    pub node: usize,
}

impl Refusal {
    /// The refusal of a line, counted from 1.
    pub fn of_line(line: usize) -> Refusal {
        Refusal { number: BAD_LINE, node: line }
    }

    /// A refusal that concerns no line.
    pub fn of_call(number: u8) -> Refusal {
        Refusal { number, node: 0 }
    }
}

/// The two calls, so that implementations can be compared.
///
/// A result stands at the start of `out` and leaves the bytes behind it alone; a
/// refusal leaves all of `out` as it was.
pub trait AfmCalls {
    /// Gives the sheet of a section.
    fn import(&self, section: &[u8], out: &mut [u8]) -> Answer;
    /// Gives the section of a sheet.
    fn export(&self, sheet: &[u8], out: &mut [u8]) -> Answer;
}

impl AfmCalls for Reference {
    fn import(&self, section: &[u8], out: &mut [u8]) -> Answer {
        limit_length(section)?;
        let Section { count, pairs } = section_of(section).map_err(Refusal::of_line)?;
        require(count == pairs.len(), WRONG_COUNT)?;
        hand_over(&sheet_text(&pairs), out)
    }

    fn export(&self, sheet: &[u8], out: &mut [u8]) -> Answer {
        limit_length(sheet)?;
        let pairs = pairs_of(sheet).map_err(Refusal::of_line)?;
        hand_over(&section_text(&pairs), out)
    }
}

/// A pair of glyphs with its value.
#[derive(Clone, Debug, PartialEq, Eq)]
pub struct Pair {
    pub left: Vec<u8>,
    pub right: Vec<u8>,
    pub value: i64,
}

/// What a section says. The count need not be the number of pairs.
#[derive(Clone, Debug, PartialEq, Eq)]
pub struct Section {
    pub count: usize,
    pub pairs: Vec<Pair>,
}

/// The number of the first line that is not of its form, from 1: one more than there
/// are lines of their form before it, also where a line is missing.
pub type BadLine = usize;

/// Reads a section of any length.
pub fn section_of(text: &[u8]) -> Result<Section, BadLine> {
    let lines = lines_of(text);
    let count = lines.first().and_then(|line| count_of(line)).ok_or(1usize)?;
    let pairs: Vec<Pair> = lines[1..].iter().map_while(|line| kpx_of(line)).collect();
    let behind_pairs = &lines[1 + pairs.len()..];
    match behind_pairs {
        [line] if is_end(line) => Ok(Section { count, pairs }),
        [line, _, ..] if is_end(line) => Err(pairs.len() + 3),
        _ => Err(pairs.len() + 2),
    }
}

/// Reads a sheet of any length.
pub fn pairs_of(text: &[u8]) -> Result<Vec<Pair>, BadLine> {
    let lines = lines_of(text);
    let pairs: Vec<Pair> = lines.iter().map_while(|line| sheet_line_of(line)).collect();
    if pairs.len() < lines.len() {
        return Err(pairs.len() + 1);
    }
    Ok(pairs)
}

/// The sheet of these pairs.
pub fn sheet_text(pairs: &[Pair]) -> Vec<u8> {
    pairs.iter().flat_map(|pair| row(&[&pair.left, &pair.right, &printed(pair.value)], b";")).collect()
}

/// The section of these pairs, with their number as its count.
pub fn section_text(pairs: &[Pair]) -> Vec<u8> {
    let start = row(&[START, &printed(pairs.len() as i64)], b" ");
    let kpx = |pair: &Pair| row(&[PAIR, &pair.left, &pair.right, &printed(pair.value)], b" ");
    [start, pairs.iter().flat_map(kpx).collect(), row(&[END], b" ")].concat()
}

/// Fields with a separator between them and a newline behind.
fn row(fields: &[&[u8]], separator: &[u8]) -> Vec<u8> {
    [&fields.join(separator)[..], b"\n"].concat()
}

fn printed(number: i64) -> Vec<u8> {
    number.to_string().into_bytes()
}

/// The lines with their newlines. The last one has none if the text does not end in
/// one; then it is no line of any form.
fn lines_of(text: &[u8]) -> Vec<&[u8]> {
    text.split_inclusive(|&byte| byte == b'\n').collect()
}

/// The count of a line `StartKernPairs`.
fn count_of(line: &[u8]) -> Option<usize> {
    match spaced_fields(line)?[..] {
        [START, count] => number_of(count, COUNTS).map(|count| count as usize),
        _ => None,
    }
}

/// The pair of a line `KPX`.
fn kpx_of(line: &[u8]) -> Option<Pair> {
    match spaced_fields(line)?[..] {
        [PAIR, left, right, value] => pair_of(left, right, value),
        _ => None,
    }
}

/// The pair of a line of a sheet.
fn sheet_line_of(line: &[u8]) -> Option<Pair> {
    let fields: Vec<&[u8]> = line.strip_suffix(b"\n")?.split(|&byte| byte == b';').collect();
    match fields[..] {
        [left, right, value] => pair_of(left, right, value),
        _ => None,
    }
}

fn is_end(line: &[u8]) -> bool {
    line.strip_suffix(b"\n") == Some(END)
}

/// The fields of a line, which runs of spaces separate. A line with a space at either
/// end has none.
fn spaced_fields(line: &[u8]) -> Option<Vec<&[u8]>> {
    let line = line.strip_suffix(b"\n")?;
    if line.starts_with(b" ") || line.ends_with(b" ") {
        return None;
    }
    Some(line.split(|&byte| byte == b' ').filter(|field| !field.is_empty()).collect())
}

fn pair_of(left: &[u8], right: &[u8], value: &[u8]) -> Option<Pair> {
    let value = number_of(value, VALUES)?;
    (is_name(left) && is_name(right)).then(|| Pair { left: left.to_vec(), right: right.to_vec(), value })
}

fn is_name(field: &[u8]) -> bool {
    let is_allowed = |byte: &u8| (0x21..=0x7E).contains(byte) && *byte != b';';
    (1..=MAX_NAME).contains(&field.len()) && field.iter().all(is_allowed)
}

/// The number that a field is. It has one form only, so one with a plus sign, with
/// leading zeros or of minus nought prints as another text than it was read from.
fn number_of(field: &[u8], range: RangeInclusive<i64>) -> Option<i64> {
    let number: i64 = std::str::from_utf8(field).ok()?.parse().ok()?;
    (range.contains(&number) && printed(number) == field).then_some(number)
}

fn limit_length(text: &[u8]) -> Result<(), Refusal> {
    require(text.len() <= MAX_AFM_TEXT, TEXT_TOO_LONG)
}

fn require(holds: bool, number: u8) -> Result<(), Refusal> {
    holds.then_some(()).ok_or(Refusal::of_call(number))
}

/// Copies a whole result out, or refuses before the first byte is written.
fn hand_over(result: &[u8], out: &mut [u8]) -> Answer {
    require(result.len() <= out.len().min(MAX_AFM_TEXT), RESULT_TOO_LONG)?;
    out[..result.len()].copy_from_slice(result);
    Ok(result.len())
}
