//! Sets of bytes in brackets, such as `[A-Za-z0-9._]`.
//!
//! A set holds bytes and ranges of bytes. A `^` behind the opening bracket means
//! all other bytes, from 0 to 255. Blanks, `#` and quotes are themselves, and so
//! is a `-` at the beginning or the end. The escapes are those of quotes, and
//! `\]`, `\[`, `\-` and `\^`. Letters outside ASCII have several bytes, which a
//! set would take for several members, so they have to be escaped.

use crate::line::{quote_byte, Scanner};
use crate::place::Mistake;

/// A first and a last byte, both included.
pub type Pair = (u8, u8);

/// What stands in brackets.
#[derive(Clone, Debug, PartialEq, Eq)]
pub struct Set {
    /// The members as they are written. All other bytes have no such pairs; they
    /// have their ranges here.
    pub pairs: Vec<Pair>,
    /// The fewest ranges that hold the same bytes, lowest first.
    pub ranges: Vec<Pair>,
}

/// The bytes of pairs, as they lie in the pool.
pub fn pool_bytes(pairs: &[Pair]) -> Vec<u8> {
    pairs.iter().flat_map(|&(first, last)| [first, last]).collect()
}

/// The pairs in brackets, in printable ASCII. None of them is reversed.
pub fn quote_set(pairs: &[Pair]) -> String {
    let members = pairs.iter().map(|&(first, last)| {
        let [first_byte, last_byte] = [first, last].map(quote_member);
        if first == last {
            first_byte
        } else {
            format!("{first_byte}-{last_byte}")
        }
    });
    format!("[{}]", members.collect::<String>())
}

fn quote_member(byte: u8) -> String {
    match byte {
        b']' | b'[' | b'-' | b'^' => format!("\\{}", char::from(byte)),
        // As in single quotes, and without them.
        _ => {
            let quoted = quote_byte(byte);
            quoted[1..quoted.len() - 1].to_string()
        }
    }
}

/// The set whose opening bracket was read.
pub(crate) fn set(scanner: &mut Scanner) -> Result<Set, Mistake> {
    let opened = scanner.at - 1;
    let are_others = scanner.rest().starts_with(b"^");
    scanner.at += usize::from(are_others);
    let beginning = scanner.at;
    let mut held = [are_others; 256];
    let mut pairs = Vec::new();
    loop {
        match scanner.rest() {
            [] => return Err(scanner.wrong(opened, "the closing bracket of this set is missing")),
            [b']', ..] => break,
            _ => {
                let (first, last) = member(scanner, beginning)?;
                held[usize::from(first)..=usize::from(last)].fill(!are_others);
                pairs.push((first, last));
            }
        }
    }
    if scanner.at == beginning {
        let message = "the set is empty; a ']' in it is written \\], and every byte is [\\x00-\\xFF]";
        return Err(scanner.wrong(opened, message));
    }
    scanner.at += 1;
    let ranges = ranges(&held);
    if ranges.is_empty() {
        return Err(scanner.wrong(opened, "the set is empty, since it takes out every byte"));
    }
    Ok(Set { pairs: if are_others { ranges.clone() } else { pairs }, ranges })
}

/// A byte or a range of bytes, as its first and its last one.
fn member(scanner: &mut Scanner, beginning: usize) -> Result<Pair, Mistake> {
    let start = scanner.at;
    let stands_between = |rest: &[u8]| matches!(rest, [b'-', behind, ..] if *behind != b']');
    if start != beginning && stands_between(scanner.rest()) {
        return Err(
            scanner.wrong(start, "a '-' that is itself stands at the set's beginning or end, or is written \\-")
        );
    }
    let first = byte(scanner)?;
    if !stands_between(scanner.rest()) {
        return Ok((first, first));
    }
    scanner.at += 1;
    let last = byte(scanner)?;
    if first > last {
        let ends = format!("{} to {}", quote_byte(first), quote_byte(last));
        return Err(scanner.wrong(start, format!("the range {ends} is reversed; the lower byte comes first")));
    }
    Ok((first, last))
}

fn byte(scanner: &mut Scanner) -> Result<u8, Mistake> {
    match scanner.rest() {
        [b'\\', ..] => scanner.escape(b"][-^", "a set"),
        [byte, ..] if byte.is_ascii() => {
            scanner.at += 1;
            Ok(*byte)
        }
        _ => {
            let message = "a letter outside ASCII has several bytes, and a set holds single ones; write \\xNN";
            Err(scanner.wrong(scanner.at, message))
        }
    }
}

fn ranges(held: &[bool; 256]) -> Vec<Pair> {
    let mut found: Vec<Pair> = Vec::new();
    for byte in (0..=255).filter(|&byte| held[usize::from(byte)]) {
        match found.last_mut() {
            // The last one is lower than this byte, so it has a next one.
            Some((_, last)) if *last + 1 == byte => *last = byte,
            _ => found.push((byte, byte)),
        }
    }
    found
}
