//! Sections and sheets of their form: short ones, and ones of a wanted length up to
//! the limits.

use super::super::random::Random;
use crate::afm::{Pair, MAX_NAME, VALUES};

/// A line by its fields, so that a flaw can be put at a place of its own.
#[derive(Clone, Debug)]
pub struct Line {
    pub before: Vec<u8>,
    pub fields: Vec<Vec<u8>>,
    /// What stands between the fields, one fewer than there are of these.
    pub gaps: Vec<Vec<u8>>,
    /// A newline, in a line of its form.
    pub behind: Vec<u8>,
}

impl Line {
    pub fn new(fields: &[&[u8]], gap: &[u8]) -> Line {
        let gaps = vec![gap.to_vec(); fields.len().saturating_sub(1)];
        let fields = fields.iter().map(|field| field.to_vec()).collect();
        Line { before: Vec::new(), fields, gaps, behind: b"\n".to_vec() }
    }

    /// A line that holds nothing but its newline.
    pub fn blank() -> Line {
        Line::new(&[], b"")
    }

    fn text(&self) -> Vec<u8> {
        let mut text = self.before.clone();
        for (place, field) in self.fields.iter().enumerate() {
            if let Some(gap) = place.checked_sub(1).and_then(|before| self.gaps.get(before)) {
                text.extend(gap);
            }
            text.extend(field);
        }
        text.extend(&self.behind);
        text
    }
}

pub fn text_of(lines: &[Line]) -> Vec<u8> {
    lines.iter().flat_map(Line::text).collect()
}

/// Which names are drawn.
#[derive(Clone, Copy, Debug, PartialEq, Eq)]
pub enum Names {
    /// Every name of the form, also ones that look like another field.
    Any,
    /// Names of letters, digits, full stops and underscores only.
    Plain,
}

/// Names as fonts have them.
const GLYPHS: [&str; 12] =
    ["A", "V", "T", "o", "y", "Aacute", "quoteright", "f_i", "one.oldstyle", "uni01C4", ".notdef", "Tcommaaccent"];
/// Names that look like another field, and bytes at the ends of those that names have.
const ODD_NAMES: [&str; 14] =
    ["KPX", "EndKernPairs", "StartKernPairs", "0", "-0", "+1", "007", "-32769", "!", "~", ":", "<", "-", "\"\\"];
/// Values at which a careless reader goes wrong.
const EDGE_VALUES: [i64; 14] = [-32_768, -32_767, -10_000, -9_999, -100, -10, -9, -1, 0, 1, 9, 10, 9_999, 32_767];

/// The shortest line of a sheet, `a;b;0` with its newline.
pub const SHORTEST_LINE: usize = 6;
/// The longest line with a value of one digit.
const LONGEST_OF_NAMES: usize = 2 * MAX_NAME + 4;
/// What a section has for each pair beyond the sheet's line: `KPX` and a space.
pub const MORE_A_PAIR: usize = 4;
/// What a section has beside its pairs and its count.
pub const AROUND_PAIRS: usize = 29;

pub fn name(random: &mut Random, names: Names) -> Vec<u8> {
    match random.below(8) {
        0..=3 => random.pick(&GLYPHS).as_bytes().to_vec(),
        4 if names == Names::Any => random.pick(&ODD_NAMES).as_bytes().to_vec(),
        5 => {
            let length = *random.pick(&[1, 2, MAX_NAME - 1, MAX_NAME, MAX_NAME]);
            name_of_length(random, names, length)
        }
        _ => {
            let length = random.between(1, 12);
            name_of_length(random, names, length)
        }
    }
}

fn name_of_length(random: &mut Random, names: Names, length: usize) -> Vec<u8> {
    const PLAIN: &[u8] = b".ABCDEFGHIJKLMNOPQRSTUVWXYZ_abcdefghijklmnopqrstuvwxyz0123456789";
    let any_byte = |random: &mut Random| loop {
        let byte = random.between(0x21, 0x7E) as u8;
        if byte != b';' {
            return byte;
        }
    };
    (0..length).map(|_| if names == Names::Plain { *random.pick(PLAIN) } else { any_byte(random) }).collect()
}

pub fn value(random: &mut Random) -> i64 {
    match random.below(3) {
        0 => *random.pick(&EDGE_VALUES),
        1 => random.between(0, 300) as i64 - 200,
        _ => VALUES.start() + random.below(65_536) as i64,
    }
}

pub fn pair(random: &mut Random, names: Names) -> Pair {
    Pair { left: name(random, names), right: name(random, names), value: value(random) }
}

/// The bytes that a pair has in a sheet.
pub fn sheet_length(pair: &Pair) -> usize {
    pair.left.len() + pair.right.len() + pair.value.to_string().len() + 3
}

/// Up to `most` pairs.
pub fn few_pairs(random: &mut Random, names: Names, most: usize) -> Vec<Pair> {
    (0..random.between(0, most)).map(|_| pair(random, names)).collect()
}

/// Pairs that come to exactly `room` bytes, each with `more` beyond its line in a
/// sheet. There must be room for one.
pub fn pairs_filling(random: &mut Random, names: Names, room: usize, more: usize) -> Vec<Pair> {
    let shortest = SHORTEST_LINE + more;
    let are_short = random.once_in(3);
    let (mut pairs, mut left) = (Vec::new(), room);
    loop {
        let next = if are_short { pair_of_length(random, names, SHORTEST_LINE) } else { pair(random, names) };
        let taken = sheet_length(&next) + more;
        if left < taken + shortest {
            break;
        }
        left -= taken;
        pairs.push(next);
    }
    // Less is left than two lines of the longest names have.
    let longest = LONGEST_OF_NAMES + more;
    while left > 0 {
        let taken = if left <= longest { left } else { random.between(shortest, longest.min(left - shortest)) };
        pairs.push(pair_of_length(random, names, taken - more));
        left -= taken;
    }
    pairs
}

/// A pair whose line in a sheet has so many bytes.
fn pair_of_length(random: &mut Random, names: Names, length: usize) -> Pair {
    let both = length - 4;
    let left = random.between(both.saturating_sub(MAX_NAME).max(1), MAX_NAME.min(both - 1));
    let [left, right] = [left, both - left].map(|length| name_of_length(random, names, length));
    Pair { left, right, value: random.below(10) as i64 }
}

pub fn sheet_lines(pairs: &[Pair]) -> Vec<Line> {
    let line = |pair: &Pair| Line::new(&[&pair.left, &pair.right, pair.value.to_string().as_bytes()], b";");
    pairs.iter().map(line).collect()
}

/// The lines of a section, with one space between fields.
pub fn section_lines(pairs: &[Pair]) -> Vec<Line> {
    let start = Line::new(&[b"StartKernPairs", pairs.len().to_string().as_bytes()], b" ");
    let line = |pair: &Pair| Line::new(&[b"KPX", &pair.left, &pair.right, pair.value.to_string().as_bytes()], b" ");
    let end = Line::new(&[b"EndKernPairs"], b" ");
    [vec![start], pairs.iter().map(line).collect(), vec![end]].concat()
}

/// Makes runs of the spaces between fields, in one section of three; they stand at
/// some places or at all of them.
pub fn widen(random: &mut Random, lines: &mut [Line]) {
    if !random.once_in(3) {
        return;
    }
    let seldom = *random.pick(&[1, 1, 4]);
    for gap in lines.iter_mut().flat_map(|line| &mut line.gaps) {
        if random.once_in(seldom) {
            *gap = vec![b' '; random.between(1, 5)];
        }
    }
}

/// Makes one run of spaces so long that the text has so many bytes, if it has fewer.
pub fn stretch(random: &mut Random, lines: &mut [Line], length: usize) {
    let missing = length.saturating_sub(text_of(lines).len());
    let mut gaps: Vec<&mut Vec<u8>> = lines.iter_mut().flat_map(|line| &mut line.gaps).collect();
    let place = random.below(gaps.len());
    gaps[place].extend(vec![b' '; missing]);
}
