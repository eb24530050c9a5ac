//! Random calls of import and export: sections and sheets of their form, from none
//! to as many pairs as there can be, and ones with a flaw or two; and buffers of
//! lengths around that of the result.

pub mod flaws;
pub mod texts;

use self::flaws::{flaws_of, spoilt, Flaw};
use self::texts::*;
use super::random::Random;
use crate::afm::{pairs_of, section_of, section_text, sheet_text, Pair, MAX_AFM_TEXT};

#[derive(Clone, Copy, Debug, PartialEq, Eq, PartialOrd, Ord)]
pub enum Way {
    /// From a section to a sheet.
    Import,
    /// From a sheet to a section.
    Export,
}

pub const WAYS: [Way; 2] = [Way::Import, Way::Export];

/// One call.
#[derive(Clone, Debug)]
pub struct AfmCase {
    pub way: Way,
    pub text: Vec<u8>,
    /// The length of the lent output buffer.
    pub lent: usize,
    /// The flaw that was put into the text; of two the later one.
    pub flaw: Option<Flaw>,
}

/// A call of either way. Three of five texts have a flaw, and some of these two.
pub fn afm_case(random: &mut Random) -> AfmCase {
    let way = *random.pick(&WAYS);
    let mut lines = good_lines(random, way);
    let mut flaw = None;
    let mut text = text_of(&lines);
    if random.below(5) < 3 {
        let flaws = flaws_of(way);
        for _ in 0..*random.pick(&[1, 1, 1, 2]) {
            let next = *random.pick(&flaws);
            text = spoilt(random, way, &mut lines, next);
            flaw = Some(next);
        }
    }
    let lent = lent_length(random, way, &text);
    AfmCase { way, text, lent, flaw }
}

/// The lines of a text of its form. One text of ten has a length at a limit.
fn good_lines(random: &mut Random, way: Way) -> Vec<Line> {
    if random.once_in(10) {
        return match way {
            Way::Import => long_section(random),
            Way::Export => long_sheet(random),
        };
    }
    let most = *random.pick(&[1, 3, 8, 8, 300]);
    let pairs = few_pairs(random, Names::Any, most);
    match way {
        Way::Import => {
            let mut lines = section_lines(&pairs);
            widen(random, &mut lines);
            lines
        }
        Way::Export => sheet_lines(&pairs),
    }
}

/// A length at or beside the longest, or one that a flaw does not make too long.
fn at_limit(random: &mut Random) -> usize {
    match random.below(3) {
        0 => MAX_AFM_TEXT - random.below(400),
        _ => MAX_AFM_TEXT + random.below(5) - 2,
    }
}

/// A section at the limit: by as many pairs as it has room for, or by runs of spaces
/// among a few or among many.
fn long_section(random: &mut Random) -> Vec<Line> {
    let length = at_limit(random);
    let pairs = match random.below(4) {
        0 => few_pairs(random, Names::Any, 3),
        1 => {
            let room = random.between(1000, length) - AROUND_PAIRS;
            pairs_filling(random, Names::Any, room, MORE_A_PAIR)
        }
        _ => pairs_filling(random, Names::Any, length - AROUND_PAIRS - 4, MORE_A_PAIR),
    };
    let mut lines = section_lines(&pairs);
    stretch(random, &mut lines, length);
    lines
}

/// A sheet at the limit, or one whose section is.
fn long_sheet(random: &mut Random) -> Vec<Line> {
    let length = at_limit(random);
    let pairs = match random.below(3) {
        0 => pairs_filling(random, Names::Any, length, 0),
        _ => pairs_filling(random, Names::Any, length - AROUND_PAIRS - 4, MORE_A_PAIR),
    };
    sheet_lines(&pairs)
}

/// What a text gives if neither it nor the result can be too long.
pub fn unlimited(way: Way, text: &[u8]) -> Option<Vec<u8>> {
    match way {
        Way::Import => {
            section_of(text).ok().filter(|read| read.count == read.pairs.len()).map(|read| sheet_text(&read.pairs))
        }
        Way::Export => pairs_of(text).ok().map(|pairs| section_text(&pairs)),
    }
}

/// A length around that of the result, or around the longest result.
fn lent_length(random: &mut Random, way: Way, text: &[u8]) -> usize {
    let exact = unlimited(way, text).map_or_else(|| random.below(64), |result| result.len());
    match random.below(10) {
        0 => 0,
        1..=3 => exact,
        4 | 5 => exact.saturating_sub(1),
        6 => exact + 1,
        7 => random.below(exact + 1),
        8 => exact + random.below(100),
        _ => MAX_AFM_TEXT + random.pick(&[0, 0, 1, 1000]),
    }
}

/// A sheet of its form, for trying the claims: mostly short, sometimes of any length
/// up to the limit, also one that has no section of 65,535 bytes.
pub fn good_sheet(random: &mut Random) -> Vec<u8> {
    let pairs = match random.below(16) {
        0 => {
            let room = random.between(SHORTEST_LINE, MAX_AFM_TEXT);
            pairs_filling(random, Names::Any, room, 0)
        }
        1 => return text_of(&long_sheet(random)),
        _ => few_pairs(random, Names::Any, 12),
    };
    text_of(&sheet_lines(&pairs))
}

/// A section of its form with the right count, in the same way.
pub fn good_section(random: &mut Random, names: Names) -> Vec<u8> {
    let pairs = match random.below(16) {
        0 => {
            let room = random.between(SHORTEST_LINE + MORE_A_PAIR, MAX_AFM_TEXT - AROUND_PAIRS - 4);
            pairs_filling(random, names, room, MORE_A_PAIR)
        }
        _ => few_pairs(random, names, 12),
    };
    section_of_pairs(random, &pairs)
}

/// A section of these pairs with runs of spaces of any length that there is room for.
pub fn section_of_pairs(random: &mut Random, pairs: &[Pair]) -> Vec<u8> {
    let mut lines = section_lines(pairs);
    let plain = text_of(&lines);
    widen(random, &mut lines);
    if random.once_in(8) {
        let length = random.between(plain.len(), MAX_AFM_TEXT);
        stretch(random, &mut lines, length);
    }
    let text = text_of(&lines);
    if text.len() > MAX_AFM_TEXT {
        plain
    } else {
        text
    }
}
