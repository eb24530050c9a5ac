//! What can be wrong in a section or a sheet. Each flaw takes lines of their form and
//! changes them at one place; a few of the changes leave them of their form after all.

use super::super::random::Random;
use super::super::texts::garbage;
use super::texts::{name, pair, section_lines, sheet_lines, text_of, Line, Names};
use super::Way;

#[derive(Clone, Copy, Debug, PartialEq, Eq, PartialOrd, Ord)]
pub enum Flaw {
    NameEmpty,
    NameTooLong,
    /// A byte that no name has, outside ASCII or inside.
    NameByte,
    /// A sign, zeros or other bytes that no value has.
    ValueForm,
    /// A whole number that is too small or too large.
    ValueRange,
    /// So many digits that no number type holds them.
    ValueLong,
    /// A space or another blank at either end of a line.
    BlankAtAnEnd,
    /// Another blank, or none, or something more, between fields.
    Gap,
    FieldMore,
    FieldLess,
    /// Lines that end in a carriage return and a newline, one or all.
    CarriageReturn,
    BlankLine,
    LineDoubled,
    LineDropped,
    LinesSwapped,
    /// The last newline is missing.
    NewlineGone,
    /// A newline too few or too many within the text.
    NewlineInside,
    /// Something behind the last line: a piece without a newline, or lines.
    PieceBehind,
    LinesBehind,
    /// A byte changed, dropped or put in anywhere, or nothing but random bytes.
    Garbage,
    /// A sheet for a section, and the other way round.
    OtherWay,
    // Of sections alone.
    Keyword,
    CountByOne,
    CountOther,
    CountForm,
    EndMissing,
}

use Flaw::*;

/// The flaws of both texts, and those of sections alone.
pub const OF_BOTH: [Flaw; 21] = [
    NameEmpty,
    NameTooLong,
    NameByte,
    ValueForm,
    ValueRange,
    ValueLong,
    BlankAtAnEnd,
    Gap,
    FieldMore,
    FieldLess,
    CarriageReturn,
    BlankLine,
    LineDoubled,
    LineDropped,
    LinesSwapped,
    NewlineGone,
    NewlineInside,
    PieceBehind,
    LinesBehind,
    Garbage,
    OtherWay,
];
pub const OF_SECTIONS: [Flaw; 5] = [Keyword, CountByOne, CountOther, CountForm, EndMissing];

/// The flaws that a text for this call can have.
pub fn flaws_of(way: Way) -> Vec<Flaw> {
    let of_sections = if way == Way::Import { &OF_SECTIONS[..] } else { &[] };
    OF_BOTH.iter().chain(of_sections).copied().collect()
}

/// Puts a flaw into the lines of a text and gives the text.
pub fn spoilt(random: &mut Random, way: Way, lines: &mut Vec<Line>, flaw: Flaw) -> Vec<u8> {
    match flaw {
        Garbage => return garbage(random, &text_of(lines)),
        OtherWay => *lines = other_way(random, way),
        NameEmpty | NameTooLong | NameByte => spoil_name(random, lines, flaw),
        ValueForm | ValueRange | ValueLong => spoil_value(random, lines, flaw),
        BlankAtAnEnd | Gap | FieldMore | FieldLess | CarriageReturn => spoil_between(random, lines, flaw),
        NewlineGone | NewlineInside | PieceBehind | LinesBehind => spoil_ends(random, way, lines, flaw),
        BlankLine | LineDoubled | LineDropped | LinesSwapped => spoil_order(random, lines, flaw),
        Keyword | CountByOne | CountOther | CountForm | EndMissing => spoil_section(random, lines, flaw),
    }
    text_of(lines)
}

/// Lines for the other call, of the form they have there.
fn other_way(random: &mut Random, way: Way) -> Vec<Line> {
    let pairs: Vec<_> = (0..random.between(1, 3)).map(|_| pair(random, Names::Any)).collect();
    match way {
        Way::Import => sheet_lines(&pairs),
        Way::Export => section_lines(&pairs),
    }
}

/// A place in a row of so many: often the first or the last.
fn place_in(random: &mut Random, count: usize) -> usize {
    match random.below(4) {
        0 => 0,
        1 => count - 1,
        _ => random.below(count),
    }
}

fn any_line<'a>(random: &mut Random, lines: &'a mut [Line]) -> Option<&'a mut Line> {
    let place = if lines.is_empty() { 0 } else { place_in(random, lines.len()) };
    lines.get_mut(place)
}

/// The fields of a pair in any line that has one: two names and a value.
fn any_pair<'a>(random: &mut Random, lines: &'a mut [Line]) -> Option<&'a mut [Vec<u8>]> {
    let mut pairs: Vec<&mut Line> = lines.iter_mut().filter(|line| line.fields.len() >= 3).collect();
    let place = if pairs.is_empty() { 0 } else { place_in(random, pairs.len()) };
    (place < pairs.len()).then(|| {
        let fields = &mut pairs.swap_remove(place).fields;
        let values_place = fields.len() - 1;
        &mut fields[values_place - 2..]
    })
}

fn spoil_name(random: &mut Random, lines: &mut [Line], flaw: Flaw) {
    let Some(fields) = any_pair(random, lines) else { return };
    let name = &mut fields[random.below(2)];
    match flaw {
        NameEmpty => name.clear(),
        NameTooLong => name.resize(*random.pick(&[64, 64, 64, 65, 127, 128, 255, 256, 320]), b'n'),
        _ => {
            let inside = [b' ', b';', b'\t', b'\r', 0, 0x0B, 0x1F, 0x7F];
            let byte = if random.once_in(2) { *random.pick(&inside) } else { random.between(0x7F, 0xFF) as u8 };
            let place = place_in(random, name.len() + 1);
            name.truncate(62);
            name.insert(place.min(name.len()), byte);
        }
    }
}

/// What is no value, however it is read.
const NO_VALUES: [&str; 27] = [
    "", "-", "--1", "+1", "+0", "-0", "-00", "00", "007", "-01", "-007", "032767", "-032768", "1-", "1.5", "1.", "0x1",
    "1e3", "1,000", "1/", "1:", "/", "a", "1a", "\u{661}", "1\u{0}", "0-",
];
/// Whole numbers that are too small or too large; some are none in 16, 32 or 64 bits.
const BEYOND: [i128; 18] = [
    32_768,
    -32_769,
    32_769,
    -32_770,
    40_000,
    65_535,
    -65_535,
    65_536,
    65_537,
    99_999,
    -99_999,
    100_000,
    131_072,
    4_294_967_296,
    -4_294_967_297,
    9_223_372_036_854_775_808,
    18_446_744_073_709_551_616,
    18_446_744_073_709_551_617,
];

fn spoil_value(random: &mut Random, lines: &mut [Line], flaw: Flaw) {
    let Some(fields) = any_pair(random, lines) else { return };
    fields[2] = match flaw {
        ValueForm => random.pick(&NO_VALUES).as_bytes().to_vec(),
        ValueRange => random.pick(&BEYOND).to_string().into_bytes(),
        _ => {
            let length = *random.pick(&[6, 7, 10, 19, 20, 21, 40, 255, 256, 257, 5000, 65_000]);
            let sign = *random.pick(&[&b""[..], b"-"]);
            let digit = *random.pick(b"0019");
            let last = *random.pick(b"0179");
            [sign, &vec![digit; length - 1], &[last]].concat()
        }
    };
}

/// Flaws between the fields of a line and at its ends.
fn spoil_between(random: &mut Random, lines: &mut [Line], flaw: Flaw) {
    const BLANKS: [&[u8]; 8] = [b" ", b" ", b"  ", b"\t", b"\x0B", b"\x0C", b"\x00", b"\xA0"];
    let make_return = |line: &mut Line| line.behind = b"\r\n".to_vec();
    if flaw == CarriageReturn && random.once_in(3) {
        return lines.iter_mut().for_each(make_return);
    }
    let Some(line) = any_line(random, lines) else { return };
    match flaw {
        CarriageReturn => make_return(line),
        BlankAtAnEnd if random.once_in(2) => line.before = random.pick(&BLANKS).to_vec(),
        BlankAtAnEnd => line.behind = [random.pick(&BLANKS), &b"\n"[..]].concat(),
        FieldMore => {
            line.gaps.push(line.gaps.first().cloned().unwrap_or(b" ".to_vec()));
            line.fields.push(name(random, Names::Any));
        }
        FieldLess => drop(line.fields.pop()),
        _ => spoil_gap(random, line),
    }
}

fn spoil_gap(random: &mut Random, line: &mut Line) {
    let others: [&[u8]; 11] = [b"", b"\t", b" \t", b"\t ", b"\r", b",", b";;", b"; ", b" ;", b";", b"  "];
    if let Some(place) = line.gaps.len().checked_sub(1) {
        line.gaps[random.between(0, place)] = random.pick(&others).to_vec();
    }
}

/// Flaws of newlines and behind the last line.
fn spoil_ends(random: &mut Random, way: Way, lines: &mut Vec<Line>, flaw: Flaw) {
    match flaw {
        NewlineGone => {
            if let Some(last) = lines.last_mut() {
                last.behind.clear();
            }
        }
        NewlineInside => spoil_newline(random, lines),
        PieceBehind => {
            let pieces: [&[u8]; 7] = [b" ", b"\r", b"\0", b"EndKernPairs", b"KPX A V -1", b"A;V;-1", b"x"];
            lines.push(Line { behind: Vec::new(), ..Line::new(&[*random.pick(&pieces)], b"") });
        }
        _ => {
            let more = match random.below(4) {
                0 => vec![Line::blank()],
                1 => vec![Line::new(&[b"EndKernPairs"], b"")],
                2 => other_way(random, if way == Way::Import { Way::Export } else { Way::Import }),
                _ => other_way(random, way),
            };
            lines.extend(more);
        }
    }
}

/// A newline less between two lines, or one more between or within fields.
fn spoil_newline(random: &mut Random, lines: &mut [Line]) {
    let Some(line) = any_line(random, lines) else { return };
    let place = random.below(line.fields.len().max(1));
    match random.below(4) {
        0 => line.behind = random.pick(&[&b""[..], b" ", b"\r"]).to_vec(),
        1 => line.behind = b"\n\n".to_vec(),
        2 if place < line.gaps.len() => line.gaps[place] = b"\n".to_vec(),
        _ if place < line.fields.len() => {
            let within = random.below(line.fields[place].len() + 1);
            line.fields[place].insert(within, b'\n');
        }
        _ => line.before = b"\n".to_vec(),
    }
}

/// Flaws of whole lines.
fn spoil_order(random: &mut Random, lines: &mut Vec<Line>, flaw: Flaw) {
    if flaw == BlankLine || lines.is_empty() {
        let place = place_in(random, lines.len() + 1);
        return lines.insert(place, Line::blank());
    }
    let place = place_in(random, lines.len());
    match flaw {
        LineDoubled => lines.insert(place, lines[place].clone()),
        LineDropped => drop(lines.remove(place)),
        _ => {
            let other = place_in(random, lines.len());
            lines.swap(place, other);
        }
    }
}

/// Flaws of a section's first and last line and of its keywords.
fn spoil_section(random: &mut Random, lines: &mut Vec<Line>, flaw: Flaw) {
    match flaw {
        Keyword => spoil_keyword(random, lines),
        EndMissing => drop(lines.pop()),
        _ => {
            let pairs = lines.iter().filter(|line| line.fields.len() == 4).count();
            let Some(count) = lines.first_mut().and_then(|line| line.fields.get_mut(1)) else { return };
            *count = wrong_count(random, pairs, flaw).into_bytes();
        }
    }
}

fn wrong_count(random: &mut Random, pairs: usize, flaw: Flaw) -> String {
    const FORMS: [&str; 14] = [
        "65536",
        "65537",
        "99999",
        "100000",
        "00",
        "-0",
        "-1",
        "+1",
        "+0",
        "",
        "1.0",
        "x",
        "18446744073709551616",
        "0x0",
    ];
    let near = if pairs > 0 && random.once_in(2) { pairs - 1 } else { pairs + 1 };
    match flaw {
        CountByOne => near.to_string(),
        CountOther => match random.below(5) {
            0 => "65535".to_string(),
            1 => (pairs + 256).to_string(),
            2 => (pairs * 10).to_string(),
            3 => "0".to_string(),
            _ => random.below(65_536).to_string(),
        },
        _ => match random.below(6) {
            0 => format!("0{pairs}"),
            1 => format!("-{pairs}"),
            2 => format!("+{pairs}"),
            3 => (pairs + 65_536).to_string(),
            _ => random.pick(&FORMS).to_string(),
        },
    }
}

/// The first field of a line, cut, lengthened, in other letters or another keyword.
fn spoil_keyword(random: &mut Random, lines: &mut [Line]) {
    let Some(field) = any_line(random, lines).and_then(|line| line.fields.first_mut()) else { return };
    let others = match &field[..] {
        b"KPX" => ["KPY", "KP", "KPXX"],
        b"EndKernPairs" => ["EndKernPair", "EndKernData", "EndKernPairss"],
        _ => ["StartKernPair", "StartKernPairs0", "StartKernPairss"],
    };
    let place = random.below(field.len().max(1));
    match random.below(4) {
        0 => drop(field.pop()),
        1 => {
            if let Some(letter) = field.get_mut(place) {
                *letter ^= 0x20;
            }
        }
        _ => *field = random.pick(&others).as_bytes().to_vec(),
    }
}
