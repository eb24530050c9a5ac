//! How far texts can be read, against what a byte leaves of a pattern: worked
//! out on the table's nodes, with no automaton.

mod common;

use std::collections::BTreeSet;

use common::program_k;
use noontrough_reference::generator::draft::Draft;
use noontrough_reference::generator::programs::accepted;
use noontrough_reference::generator::random::Random;
use noontrough_reference::generator::small::small_check;
use noontrough_reference::generator::texts::{draw, garbage};
use noontrough_reference::reach::Reach;
use noontrough_reference::table::{Node, Side, Table, SIDES};
use noontrough_reference::Program;

/// Something still to be read: a node's text, or the end of a word.
#[derive(Clone, PartialEq, Eq, PartialOrd, Ord)]
enum Piece {
    Node(usize),
    WordEnd(Vec<u8>),
}

/// All that is still to be read, piece by piece.
type Row = Vec<Piece>;

/// The languages of a table on one side.
struct Languages<'a> {
    table: &'a Table,
    side: Side,
}

impl Languages<'_> {
    fn can_be_empty(&self, piece: &Piece) -> bool {
        let of = |node| self.can_be_empty(&Piece::Node(node));
        let node = match piece {
            Piece::WordEnd(bytes) => return bytes.is_empty(),
            Piece::Node(node) => *node,
        };
        match self.table.nodes[node] {
            Node::Word(ref text) => text.is_empty(),
            Node::Class(_) => false,
            Node::PatternJoin(a, b) | Node::LensJoin(a, b) => of(a) && of(b),
            Node::PatternUnion(a, b) | Node::LensUnion(a, b) => of(a) || of(b),
            Node::PatternRepeat(_) | Node::LensRepeat(_) => true,
            Node::Copy(a) | Node::Key(a) | Node::Match(a) => of(a),
            Node::Const { pattern, sheet, .. } => of(if self.side == Side::Source { pattern } else { sheet }),
        }
    }

    /// What may be left of a piece when its text begins with the byte.
    fn after(&self, piece: &Piece, byte: u8) -> Vec<Row> {
        let of = |node| self.after(&Piece::Node(node), byte);
        let node = match piece {
            Piece::WordEnd(bytes) => return after_word(bytes, byte),
            Piece::Node(node) => *node,
        };
        match self.table.nodes[node] {
            Node::Word(ref text) => after_word(text, byte),
            Node::Class(class) => class.has(byte).then(Row::new).into_iter().collect(),
            Node::PatternJoin(a, b) | Node::LensJoin(a, b) => self.after_row(&[Piece::Node(a), Piece::Node(b)], byte),
            Node::PatternUnion(a, b) | Node::LensUnion(a, b) => [of(a), of(b)].concat(),
            Node::PatternRepeat(a) | Node::LensRepeat(a) => followed_by(of(a), &[Piece::Node(node)]),
            Node::Copy(a) | Node::Key(a) | Node::Match(a) => of(a),
            Node::Const { pattern, sheet, .. } => of(if self.side == Side::Source { pattern } else { sheet }),
        }
    }

    fn after_row(&self, row: &[Piece], byte: u8) -> Vec<Row> {
        let Some((first, behind)) = row.split_first() else { return Vec::new() };
        let mut rows = followed_by(self.after(first, byte), behind);
        if self.can_be_empty(first) {
            rows.extend(self.after_row(behind, byte));
        }
        rows
    }

    fn after_rows(&self, rows: &BTreeSet<Row>, byte: u8) -> BTreeSet<Row> {
        rows.iter().flat_map(|row| self.after_row(row, byte)).collect()
    }

    /// No language is empty, so a text begins with some bytes exactly if they
    /// leave a row to be read.
    fn reach(&self, text: &[u8]) -> Option<Reach> {
        let mut rows = BTreeSet::from([vec![Piece::Node(self.table.root())]]);
        let mut place = 0;
        for &byte in text {
            let left = self.after_rows(&rows, byte);
            if left.is_empty() {
                break;
            }
            rows = left;
            place += 1;
        }
        let could_end = rows.iter().any(|row| row.iter().all(|piece| self.can_be_empty(piece)));
        let bytes = (0..=255).filter(|&byte| !self.after_rows(&rows, byte).is_empty());
        let fits = could_end && place == text.len();
        (!fits).then(|| Reach { place, could_follow: runs_of(bytes), could_end })
    }
}

fn after_word(word: &[u8], byte: u8) -> Vec<Row> {
    match word.split_first() {
        Some((&first, rest)) if first == byte => vec![vec![Piece::WordEnd(rest.to_vec())]],
        _ => Vec::new(),
    }
}

fn followed_by(rows: Vec<Row>, behind: &[Piece]) -> Vec<Row> {
    rows.into_iter().map(|row| [&row[..], behind].concat()).collect()
}

/// Bytes that come lowest first, each run of neighbours as its two ends.
fn runs_of(bytes: impl Iterator<Item = u8>) -> Vec<(u8, u8)> {
    let mut runs: Vec<(u8, u8)> = Vec::new();
    for byte in bytes {
        match runs.last_mut() {
            Some((_, last)) if byte - *last == 1 => *last = byte,
            _ => runs.push((byte, byte)),
        }
    }
    runs
}

fn reach(table: &[u8], side: Side, text: &[u8]) -> Option<Reach> {
    Program::read(table).expect("accepted").reach(side, text)
}

fn reaches(place: usize, could_follow: &[(u8, u8)], could_end: bool) -> Option<Reach> {
    Some(Reach { place, could_follow: could_follow.to_vec(), could_end })
}

const CAPITALS: (u8, u8) = (b'A', b'Z');
const DIGITS: (u8, u8) = (b'0', b'9');
const SEMICOLON: (u8, u8) = (b';', b';');

#[test]
fn sources_of_k() {
    let source = |text: &[u8]| reach(&program_k(), Side::Source, text);
    for legal in [b"".as_slice(), b"Z;", b"AB1;C22;"] {
        assert_eq!(source(legal), None);
    }
    assert_eq!(source(b"[;"), reaches(0, &[CAPITALS], true), "the empty text is a source");
    assert_eq!(source(b"@;"), reaches(0, &[CAPITALS], true));
    assert_eq!(source(b"AB"), reaches(2, &[DIGITS, SEMICOLON, CAPITALS], false), "a text that stops too early");
    assert_eq!(source(b"AB:"), reaches(2, &[DIGITS, SEMICOLON, CAPITALS], false));
    assert_eq!(source(b"AB1C;"), reaches(3, &[DIGITS, SEMICOLON], false));
    assert_eq!(source(b"AB1;;"), reaches(4, &[CAPITALS], true));
    assert_eq!(source(b"AB1;C22;D"), reaches(9, &[DIGITS, SEMICOLON, CAPITALS], false));
}

#[test]
fn sheets_of_k() {
    let sheet = |text: &[u8]| reach(&program_k(), Side::Sheet, text);
    assert_eq!(sheet(b"AB;C;"), None);
    assert_eq!(sheet(b"AB1;"), reaches(2, &[SEMICOLON, CAPITALS], false));
    assert_eq!(sheet(b"AB;1"), reaches(3, &[CAPITALS], true));
}

#[test]
fn runs_of_bytes_do_not_touch() {
    // Neighbours, one inside another, and the last byte of all.
    let ranges = [(b'd', b'f'), (b'a', b'c'), (b'h', b'm'), (b'i', b'j'), (b'k', b'p'), (250, 255), (255, 255)];
    let mut draft = Draft::new();
    let classes = ranges.map(|(first, last)| draft.range(first, last));
    let any = classes.into_iter().reduce(|row, class| draft.pattern_union(row, class)).expect("not none");
    draft.copy(any);
    let runs = [(b'a', b'f'), (b'h', b'p'), (250, 255)];
    assert_eq!(reach(&draft.table(), Side::Source, b"g"), reaches(0, &runs, false));
    assert_eq!(reach(&draft.table(), Side::Source, b""), reaches(0, &runs, false));
    assert_eq!(reach(&draft.table(), Side::Source, b"aa"), reaches(1, &[], true), "nothing could follow");
}

#[test]
fn the_place_is_that_of_the_longest_way() {
    // One arm reads on where the other ends, and dies later than it.
    let mut draft = Draft::new();
    let (short, long) = (draft.copy_word(b"ab"), draft.copy_word(b"abcde"));
    draft.lens_union(short, long);
    let source = |text: &[u8]| reach(&draft.table(), Side::Source, text);
    assert_eq!(source(b"abcdx"), reaches(4, &[(b'e', b'e')], false));
    assert_eq!(source(b"abx"), reaches(2, &[(b'c', b'c')], true));
    assert_eq!(source(b"abc"), reaches(3, &[(b'd', b'd')], false));
}

/// A legal text, one cut short, one that goes on, or one with a slip in it.
fn any_text(random: &mut Random, program: &Program, side: Side) -> Vec<u8> {
    let mut text = draw(random, program.table(), program.root(), side, 3, 12);
    match random.below(6) {
        0 => text.truncate(random.below(text.len() + 1)),
        1 => text.extend(draw(random, program.table(), program.root(), side, 1, 4)),
        2..=4 => text = garbage(random, &text),
        _ => {}
    }
    text
}

#[test]
fn texts_reach_as_far_as_the_patterns_allow() {
    let mut random = Random::new(21);
    let [mut legal, mut early, mut whole, mut could_end, mut nothing_follows, mut several] = [0; 6];
    for _ in 0..900 {
        let small = random.once_in(2);
        let table = if small { small_check(&mut random, None).table } else { accepted(&mut random).table() };
        let program = Program::read(&table).expect("accepted");
        for side in SIDES.into_iter().cycle().take(12) {
            let text = any_text(&mut random, &program, side);
            let found = program.reach(side, &text);
            let expected = Languages { table: program.table(), side }.reach(&text);
            assert_eq!(found, expected, "{side:?} {text:?} of {table:?}");
            let Some(reach) = found else {
                legal += 1;
                continue;
            };
            *(if reach.place < text.len() { &mut early } else { &mut whole }) += 1;
            could_end += usize::from(reach.could_end);
            nothing_follows += usize::from(reach.could_follow.is_empty());
            several += usize::from(reach.could_follow.len() > 1);
        }
    }
    println!("{legal} legal; {early} stopped early, {whole} at their end; {could_end} could have ended there");
    println!("{nothing_follows} with nothing to follow, {several} with several runs");
    assert!([legal, early, whole, could_end, nothing_follows, several].into_iter().all(|count| count > 300));
}
