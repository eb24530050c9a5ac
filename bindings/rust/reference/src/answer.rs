//! What a call answers: the length of its result, or a refusal with its node. A
//! put that gives a result says too what became of the entries, and a clash which
//! rule is broken where.

/// The length of the result (for check: the number of nodes), or a refusal.
pub type Answer = Result<usize, Refusal>;

/// The length and the tally of a put's result, or a refusal.
pub type PutAnswer = Result<Put, Refusal>;

/// What clash answers: what it shows, nothing if no clash exists, or a refusal.
pub type ClashAnswer = Result<Option<Shown>, Refusal>;

/// The rule that a text breaks.
#[derive(Clone, Copy, Debug, PartialEq, Eq)]
pub struct Shown {
    /// The rule's number and node, as check gives them: 7 to 11.
    pub rule: Refusal,
    /// The length of the text, which stands at the start of the buffer.
    pub length: usize,
    /// Its two smallest ends; for a union the numbers of its children.
    pub numbers: [usize; 2],
}

/// A put's result.
#[derive(Clone, Copy, Debug, PartialEq, Eq)]
pub struct Put {
    pub length: usize,
    pub tally: Tally,
}

/// What became of the entries in a put.
#[derive(Clone, Copy, Debug, Default, PartialEq, Eq)]
pub struct Tally {
    /// Entries of the sheet that took an old entry.
    pub kept: usize,
    /// Entries of the sheet that took none.
    pub made: usize,
    /// Old entries left unused.
    pub dropped: usize,
}

/// A numbered refusal and the node it concerns.
#[derive(Clone, Copy, Debug, PartialEq, Eq, Hash, PartialOrd, Ord)]
pub struct Refusal {
    pub number: u8,
    pub node: u8,
}

impl Refusal {
    /// A refusal at a node. Nodes are numbered below 96, so a byte holds them.
    pub fn at(number: u8, node: usize) -> Refusal {
        Refusal { number, node: node as u8 }
    }

    /// A refusal that concerns no node of its own; such ones say node 0.
    pub fn of_call(number: u8) -> Refusal {
        Refusal { number, node: 0 }
    }
}

/// Node count, pool length or total length wrong.
pub const SIZES_WRONG: u8 = 1;
/// Unknown kind.
pub const UNKNOWN_KIND: u8 = 2;
/// An operand breaks a rule, a child is of the wrong sort, or the root is no lens.
pub const BAD_OPERAND: u8 = 3;
/// A match whose child holds a match.
pub const MATCH_IN_MATCH: u8 = 4;
/// A size or position limit passed.
pub const LIMIT_PASSED: u8 = 5;
/// A const's default is not in its pattern.
pub const BAD_DEFAULT: u8 = 6;
/// A join cut two ways in the source.
pub const SOURCE_JOIN_AMBIGUOUS: u8 = 7;
/// A join cut two ways in the sheet.
pub const SHEET_JOIN_AMBIGUOUS: u8 = 8;
/// The sources of a union's arms overlap.
pub const UNION_OVERLAPS: u8 = 9;
/// A repeat fails in the source: empty part, or two cuts.
pub const SOURCE_REPEAT_AMBIGUOUS: u8 = 10;
/// A repeat fails in the sheet: empty part, or two cuts.
pub const SHEET_REPEAT_AMBIGUOUS: u8 = 11;
/// Source or sheet over 4,096 bytes.
pub const TEXT_TOO_LONG: u8 = 12;
/// Not a source of the program.
pub const NOT_A_SOURCE: u8 = 13;
/// Not a sheet of the program.
pub const NOT_A_SHEET: u8 = 14;
/// The old source has over 256 entries.
pub const TOO_MANY_ENTRIES: u8 = 15;
/// The result is longer than the buffer or than 4,096 bytes.
pub const RESULT_TOO_LONG: u8 = 16;
/// The text that shows a clash is longer than the buffer.
pub const CLASH_TOO_LONG: u8 = 17;
/// A line of a section or of a sheet is not of its form; the node is its number, from 1.
pub const BAD_LINE: u8 = 18;
/// The count of a section is not the number of its pairs.
pub const WRONG_COUNT: u8 = 19;
