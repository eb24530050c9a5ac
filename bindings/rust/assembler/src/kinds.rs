//! The kinds of nodes: the byte and the words for each, and what stands behind
//! the words.

/// What a kind's operands are.
#[derive(Clone, Copy, Debug, PartialEq, Eq)]
pub enum Shape {
    /// A text, which goes into the pool.
    Word,
    /// A first and a last byte.
    Range,
    /// Pairs of a first and a last byte, which go into the pool.
    Set,
    /// So many child nodes.
    Children(usize),
    /// Two child nodes; in the text also more, which are nested from the right.
    Row,
}

impl Shape {
    /// How many operands of a node are child nodes.
    pub fn children(self) -> usize {
        match self {
            Shape::Word | Shape::Range | Shape::Set => 0,
            Shape::Children(count) => count,
            Shape::Row => 2,
        }
    }
}

/// What a child must be.
#[derive(Clone, Copy, Debug, PartialEq, Eq)]
pub enum Sort {
    Pattern,
    /// A pattern that is a single text.
    Word,
    Lens,
}

#[derive(Clone, Copy, Debug)]
pub struct Kind {
    pub byte: u8,
    /// The words in the text; patterns and lenses are told apart by them.
    pub words: &'static str,
    pub shape: Shape,
    /// What the operands are, for messages.
    pub takes: &'static str,
}

pub const WORD: u8 = 0;
pub const RANGE: u8 = 1;
pub const JOIN: u8 = 2;
pub const UNION: u8 = 3;
pub const REPEAT: u8 = 4;
pub const SET: u8 = 5;
pub const COPY: u8 = 16;
pub const CONST: u8 = 17;
pub const KEY: u8 = 18;
pub const LENS_JOIN: u8 = 19;
pub const LENS_UNION: u8 = 20;
pub const LENS_REPEAT: u8 = 21;
pub const MATCH: u8 = 22;

pub const KINDS: [Kind; 13] = [
    kind(WORD, "word", Shape::Word, "a text in quotes"),
    kind(RANGE, "range", Shape::Range, "a first and a last byte, such as 'A' 'Z' or 65 90"),
    kind(JOIN, "join", Shape::Row, "two or more patterns"),
    kind(UNION, "union", Shape::Row, "two or more patterns"),
    kind(REPEAT, "repeat", Shape::Children(1), "one pattern"),
    kind(SET, "set", Shape::Set, "bytes and ranges of bytes in brackets, such as [A-Za-z]"),
    kind(COPY, "copy", Shape::Children(1), "one pattern"),
    kind(CONST, "const", Shape::Children(3), "a pattern, a word for the sheet and a word for the default"),
    kind(KEY, "key", Shape::Children(1), "one pattern"),
    kind(LENS_JOIN, "lens join", Shape::Row, "two or more lenses"),
    kind(LENS_UNION, "lens union", Shape::Row, "two or more lenses"),
    kind(LENS_REPEAT, "lens repeat", Shape::Children(1), "one lens"),
    kind(MATCH, "match", Shape::Children(1), "one lens"),
];

impl Kind {
    /// What each child must be.
    pub fn sorts(&self) -> &'static [Sort] {
        use Sort::*;
        match self.byte {
            JOIN | UNION => &[Pattern, Pattern],
            REPEAT | COPY | KEY => &[Pattern],
            CONST => &[Pattern, Word, Word],
            LENS_JOIN | LENS_UNION => &[Lens, Lens],
            LENS_REPEAT | MATCH => &[Lens],
            _ => &[],
        }
    }

    /// How many of the three operands are used.
    pub fn operands(&self) -> usize {
        match self.shape {
            Shape::Word | Shape::Set => 3,
            Shape::Range => 2,
            Shape::Children(_) | Shape::Row => self.shape.children(),
        }
    }
}

const fn kind(byte: u8, words: &'static str, shape: Shape, takes: &'static str) -> Kind {
    Kind { byte, words, shape, takes }
}

pub fn by_byte(byte: u8) -> Option<&'static Kind> {
    KINDS.iter().find(|kind| kind.byte == byte)
}

pub fn by_words(words: &str) -> Option<&'static Kind> {
    KINDS.iter().find(|kind| kind.words == words)
}

/// Whether an expression can begin with this word.
pub fn is_kind_word(word: &str) -> bool {
    matches!(word, "lens" | "raw") || by_words(word).is_some()
}

/// All kinds, for messages.
pub fn kind_words() -> String {
    let words: Vec<&str> = KINDS.iter().map(|kind| kind.words).collect();
    words.join(", ")
}

/// The kinds of patterns and of lenses lie apart.
pub fn is_lens(byte: u8) -> bool {
    byte >= COPY
}
