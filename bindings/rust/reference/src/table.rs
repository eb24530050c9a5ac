//! Program tables: from bytes to nodes, with the refusals 1 to 5 and the test
//! that the root is a lens.
//!
//! A table is the node count N (one byte), the pool length P (two bytes, high
//! byte first), N kind bytes, N operand records of three bytes, and P pool
//! bytes. Nodes are read lowest first, and a node's children have lower
//! numbers, so all that is known of a child is at hand when its parent is read.

use crate::answer::*;
use crate::class::{Class, Pair};

pub const MAX_NODES: usize = 96;
pub const MAX_POOL: usize = 512;
pub const MAX_WORD: usize = 64;
pub const MAX_PAIRS: usize = 32;
pub const MAX_SIZE: usize = 512;
pub const MAX_POSITIONS: usize = 128;

/// The bytes before the kind bytes: N and P.
pub const HEADER: usize = 3;

/// The two texts that a lens relates.
#[derive(Clone, Copy, Debug, PartialEq, Eq)]
pub enum Side {
    Source,
    Sheet,
}

pub const SIDES: [Side; 2] = [Side::Source, Side::Sheet];

/// A node with its operands. Children are node numbers.
#[derive(Clone, Debug, PartialEq, Eq)]
pub enum Node {
    Word(Vec<u8>),
    /// One byte of this class: a range or a set.
    Class(Class),
    PatternJoin(usize, usize),
    PatternUnion(usize, usize),
    PatternRepeat(usize),
    Copy(usize),
    Const {
        pattern: usize,
        sheet: usize,
        default: usize,
    },
    Key(usize),
    LensJoin(usize, usize),
    LensUnion(usize, usize),
    LensRepeat(usize),
    Match(usize),
}

/// The kind bytes.
pub mod kind {
    pub const WORD: u8 = 0;
    pub const RANGE: u8 = 1;
    pub const PATTERN_JOIN: u8 = 2;
    pub const PATTERN_UNION: u8 = 3;
    pub const PATTERN_REPEAT: u8 = 4;
    pub const SET: u8 = 5;
    pub const COPY: u8 = 16;
    pub const CONST: u8 = 17;
    pub const KEY: u8 = 18;
    pub const LENS_JOIN: u8 = 19;
    pub const LENS_UNION: u8 = 20;
    pub const LENS_REPEAT: u8 = 21;
    pub const MATCH: u8 = 22;

    pub const ALL: [u8; 13] = [
        WORD,
        RANGE,
        PATTERN_JOIN,
        PATTERN_UNION,
        PATTERN_REPEAT,
        SET,
        COPY,
        CONST,
        KEY,
        LENS_JOIN,
        LENS_UNION,
        LENS_REPEAT,
        MATCH,
    ];
}

impl Node {
    pub fn is_lens(&self) -> bool {
        use Node::*;
        match self {
            Word(_) | Class(_) | PatternJoin(..) | PatternUnion(..) | PatternRepeat(_) => false,
            Copy(_) | Const { .. } | Key(_) | LensJoin(..) | LensUnion(..) | LensRepeat(_) | Match(_) => true,
        }
    }

    /// Every child, once for each operand that names it.
    pub fn children(&self) -> Vec<usize> {
        use Node::*;
        match *self {
            Word(_) | Class(_) => vec![],
            PatternRepeat(a) | Copy(a) | Key(a) | LensRepeat(a) | Match(a) => vec![a],
            PatternJoin(a, b) | PatternUnion(a, b) | LensJoin(a, b) | LensUnion(a, b) => vec![a, b],
            Const { pattern, sheet, default } => vec![pattern, sheet, default],
        }
    }
}

/// What the limits speak of, worked out for one node from its children's.
#[derive(Clone, Copy, Debug, PartialEq, Eq)]
pub struct Measure {
    /// Written-out size: shared children count each time.
    pub size: usize,
    pub source_positions: usize,
    pub sheet_positions: usize,
    pub holds_match: bool,
}

/// A table that passed the first round and whose root is a lens.
#[derive(Clone, Debug)]
pub struct Table {
    pub nodes: Vec<Node>,
    pub measures: Vec<Measure>,
}

impl Table {
    pub fn read(bytes: &[u8]) -> Result<Table, Refusal> {
        let layout = Layout::of(bytes).ok_or(Refusal::of_call(SIZES_WRONG))?;
        let table = layout.first_round()?;
        if !table.nodes[table.root()].is_lens() {
            return Err(Refusal::at(BAD_OPERAND, table.root()));
        }
        Ok(table)
    }

    pub fn root(&self) -> usize {
        self.nodes.len() - 1
    }

    /// The text of a word node.
    pub fn word(&self, node: usize) -> &[u8] {
        match &self.nodes[node] {
            Node::Word(text) => text,
            other => unreachable!("the first round lets only words stand here, not {other:?}"),
        }
    }

    fn measure(&self, node: &Node) -> Measure {
        let below: Vec<Measure> = node.children().iter().map(|&child| self.measures[child]).collect();
        let total = |part: fn(&Measure) -> usize| below.iter().map(part).sum::<usize>();
        let (source_positions, sheet_positions) = match node {
            Node::Word(text) => (text.len(), text.len()),
            Node::Class(_) => (1, 1),
            // The default counts on neither side.
            Node::Const { .. } => (below[0].source_positions, below[1].sheet_positions),
            _ => (total(|m| m.source_positions), total(|m| m.sheet_positions)),
        };
        Measure {
            size: 1 + total(|m| m.size),
            source_positions,
            sheet_positions,
            holds_match: matches!(node, Node::Match(_)) || below.iter().any(|m| m.holds_match),
        }
    }

    /// The lines 4 and 5 of the first round, for a node whose operands are right.
    fn admit(&mut self, node: Node) -> Result<(), u8> {
        if let Node::Match(child) = node {
            if self.measures[child].holds_match {
                return Err(MATCH_IN_MATCH);
            }
        }
        let measure = self.measure(&node);
        if measure.size > MAX_SIZE
            || measure.source_positions > MAX_POSITIONS
            || measure.sheet_positions > MAX_POSITIONS
        {
            return Err(LIMIT_PASSED);
        }
        self.nodes.push(node);
        self.measures.push(measure);
        Ok(())
    }
}

/// The three arrays of a table whose sizes are right.
pub(crate) struct Layout<'a> {
    pub(crate) kinds: &'a [u8],
    operands: &'a [u8],
    pub(crate) pool: &'a [u8],
}

impl<'a> Layout<'a> {
    pub(crate) fn of(bytes: &'a [u8]) -> Option<Layout<'a>> {
        if bytes.len() < HEADER {
            return None;
        }
        let count = usize::from(bytes[0]);
        let pool_length = usize::from(bytes[1]) * 256 + usize::from(bytes[2]);
        let in_limits = (1..=MAX_NODES).contains(&count) && pool_length <= MAX_POOL;
        if !in_limits || bytes.len() != HEADER + 4 * count + pool_length {
            return None;
        }
        let (kinds, rest) = bytes[HEADER..].split_at(count);
        let (operands, pool) = rest.split_at(3 * count);
        Some(Layout { kinds, operands, pool })
    }

    fn first_round(&self) -> Result<Table, Refusal> {
        let mut table = Table { nodes: Vec::new(), measures: Vec::new() };
        for (number, &kind) in self.kinds.iter().enumerate() {
            let refuse = |refusal| Refusal::at(refusal, number);
            if !kind::ALL.contains(&kind) {
                return Err(refuse(UNKNOWN_KIND));
            }
            let node = self.node(kind, number, &table.nodes).ok_or(refuse(BAD_OPERAND))?;
            table.admit(node).map_err(refuse)?;
        }
        Ok(table)
    }

    /// The node of a known kind, or nothing if an operand breaks a rule.
    fn node(&self, kind: u8, number: usize, below: &[Node]) -> Option<Node> {
        let record = self.record(number);
        if record[used_operands(kind)..].iter().any(|&unused| unused != 0) {
            return None;
        }
        let [a, b, c] = record;
        // Only nodes below this one are in `below`, so an operand that is not
        // lower finds nothing.
        let child = |operand: u8, fits: fn(&Node) -> bool| {
            below.get(usize::from(operand)).filter(|node| fits(node)).map(|_| usize::from(operand))
        };
        let pattern = |operand| child(operand, |node| !node.is_lens());
        let lens = |operand| child(operand, Node::is_lens);
        let word = |operand| child(operand, |node| matches!(node, Node::Word(_)));
        let node = match kind {
            kind::WORD => Node::Word(self.word(record)?),
            kind::RANGE => class_of(vec![(a, b)])?,
            kind::PATTERN_JOIN => Node::PatternJoin(pattern(a)?, pattern(b)?),
            kind::PATTERN_UNION => Node::PatternUnion(pattern(a)?, pattern(b)?),
            kind::PATTERN_REPEAT => Node::PatternRepeat(pattern(a)?),
            kind::SET => class_of(self.pairs(record)?)?,
            kind::COPY => Node::Copy(pattern(a)?),
            kind::CONST => Node::Const { pattern: pattern(a)?, sheet: word(b)?, default: word(c)? },
            kind::KEY => Node::Key(pattern(a)?),
            kind::LENS_JOIN => Node::LensJoin(lens(a)?, lens(b)?),
            kind::LENS_UNION => Node::LensUnion(lens(a)?, lens(b)?),
            kind::LENS_REPEAT => Node::LensRepeat(lens(a)?),
            kind::MATCH => Node::Match(lens(a)?),
            _ => unreachable!("unknown kinds were refused before"),
        };
        Some(node)
    }

    /// The three operand bytes of a node.
    pub(crate) fn record(&self, number: usize) -> [u8; 3] {
        std::array::from_fn(|operand| self.operands[3 * number + operand])
    }

    fn word(&self, [high, low, length]: [u8; 3]) -> Option<Vec<u8>> {
        let length = usize::from(length);
        if length > MAX_WORD {
            return None;
        }
        self.part(high, low, length).map(<[u8]>::to_vec)
    }

    /// The pairs of a set with these operands, if there are as many as allowed and
    /// all of them lie in the pool. One may still be reversed.
    pub(crate) fn pairs(&self, [high, low, count]: [u8; 3]) -> Option<Vec<Pair>> {
        let count = usize::from(count);
        if !(1..=MAX_PAIRS).contains(&count) {
            return None;
        }
        let part = self.part(high, low, 2 * count)?;
        Some(part.chunks(2).map(|ends| (ends[0], ends[1])).collect())
    }

    fn part(&self, high: u8, low: u8, length: usize) -> Option<&'a [u8]> {
        let start = usize::from(high) * 256 + usize::from(low);
        self.pool.get(start..start + length)
    }
}

/// How many of a node's three operands its kind uses; the others are 0.
fn used_operands(kind: u8) -> usize {
    match kind {
        kind::PATTERN_REPEAT | kind::COPY | kind::KEY | kind::LENS_REPEAT | kind::MATCH => 1,
        kind::RANGE | kind::PATTERN_JOIN | kind::PATTERN_UNION | kind::LENS_JOIN | kind::LENS_UNION => 2,
        _ => 3,
    }
}

/// The class of some pairs, if none of them is reversed.
fn class_of(pairs: Vec<Pair>) -> Option<Node> {
    pairs.iter().all(|(first, last)| first <= last).then(|| Node::Class(Class::of_pairs(pairs)))
}
