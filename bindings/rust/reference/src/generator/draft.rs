//! Tables in the writing: nodes are added one by one, lowest first.
//!
//! A draft writes what it is told and tests nothing, so that wrong tables can
//! be written too.

use crate::class::Pair;
use crate::table::{kind, MAX_POOL};

/// A node number as it stands in an operand.
pub type NodeNumber = u8;

#[derive(Clone, Debug, Default)]
pub struct Draft {
    pub kinds: Vec<u8>,
    pub operands: Vec<[u8; 3]>,
    pub pool: Vec<u8>,
}

impl Draft {
    pub fn new() -> Draft {
        Draft::default()
    }

    pub fn len(&self) -> usize {
        self.kinds.len()
    }

    pub fn is_empty(&self) -> bool {
        self.kinds.is_empty()
    }

    /// The table as it stands; the last node is the root.
    pub fn table(&self) -> Vec<u8> {
        let pool_length = self.pool.len();
        let mut bytes = vec![self.len() as u8, (pool_length / 256) as u8, (pool_length % 256) as u8];
        bytes.extend_from_slice(&self.kinds);
        bytes.extend(self.operands.iter().flatten());
        bytes.extend_from_slice(&self.pool);
        bytes
    }

    pub fn add(&mut self, kind: u8, operands: [u8; 3]) -> NodeNumber {
        self.kinds.push(kind);
        self.operands.push(operands);
        (self.len() - 1) as NodeNumber
    }

    /// Drops all nodes from this number on.
    pub fn truncate(&mut self, count: usize) {
        self.kinds.truncate(count);
        self.operands.truncate(count);
    }

    /// A word whose text is put into the pool, or found there if it stands in
    /// it already. A text that no longer fits the pool becomes the empty word.
    pub fn word(&mut self, text: &[u8]) -> NodeNumber {
        let (start, length) = self.place(text).map_or((0, 0), |start| (start, text.len()));
        self.add(kind::WORD, [(start / 256) as u8, (start % 256) as u8, length as u8])
    }

    /// Where a text stands in the pool, if it is there or still fits.
    fn place(&mut self, text: &[u8]) -> Option<usize> {
        let found = (0..self.pool.len()).find(|&start| self.pool[start..].starts_with(text));
        let fits = self.pool.len() + text.len() <= MAX_POOL;
        found.or_else(|| {
            fits.then(|| {
                self.pool.extend_from_slice(text);
                self.pool.len() - text.len()
            })
        })
    }

    /// A set whose pairs are put into the pool or found there, as a word's text is.
    /// If they no longer fit the pool, the first pair becomes a range.
    pub fn set(&mut self, pairs: &[Pair]) -> NodeNumber {
        let text: Vec<u8> = pairs.iter().flat_map(|&(first, last)| [first, last]).collect();
        match self.place(&text) {
            Some(start) => self.set_at(start, pairs.len()),
            None => self.range(pairs[0].0, pairs[0].1),
        }
    }

    /// A set of so many pairs that begin at this place of the pool.
    pub fn set_at(&mut self, start: usize, count: usize) -> NodeNumber {
        self.add(kind::SET, [(start / 256) as u8, (start % 256) as u8, count as u8])
    }

    pub fn range(&mut self, first: u8, last: u8) -> NodeNumber {
        self.add(kind::RANGE, [first, last, 0])
    }

    pub fn pattern_join(&mut self, a: NodeNumber, b: NodeNumber) -> NodeNumber {
        self.add(kind::PATTERN_JOIN, [a, b, 0])
    }

    pub fn pattern_union(&mut self, a: NodeNumber, b: NodeNumber) -> NodeNumber {
        self.add(kind::PATTERN_UNION, [a, b, 0])
    }

    pub fn pattern_repeat(&mut self, a: NodeNumber) -> NodeNumber {
        self.add(kind::PATTERN_REPEAT, [a, 0, 0])
    }

    /// One or more texts of a pattern.
    pub fn pattern_some(&mut self, a: NodeNumber) -> NodeNumber {
        let more = self.pattern_repeat(a);
        self.pattern_join(a, more)
    }

    pub fn copy(&mut self, a: NodeNumber) -> NodeNumber {
        self.add(kind::COPY, [a, 0, 0])
    }

    pub fn constant(&mut self, pattern: NodeNumber, sheet: NodeNumber, default: NodeNumber) -> NodeNumber {
        self.add(kind::CONST, [pattern, sheet, default])
    }

    /// Any text of the pattern in the source, nothing in the sheet.
    pub fn delete(&mut self, pattern: NodeNumber, default: &[u8]) -> NodeNumber {
        let nothing = self.word(b"");
        let default = self.word(default);
        self.constant(pattern, nothing, default)
    }

    /// Two words that stand for each other.
    pub fn replace(&mut self, source: &[u8], sheet: &[u8]) -> NodeNumber {
        let source = self.word(source);
        let sheet = self.word(sheet);
        self.constant(source, sheet, source)
    }

    pub fn copy_word(&mut self, text: &[u8]) -> NodeNumber {
        let word = self.word(text);
        self.copy(word)
    }

    pub fn key(&mut self, a: NodeNumber) -> NodeNumber {
        self.add(kind::KEY, [a, 0, 0])
    }

    pub fn lens_join(&mut self, a: NodeNumber, b: NodeNumber) -> NodeNumber {
        self.add(kind::LENS_JOIN, [a, b, 0])
    }

    /// Several lenses in a row, joined from the right.
    pub fn lens_row(&mut self, row: &[NodeNumber]) -> NodeNumber {
        let (&last, before) = row.split_last().expect("a row has at least one lens");
        before.iter().rev().fold(last, |joined, &lens| self.lens_join(lens, joined))
    }

    pub fn lens_union(&mut self, a: NodeNumber, b: NodeNumber) -> NodeNumber {
        self.add(kind::LENS_UNION, [a, b, 0])
    }

    pub fn lens_repeat(&mut self, a: NodeNumber) -> NodeNumber {
        self.add(kind::LENS_REPEAT, [a, 0, 0])
    }

    pub fn matched(&mut self, a: NodeNumber) -> NodeNumber {
        self.add(kind::MATCH, [a, 0, 0])
    }

    pub fn is_pattern(&self, node: NodeNumber) -> bool {
        self.kinds[usize::from(node)] <= kind::SET
    }

    pub fn patterns(&self) -> Vec<NodeNumber> {
        (0..self.len() as NodeNumber).filter(|&node| self.is_pattern(node)).collect()
    }

    pub fn lenses(&self) -> Vec<NodeNumber> {
        (0..self.len() as NodeNumber).filter(|&node| !self.is_pattern(node)).collect()
    }
}
