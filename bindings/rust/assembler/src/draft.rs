//! A table in the making: its nodes, its pool, and which nodes may serve twice.

use std::collections::HashMap;

use crate::kinds::{KEY, SET, WORD};

pub const MAX_NODES: usize = 96;
pub const MAX_POOL: usize = 512;
pub const MAX_PAIRS: usize = 32;

/// A node's kind and operands. Numbers of nodes are wider here than a byte, so
/// that a program with too many nodes can be counted to its end.
#[derive(Clone, Copy, Debug, PartialEq, Eq, Hash)]
pub struct Node {
    pub kind: u8,
    pub operands: [usize; 3],
}

/// What a definition wants a node for.
#[derive(Clone, Copy, Debug, PartialEq, Eq)]
pub enum Role {
    /// The definition's name stands for it.
    Named,
    /// A match stands over it.
    Entry,
    /// Anything else that is written as a part of its own.
    Beside,
    /// It holds together a part of a row, a set or a suffix.
    Inner,
}

impl Role {
    /// Whether an equal node above does as well. The node of a name is always a
    /// new one: the line is there to make it. Of the others patterns, copies,
    /// consts and keys are shared, since they do the same wherever they stand.
    /// But entries are found by key and by the node under the match, so two
    /// matches with one child share their entries. Whoever writes such a child
    /// out twice does not ask for that: therefore other lenses are never shared,
    /// and neither is what is written right under a match.
    fn is_shared(self, kind: u8) -> bool {
        matches!(self, Role::Beside | Role::Inner) && kind <= KEY
    }
}

#[derive(Default)]
pub struct Draft {
    pub nodes: Vec<Node>,
    pool: Vec<u8>,
    /// The first node of each kind and operands that no name stands for: a message
    /// that calls a part by the name of some other line would only confuse.
    firsts: HashMap<Node, usize>,
    /// The first word node of each text, named or not.
    words: HashMap<Vec<u8>, usize>,
}

impl Draft {
    /// The bytes of the table; there are no more than [`MAX_NODES`] nodes.
    pub fn table(&self) -> Vec<u8> {
        let [high, low] = (self.pool.len() as u16).to_be_bytes();
        let mut table = vec![self.nodes.len() as u8, high, low];
        table.extend(self.nodes.iter().map(|node| node.kind));
        table.extend(self.nodes.iter().flat_map(|node| node.operands).map(|operand| operand as u8));
        table.extend(&self.pool);
        table
    }

    /// A node above that serves in this role.
    pub fn shared(&self, role: Role, node: &Node) -> Option<usize> {
        self.firsts.get(node).copied().filter(|_| role.is_shared(node.kind))
    }

    pub fn shared_word(&self, role: Role, text: &[u8]) -> Option<usize> {
        self.words.get(text).copied().filter(|_| role.is_shared(WORD))
    }

    pub fn add(&mut self, role: Role, node: Node) -> usize {
        let number = self.nodes.len();
        self.nodes.push(node);
        if role != Role::Named {
            self.firsts.entry(node).or_insert(number);
        }
        number
    }

    pub fn remember_word(&mut self, text: &[u8], number: usize) {
        self.words.entry(text.to_vec()).or_insert(number);
    }

    /// The node of a word that lies at a place of the pool.
    pub fn word(start: usize, text: &[u8]) -> Result<Node, String> {
        if text.len() > usize::from(u8::MAX) {
            return Err("a word has at most 64 bytes".to_string());
        }
        Ok(Node { kind: WORD, operands: [start / 256, start % 256, text.len()] })
    }

    /// The node of a set with so many pairs that lie at a place of the pool.
    pub fn set(start: usize, pairs: usize) -> Result<Node, String> {
        if pairs > usize::from(u8::MAX) {
            return Err(format!("a set has at most {MAX_PAIRS} pairs"));
        }
        Ok(Node { kind: SET, operands: [start / 256, start % 256, pairs] })
    }

    pub fn pool_holds(&self, start: usize, text: &[u8]) -> bool {
        self.pool.get(start..).is_some_and(|rest| rest.starts_with(text))
    }

    /// Where the pool holds a text; it is added if it is not there.
    pub fn place(&mut self, text: &[u8]) -> Result<usize, String> {
        let found = (0..=self.pool.len()).find(|&start| self.pool_holds(start, text));
        found.map_or_else(|| self.append(text), Ok)
    }

    pub fn append(&mut self, text: &[u8]) -> Result<usize, String> {
        let start = self.pool.len();
        if start + text.len() > MAX_POOL {
            return Err(format!("the pool would have more than {MAX_POOL} bytes"));
        }
        self.pool.extend(text);
        Ok(start)
    }
}
