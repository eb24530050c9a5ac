//! From the table's bytes to text.
//!
//! Node 5 is called `n5`. The pool and the places of words and sets are printed only
//! if assembling would not find them by itself. The pairs of a set are shown as they
//! lie in the pool. A node that is not of its kind's form (an unknown kind, a child
//! that is not lower, a word outside the pool, a set with a reversed pair, an unused
//! operand that is not 0) is printed as `raw` with its four bytes, so that every
//! table whose sizes are right comes back byte for byte.

use std::fmt;

use crate::draft::{MAX_NODES, MAX_POOL};
use crate::kinds::{by_byte, Shape};
use crate::line::{quote_byte, quote_text};
use crate::sets::{quote_set, Pair};

const POOL_BYTES_A_LINE: usize = 48;

/// The sizes of the bytes are not those of a table.
#[derive(Clone, Debug, PartialEq, Eq)]
pub struct WrongSizes(pub String);

impl fmt::Display for WrongSizes {
    fn fmt(&self, f: &mut fmt::Formatter<'_>) -> fmt::Result {
        write!(f, "these bytes are no table: {} (the engine refuses them with 1)", self.0)
    }
}

/// The text of a table.
pub fn show(table: &[u8]) -> Result<String, WrongSizes> {
    let parts = Parts::of(table).map_err(WrongSizes)?;
    let nodes: Vec<Shown> = (0..parts.kinds.len()).map(|number| parts.node(number)).collect();
    let nodes_suffice = parts.pool_of_nodes(&nodes).is_some_and(|pool| pool == parts.pool);

    let mut text = format!("# nodes: {}, pool bytes: {}\n", parts.kinds.len(), parts.pool.len());
    if !nodes_suffice {
        for part in parts.pool.chunks(POOL_BYTES_A_LINE) {
            text += &format!("pool {}\n", quote_text(part));
        }
    }
    let width = format!("n{}", nodes.len() - 1).len();
    for (number, node) in nodes.iter().enumerate() {
        let name = format!("n{number}");
        let definition = match node {
            Shown::InPool { start, bytes, definition }
                if !nodes_suffice && first_place(parts.pool, bytes) != Some(*start) =>
            {
                format!("{definition} at {start}")
            }
            Shown::InPool { definition, .. } | Shown::Other(definition) => definition.clone(),
        };
        text += &format!("{name:width$} = {definition}\n");
    }
    Ok(text)
}

enum Shown<'a> {
    /// A word or a set, and its part of the pool.
    InPool {
        start: usize,
        bytes: &'a [u8],
        definition: String,
    },
    Other(String),
}

/// The arrays of a table whose sizes are right.
pub struct Parts<'a> {
    pub kinds: &'a [u8],
    pub operands: &'a [u8],
    pool: &'a [u8],
}

impl<'a> Parts<'a> {
    /// The kind and the operands of a node.
    pub fn record(&self, node: usize) -> Option<(u8, [u8; 3])> {
        let operands = self.operands.get(3 * node..3 * node + 3)?;
        Some((*self.kinds.get(node)?, operands.try_into().ok()?))
    }

    /// The text of a word with these operands, if it lies in the pool.
    pub fn word(&self, [high, low, length]: [u8; 3]) -> Option<&'a [u8]> {
        self.pool.get(start_of(high, low)..)?.get(..usize::from(length))
    }

    /// The pairs of a set with these operands, if they lie in the pool.
    pub fn pairs(&self, operands: [u8; 3]) -> Option<Vec<Pair>> {
        let bytes = self.pairs_in_pool(operands)?;
        Some(bytes.chunks(2).map(|ends| (ends[0], ends[1])).collect())
    }

    fn pairs_in_pool(&self, [high, low, count]: [u8; 3]) -> Option<&'a [u8]> {
        self.pool.get(start_of(high, low)..)?.get(..2 * usize::from(count))
    }

    /// Or a sentence that says which size is wrong.
    pub fn of(table: &'a [u8]) -> Result<Parts<'a>, String> {
        let (sizes, rest) = match table {
            [count, high, low, rest @ ..] => {
                ([usize::from(*count), usize::from(*high) * 256 + usize::from(*low)], rest)
            }
            _ => return Err("a table has at least three bytes".to_string()),
        };
        let [count, pool_length] = sizes;
        if !(1..=MAX_NODES).contains(&count) {
            return Err(format!("the first byte says {count} nodes, and 1 to {MAX_NODES} are possible"));
        }
        if pool_length > MAX_POOL {
            return Err(format!("the second and third byte say a pool of {pool_length}, and {MAX_POOL} is the most"));
        }
        let expected = 3 + 4 * count + pool_length;
        if table.len() != expected {
            return Err(format!("the first three bytes ask for {expected} bytes, and there are {}", table.len()));
        }
        let (kinds, rest) = rest.split_at(count);
        let (operands, pool) = rest.split_at(3 * count);
        Ok(Parts { kinds, operands, pool })
    }

    fn node(&self, number: usize) -> Shown<'a> {
        let kind = self.kinds[number];
        let record = &self.operands[3 * number..3 * number + 3];
        let (a, b, c) = (record[0], record[1], record[2]);
        let raw = |why: &str| Shown::Other(format!("raw {kind} {a} {b} {c}  # {why}"));
        let Some(form) = by_byte(kind) else {
            return raw("an unknown kind");
        };
        if matches!(form.shape, Shape::Word | Shape::Set) {
            return self.in_pool(form.shape, [a, b, c]).unwrap_or_else(raw);
        }
        if form.shape == Shape::Range {
            let range = format!("range {} {}", quote_byte(a), quote_byte(b));
            return if c == 0 { Shown::Other(range) } else { raw("an unused operand of a range is not 0") };
        }
        let (children, unused) = record.split_at(form.shape.children());
        if children.iter().any(|&child| usize::from(child) >= number) {
            return raw("a child that is not lower");
        }
        if unused.iter().any(|&byte| byte != 0) {
            return raw("an unused operand is not 0");
        }
        let names: String = children.iter().map(|child| format!(" n{child}")).collect();
        Shown::Other(format!("{}{names}", form.words))
    }

    /// A word or a set, or why it can't be shown as one.
    fn in_pool(&self, shape: Shape, operands: [u8; 3]) -> Result<Shown<'a>, &'static str> {
        let start = start_of(operands[0], operands[1]);
        if shape == Shape::Word {
            let bytes = self.word(operands).ok_or("a word outside the pool")?;
            return Ok(Shown::InPool { start, bytes, definition: format!("word {}", quote_text(bytes)) });
        }
        let (bytes, pairs) = self.pairs_in_pool(operands).zip(self.pairs(operands)).ok_or("a set outside the pool")?;
        if pairs.is_empty() {
            return Err("a set of no pairs");
        }
        if pairs.iter().any(|(first, last)| first > last) {
            return Err("a set with a reversed pair");
        }
        Ok(Shown::InPool { start, bytes, definition: format!("set {}", quote_set(&pairs)) })
    }

    /// The pool that words and sets alone would make, if each came to its own place.
    fn pool_of_nodes(&self, nodes: &[Shown]) -> Option<Vec<u8>> {
        let mut pool = Vec::new();
        for node in nodes {
            if let Shown::InPool { start, bytes, .. } = node {
                let place = first_place(&pool, bytes).unwrap_or_else(|| {
                    pool.extend(*bytes);
                    pool.len() - bytes.len()
                });
                if place != *start {
                    return None;
                }
            }
        }
        Some(pool)
    }
}

fn start_of(high: u8, low: u8) -> usize {
    usize::from(high) * 256 + usize::from(low)
}

/// Where a pool first holds a text.
fn first_place(pool: &[u8], text: &[u8]) -> Option<usize> {
    (0..=pool.len()).find(|&start| pool[start..].starts_with(text))
}
