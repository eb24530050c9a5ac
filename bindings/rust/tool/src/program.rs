//! A program from a file, as a table or as text.

use noontrough_assembler::sets::Pair;
use noontrough_assembler::{assemble, show, Assembled, Parts};

use crate::failure::Failure;
use crate::files::{self, Place, MOST};
use crate::words::{grouped, quote_name};

pub struct Program {
    pub place: Place,
    pub table: Vec<u8>,
    /// Where the nodes come from. Those of a table are told as `show` would name
    /// them; nothing if its sizes are wrong.
    pub assembled: Option<Assembled>,
    is_text: bool,
}

/// No table of right sizes is a text, since its second byte, the high byte of
/// the pool's length, is at most 2. `sheet` tells them apart in the same way, and
/// that it does so rightly is proved (`crates/meanings/specs/Texts.antt`).
pub fn is_text(bytes: &[u8]) -> bool {
    bytes.iter().all(|byte| matches!(byte, b'\t' | b'\n' | b'\r' | b' '..))
}

pub fn load(place: &Place) -> Result<Program, Failure> {
    let bytes = files::read(place)?;
    if bytes.len() > MOST {
        return Err(Failure::Trouble(format!("noontrough: {} has over {} bytes", place.name(), grouped(MOST))));
    }
    let place = place.clone();
    if is_text(&bytes) {
        // Some editors put a mark before a text in UTF-8.
        let text = bytes.strip_prefix(b"\xEF\xBB\xBF").unwrap_or(&bytes);
        let assembled = assemble(text).map_err(|mistake| Failure::Refused(format!("{}:{mistake}", place.name())))?;
        return Ok(Program { place, table: assembled.table.clone(), assembled: Some(assembled), is_text: true });
    }
    let assembled = show(&bytes).ok().and_then(|text| assemble(text.as_bytes()).ok());
    Ok(Program { place, table: bytes, assembled, is_text: false })
}

impl Program {
    pub fn is_text(&self) -> bool {
        self.is_text
    }

    /// Where a message about a node points to.
    pub fn place_of(&self, node: usize) -> String {
        let file = self.place.name();
        match self.assembled.as_ref().and_then(|assembled| assembled.origins.get(node)) {
            Some(origin) if self.is_text => format!("{file}:{}:{}", origin.line, origin.column),
            _ => format!("{file}: node {node}"),
        }
    }

    /// The line of the text that made a node.
    pub fn line_of(&self, node: usize) -> Option<usize> {
        let origins = self.assembled.as_ref().filter(|_| self.is_text).map(|assembled| &assembled.origins);
        origins.and_then(|origins| origins.get(node)).map(|origin| origin.line)
    }

    /// How a message calls a node: by its name, or by the words that made it.
    pub fn name_of(&self, node: usize) -> String {
        let origin = self.assembled.as_ref().and_then(|assembled| assembled.origins.get(node));
        origin.map_or_else(|| format!("node {node}"), |origin| quote_name(&origin.words))
    }

    /// The kind and the operands of a node.
    pub fn record(&self, node: usize) -> Option<(u8, [usize; 3])> {
        let (kind, operands) = Parts::of(&self.table).ok()?.record(node)?;
        Some((kind, operands.map(usize::from)))
    }

    /// The text of a word node.
    pub fn word(&self, node: usize) -> Option<&[u8]> {
        let parts = Parts::of(&self.table).ok()?;
        let (_, operands) = parts.record(node)?;
        parts.word(operands)
    }

    /// The pairs of a set node, if they lie in the pool.
    pub fn pairs(&self, node: usize) -> Option<Vec<Pair>> {
        let parts = Parts::of(&self.table).ok()?;
        let (_, operands) = parts.record(node)?;
        parts.pairs(operands)
    }
}
