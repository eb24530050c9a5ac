//! What a put did to the entries.

use std::fmt;

/// How many entries a put kept, made and dropped. An entry is a text that a match
/// reads, also an empty one.
///
/// Kept and dropped together are the entries of the old source, at most 256; kept
/// and made together are those of the new one, which can be 524,288. Shown, it is a
/// line: `kept 1 made 1 dropped 1`.
#[derive(Clone, Copy, Debug, Default, PartialEq, Eq, Hash)]
pub struct Tally {
    /// The sheet's entries that took an old entry.
    pub kept: usize,
    /// The sheet's entries that took none.
    pub made: usize,
    /// The old entries left unused.
    pub dropped: usize,
}

impl fmt::Display for Tally {
    fn fmt(&self, f: &mut fmt::Formatter<'_>) -> fmt::Result {
        write!(f, "kept {} made {} dropped {}", self.kept, self.made, self.dropped)
    }
}
