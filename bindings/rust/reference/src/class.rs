//! Sets of bytes: what may stand at one position of a text.
//!
//! A word has a class of one byte at each of its positions, a range the class of
//! one pair, kind 5 the class of several. Which bytes lie in a class, and whether
//! two classes share one, is told here and nowhere else.

/// A first and a last byte, both included.
pub type Pair = (u8, u8);

const WORD_BITS: usize = u64::BITS as usize;

/// A set of bytes, one bit for each.
#[derive(Clone, Copy, Debug, Default, PartialEq, Eq)]
pub struct Class {
    words: [u64; 256 / WORD_BITS],
}

impl Class {
    /// The bytes of all pairs together: in any order, and however they overlap.
    pub fn of_pairs(pairs: impl IntoIterator<Item = Pair>) -> Class {
        let mut class = Class::default();
        for (first, last) in pairs {
            (first..=last).for_each(|byte| class.insert(byte));
        }
        class
    }

    pub fn of_byte(byte: u8) -> Class {
        Class::of_pairs([(byte, byte)])
    }

    fn insert(&mut self, byte: u8) {
        self.words[usize::from(byte) / WORD_BITS] |= 1 << (usize::from(byte) % WORD_BITS);
    }

    pub fn has(&self, byte: u8) -> bool {
        self.words[usize::from(byte) / WORD_BITS] >> (usize::from(byte) % WORD_BITS) & 1 == 1
    }

    pub fn is_empty(&self) -> bool {
        self.words.iter().all(|&word| word == 0)
    }

    /// The bytes that lie in both classes.
    pub fn shared(&self, other: &Class) -> Class {
        Class { words: std::array::from_fn(|index| self.words[index] & other.words[index]) }
    }

    /// The bytes that lie in one of the classes or in both.
    pub fn joined(&self, other: &Class) -> Class {
        Class { words: std::array::from_fn(|index| self.words[index] | other.words[index]) }
    }

    /// Whether some byte lies in both classes.
    pub fn meets(&self, other: &Class) -> bool {
        !self.shared(other).is_empty()
    }

    /// The bytes, lowest first.
    pub fn bytes(&self) -> impl Iterator<Item = u8> + '_ {
        (0..=255).filter(|&byte| self.has(byte))
    }

    /// The lowest byte, if there is one.
    pub fn lowest(&self) -> Option<u8> {
        let word = self.words.iter().position(|&word| word != 0)?;
        Some((word * WORD_BITS + self.words[word].trailing_zeros() as usize) as u8)
    }

    /// The fewest pairs that make this class, lowest first; no two touch.
    pub fn runs(&self) -> Vec<Pair> {
        let mut runs: Vec<Pair> = Vec::new();
        for byte in self.bytes() {
            match runs.last_mut() {
                // The run so far is lower than this byte, so it has a next one.
                Some((_, last)) if *last + 1 == byte => *last = byte,
                _ => runs.push((byte, byte)),
            }
        }
        runs
    }
}
