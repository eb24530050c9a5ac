//! Why a program is refused with 7 to 11: a text that breaks the rule.

/// What a clash answers.
#[derive(Clone, Copy, Debug, PartialEq, Eq)]
pub enum ClashAnswer<'a> {
    /// The program is accepted, so no text breaks a rule. The buffer is as it was.
    NoClash,
    /// The program is refused with 7 to 11, and this is why.
    Clash(Clash<'a>),
    /// A refusal from 1 to 6, as check gives it, or 17, if the text is longer than
    /// the buffer, and the node it concerns (0 if it concerns none). The buffer is
    /// as it was.
    Refusal { number: u64, node: u64 },
}

impl<'a> ClashAnswer<'a> {
    /// The clash, if there is one and it is shown.
    pub fn clash(self) -> Option<Clash<'a>> {
        match self {
            ClashAnswer::Clash(clash) => Some(clash),
            ClashAnswer::NoClash | ClashAnswer::Refusal { .. } => None,
        }
    }
}

/// A shortest text that breaks a typing rule, the lowest in byte order among the
/// shortest.
#[derive(Clone, Copy, Debug, PartialEq, Eq)]
pub struct Clash<'a> {
    /// The rule, 7 to 11, and the node that breaks it: those of check.
    pub number: u64,
    pub node: u64,
    /// It stands at the start of the buffer that was lent, and the bytes behind it
    /// are as they were.
    pub text: &'a [u8],
    pub ways: Ways,
}

impl Clash<'_> {
    /// Whether the text is one of the source (7, 9 and 10) or one of the sheet (8
    /// and 11).
    pub fn is_in_source(&self) -> bool {
        !matches!(self.number, 8 | 11)
    }
}

/// Two ways to read the text of a clash.
#[derive(Clone, Copy, Debug, PartialEq, Eq)]
pub enum Ways {
    /// Where the first half of a join, or the first part of a repeat, can end: the
    /// two smallest ends over all cuts of the text, counted from its beginning.
    /// Both are 0 where a part of a repeat can be empty; the text is empty then.
    Ends(usize, usize),
    /// The two children of a union, whose sources the text is one of, in the order
    /// of its operands.
    Arms(u64, u64),
}

/// The answer as the engine gives it.
#[repr(C)]
pub(crate) struct ClashNumbers {
    outcome: u64,
    number: u64,
    node: u64,
    length: u64,
    first: u64,
    second: u64,
}

impl ClashNumbers {
    /// The answer, with the text in the buffer that was lent for it.
    pub(crate) fn with_text(self, out: &[u8]) -> ClashAnswer<'_> {
        let ClashNumbers { outcome, number, node, length, first, second } = self;
        match outcome {
            0 => ClashAnswer::NoClash,
            1 => {
                // The text fits the buffer, and ends lie in it, so each is a usize.
                let ways = match number {
                    9 => Ways::Arms(first, second),
                    _ => Ways::Ends(first as usize, second as usize),
                };
                ClashAnswer::Clash(Clash { number, node, text: &out[..length as usize], ways })
            }
            _ => ClashAnswer::Refusal { number, node },
        }
    }
}
