//! Kerning of Adobe's metrics (AFM) as sheet lines, and sheet lines as such kerning.
//!
//! A *section* is the kerning of an AFM file, from the line `StartKernPairs` with its
//! count to the line `EndKernPairs`; between them stands a line `KPX left right value`
//! for each pair. The *sheet* has the lines `left;right;value`. Every line of both ends
//! in a newline. No lens program is needed for either way, and next to no stack, so
//! these calls are always made where they stand.
//!
//! ```
//! use noontrough::afm::{export, import, Refusal};
//!
//! let section = b"StartKernPairs 2\nKPX A  V   -80\nKPX T comma -110\nEndKernPairs\n";
//! let sheet = import(section).unwrap();
//! assert_eq!(sheet, b"A;V;-80\nT;comma;-110\n");
//!
//! // The same pairs in the same order, with one space between the words of a line.
//! assert_eq!(export(&sheet).unwrap(), b"StartKernPairs 2\nKPX A V -80\nKPX T comma -110\nEndKernPairs\n");
//!
//! // The second line of this sheet has no value.
//! assert_eq!(export(b"A;V;-80\nT;comma\n"), Err(Refusal { number: 18, node: 2 }));
//! ```

use std::error::Error;
use std::fmt;

use crate::{Answer, Numbers};

/// The longest section and the longest sheet, each also as a result. A buffer of this
/// length is long enough for every result.
pub const MAX_TEXT: usize = 65_535;

/// Why there is no result: 12, 16, 18 or 19, and for 18 the number of the line,
/// counted from 1. Else the node is 0. Shown, it is a line: its numbers and its
/// [`sentence`].
#[derive(Clone, Copy, Debug, PartialEq, Eq, Hash)]
pub struct Refusal {
    pub number: u64,
    pub node: u64,
}

impl fmt::Display for Refusal {
    fn fmt(&self, f: &mut fmt::Formatter<'_>) -> fmt::Result {
        let sentence = sentence(self.number).unwrap_or("This refusal is not known.");
        write!(f, "refused {} {}: {sentence}", self.number, self.node)
    }
}

impl Error for Refusal {}

/// Gives the sheet of a section: a line for each pair, in their order.
///
/// Refused with 12 if the section is longer than [`MAX_TEXT`], then with 18 at the
/// first line not of its form, then with 19 if the count is not the number of pairs.
/// A line that is missing, one without a newline at its end and one behind
/// `EndKernPairs` are not of their form either.
pub fn import(section: &[u8]) -> Result<Vec<u8>, Refusal> {
    given(|out| import_into(section, out))
}

/// Gives the section of a sheet: a `KPX` line for each of its lines, in their order.
///
/// Refused with 12 if the sheet is longer than [`MAX_TEXT`], then with 18 at the first
/// line not of its form, then with 16 if the section would be longer than [`MAX_TEXT`].
/// It is longer than the sheet: by 29 bytes, 4 for each line and 1 for each digit of
/// the count.
pub fn export(sheet: &[u8]) -> Result<Vec<u8>, Refusal> {
    given(|out| export_into(sheet, out))
}

/// The text that a call gives, in room that is enough for every one.
fn given(call: impl FnOnce(&mut [u8]) -> Answer) -> Result<Vec<u8>, Refusal> {
    let mut out = vec![0; MAX_TEXT];
    match call(&mut out) {
        Answer::Result { length } => {
            out.truncate(length);
            Ok(out)
        }
        Answer::Refusal { number, node } => Err(Refusal { number, node }),
    }
}

#[rustfmt::skip]
extern "C" {
    fn noontrough_afm_import(
        section: *const u8, section_len: usize,
        out: *mut u8, out_len: usize,
    ) -> Numbers;

    fn noontrough_afm_export(
        sheet: *const u8, sheet_len: usize,
        out: *mut u8, out_len: usize,
    ) -> Numbers;
}

// For both: the pointers come from slices, so they are not null, their bytes can be
// read, and `out`, lent alone, overlaps none of the others. The engine keeps none of
// them.

/// [`import`] into a lent buffer. It is also refused with 16, after all else, if the
/// sheet is longer than the buffer; one of the section's length is never too short.
pub fn import_into(section: &[u8], out: &mut [u8]) -> Answer {
    // SAFETY: as said above.
    unsafe { noontrough_afm_import(section.as_ptr(), section.len(), out.as_mut_ptr(), out.len()) }.into()
}

/// [`export`] into a lent buffer. It is also refused with 16 if the section is longer
/// than the buffer.
pub fn export_into(sheet: &[u8], out: &mut [u8]) -> Answer {
    // SAFETY: as said above.
    unsafe { noontrough_afm_export(sheet.as_ptr(), sheet.len(), out.as_mut_ptr(), out.len()) }.into()
}

/// The sentence of a refusal of these calls, without a newline. Texts may be longer
/// here than with a program, so 12 and 16 have words of their own; those of 18 and 19
/// are the same as by [`crate::sentence`].
pub fn sentence(number: u64) -> Option<&'static str> {
    match number {
        12 => Some(TEXT_TOO_LONG),
        16 => Some(RESULT_TOO_LONG),
        18 | 19 => crate::sentence(number),
        _ => None,
    }
}

const TEXT_TOO_LONG: &str =
    "The section or the sheet is longer than 65,535 bytes: divide it between two lines, and give each section its own count.";
const RESULT_TOO_LONG: &str =
    "The result would be longer than 65,535 bytes: divide the sheet between two lines, and export each part.";
