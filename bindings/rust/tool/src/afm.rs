//! Adobe's metrics in and out, and what is told where a text is refused.

use noontrough::afm::{self, Refusal};

use crate::failure::Failure;
use crate::lines::{self, Kind};
use crate::refusals::{length_in_words, Text};
use crate::words::grouped;

/// The sheet of a section.
pub fn import(section: &Text) -> Result<Vec<u8>, Failure> {
    afm::import(&section.bytes).map_err(|refusal| refused(Kind::Section, section, refusal))
}

/// The section of a sheet.
pub fn export(sheet: &Text) -> Result<Vec<u8>, Failure> {
    afm::export(&sheet.bytes).map_err(|refusal| refused(Kind::Sheet, sheet, refusal))
}

fn refused(kind: Kind, text: &Text, refusal: Refusal) -> Failure {
    let Text { name, bytes } = text;
    let place = match refusal.number {
        12 => format!("{name}: {}", length_in_words(bytes)),
        16 => format!("the result would have {} bytes", grouped(section_length(bytes))),
        18 => format!("{name}: line {}: {}", refusal.node, lines::told(kind, bytes, refusal.node as usize)),
        _ => format!("{name}: {}", lines::counts(bytes)),
    };
    Failure::Refused(format!("noontrough: {refusal}\n{place}"))
}

/// How long the section of a sheet would be: the sheet, four bytes more for each pair,
/// and the first and the last line.
fn section_length(sheet: &[u8]) -> usize {
    let pairs = sheet.iter().filter(|&&byte| byte == b'\n').count();
    sheet.len() + 4 * pairs + format!("StartKernPairs {pairs}\nEndKernPairs\n").len()
}
