//! What is told of a refusal: its number, its node and its sentence, and then
//! where it comes from.

use noontrough::sentence;
use noontrough_assembler::line::quote_byte;
use noontrough_reference::table::Side;
use noontrough_reference::Program as Reading;

use crate::program::{is_text, Program};
use crate::texts::line_and_column;
use crate::words::grouped;
use crate::{programs, texts};

pub struct Text {
    /// How messages call the file.
    pub name: String,
    pub bytes: Vec<u8>,
}

/// The texts of a call.
#[derive(Default)]
pub struct Texts {
    pub sheet: Option<Text>,
    pub source: Option<Text>,
}

impl Texts {
    pub fn sheet(&self) -> &[u8] {
        self.sheet.as_ref().map_or(&[], |text| &text.bytes)
    }

    pub fn source(&self) -> &[u8] {
        self.source.as_ref().map_or(&[], |text| &text.bytes)
    }
}

/// The lines for standard error, without the last newline.
pub fn told(program: &Program, given: &Texts, number: u64, node: u64) -> String {
    let sentence = sentence(number).unwrap_or("This refusal is not known.");
    let first = format!("noontrough: refused {number} {node}: {sentence}");
    let place = match number {
        1 => wrong_sizes(program),
        2..=11 => programs::told(program, number, node as usize),
        12 => too_long(given),
        13 => given.source.as_ref().and_then(|source| texts::told(program, Side::Source, source)),
        14 => given.sheet.as_ref().and_then(|sheet| texts::told(program, Side::Sheet, sheet)),
        15 => given.source.as_ref().and_then(|source| many_entries(program, source)),
        16 => long_result(program, given),
        _ => None,
    };
    place.map_or(first.clone(), |place| format!("{first}\n{place}"))
}

/// Why a file is no table; nothing if its sizes are right. If no table can begin
/// as it does, it is most likely a text with a byte that no text has.
pub fn wrong_sizes(program: &Program) -> Option<String> {
    let name = program.place.name();
    let table = &program.table;
    let wrong = noontrough_assembler::show(table).err()?.0;
    match table[..] {
        [0xFF, 0xFE, ..] | [0xFE, 0xFF, ..] => {
            Some(format!("{name}: this looks like a text in UTF-16; save it as UTF-8"))
        }
        [_, 3..=255, ..] => {
            let place = table.iter().position(|byte| !is_text(&[*byte])).unwrap_or(0);
            let (line, column) = line_and_column(table, place);
            let byte = quote_byte(table[place]);
            Some(format!("{name}:{line}:{column}: no table begins like this file, and a program's text has no {byte}"))
        }
        _ => Some(format!("{name}: {wrong}")),
    }
}

fn too_long(given: &Texts) -> Option<String> {
    let texts = [&given.sheet, &given.source];
    let long = texts.into_iter().flatten().filter(|text| text.bytes.len() > noontrough::MAX_TEXT);
    let lines: Vec<String> = long.map(|text| format!("{}: {}", text.name, length_in_words(&text.bytes))).collect();
    Some(lines.join("\n"))
}

pub fn length_in_words(bytes: &[u8]) -> String {
    match bytes.len() {
        length if length > crate::files::MOST => format!("over {} bytes", grouped(crate::files::MOST)),
        length => format!("{} bytes", grouped(length)),
    }
}

fn many_entries(program: &Program, source: &Text) -> Option<String> {
    let count = Reading::read(&program.table).ok()?.count_entries(&source.bytes);
    Some(format!("{}: {} entries", source.name, grouped(count)))
}

/// How long the result would be, which the engine does not say.
fn long_result(program: &Program, given: &Texts) -> Option<String> {
    let reading = Reading::read(&program.table).ok()?;
    let result = match (&given.sheet, &given.source) {
        (Some(sheet), Some(source)) => reading.put(&sheet.bytes, &source.bytes).source,
        (Some(sheet), None) => reading.create(&sheet.bytes),
        (None, Some(source)) => reading.get(&source.bytes),
        (None, None) => return None,
    };
    Some(format!("the result would have {} bytes", grouped(result.len())))
}
