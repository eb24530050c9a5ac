//! How far a text could be read, and what could have followed: for the refusals
//! 13 and 14.

use noontrough_reference::reach::Reach;
use noontrough_reference::table::Side;
use noontrough_reference::Program as Reading;

use crate::program::Program;
use crate::refusals::Text;
use crate::words::{list, readable, runs_in_words};

/// How many bytes before and behind the place are shown.
const AROUND: usize = 28;

pub fn told(program: &Program, side: Side, text: &Text) -> Option<String> {
    let reading = Reading::read(&program.table).ok()?;
    let reach = reading.reach(side, &text.bytes)?;
    let other = if side == Side::Source { Side::Sheet } else { Side::Source };
    let is_other = reading.fits(reading.root(), other, &text.bytes);
    let wants_newline = reading.fits(reading.root(), side, &[&text.bytes[..], b"\n"].concat());
    let hint = match (is_other, wants_newline) {
        (true, _) => Some(swapped(side)),
        (_, true) => Some("The file has lost its last newline."),
        _ => hint(&text.bytes, &reach),
    };
    let hint = hint.map_or_else(String::new, |hint| format!("\n{hint}"));
    Some(format!("{}{hint}", stop(text, &reach)))
}

fn swapped(side: Side) -> &'static str {
    match side {
        Side::Source => "This is a sheet of the program, and no source: the files may be in the wrong order.",
        Side::Sheet => "This is a source of the program, and no sheet: the files may be in the wrong order.",
    }
}

/// The place, the line there with a mark under the byte, and what could follow.
fn stop(text: &Text, reach: &Reach) -> String {
    let bytes = &text.bytes;
    let (line, column) = line_and_column(bytes, reach.place);
    let (before, behind) = around(bytes, reach.place);
    let start = format!("{}:{line}:{column}: '{before}", text.name);
    let stops = if reach.place == bytes.len() { "end" } else { "go on" };
    let mark = " ".repeat(start.chars().count());
    format!("{start}{behind}' cannot {stops} here; {}\n{mark}^", could(reach))
}

/// Both from 1; columns count bytes.
pub fn line_and_column(bytes: &[u8], place: usize) -> (usize, usize) {
    let before = &bytes[..place];
    let line = 1 + before.iter().filter(|&&byte| byte == b'\n').count();
    let start = before.iter().rposition(|&byte| byte == b'\n').map_or(0, |newline| newline + 1);
    (line, place - start + 1)
}

/// What stands before a place and behind it in the same line, of a long line as
/// much as is needed to find it.
fn around(bytes: &[u8], place: usize) -> (String, String) {
    let (before, behind) = bytes.split_at(place);
    let start = before.iter().rposition(|&byte| byte == b'\n').map_or(0, |newline| newline + 1);
    // A newline that can't be read is shown, since it is the byte in question.
    let end = behind.iter().position(|&byte| byte == b'\n').map_or(behind.len(), |end| end.max(1));
    let shown_from = start.max(place.saturating_sub(AROUND));
    let shown_to = end.min(AROUND);
    let first = if shown_from > start { "..." } else { "" };
    let last = if shown_to < end { "..." } else { "" };
    (format!("{first}{}", readable(&before[shown_from..])), format!("{}{last}", readable(&behind[..shown_to])))
}

fn could(reach: &Reach) -> String {
    let ways = list(&runs_in_words(&reach.could_follow), "or");
    match (ways.is_empty(), reach.could_end) {
        (false, false) => format!("{ways} could"),
        (false, true) => format!("{ways} could, or the end of the text"),
        (true, _) => "only the end of the text could".to_string(),
    }
}

/// The usual reasons, which are hard to see in an editor.
fn hint(bytes: &[u8], reach: &Reach) -> Option<&'static str> {
    match &bytes[reach.place..] {
        [0xEF, 0xBB, 0xBF, ..] if reach.place == 0 => {
            Some("The file begins with a byte order mark, which the program does not foresee: save it without one.")
        }
        [b'\r', b'\n', ..] => {
            Some("This line ends in CR LF, which the program does not foresee: save the file with LF.")
        }
        [b'\r', ..] => Some("This line ends in CR, which the program does not foresee: save the file with LF."),
        [b'\n'] if reach.could_end => Some("The newline at the end of the file is one byte too many."),
        _ => None,
    }
}
