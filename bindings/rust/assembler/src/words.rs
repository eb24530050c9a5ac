//! The text's own words for a part of it, short enough for a message.

use crate::line::Placed;
use crate::syntax::Times;

const MOST_BYTES: usize = 40;

/// The tokens as they are written, with one blank wherever something stands
/// between two: blanks, a comment or a line's end.
pub fn words(tokens: &[Placed]) -> String {
    let mut found = String::new();
    for (place, token) in tokens.iter().enumerate() {
        if place > 0 && !tokens[place - 1].touches(token) {
            found.push(' ');
        }
        found += &printable(token.written);
        if found.len() > MOST_BYTES {
            return cut(&found);
        }
    }
    found
}

/// Quotes and sets can hold any bytes, and not all are fit for a terminal.
fn printable(written: &[u8]) -> String {
    let shown = |letter: char| {
        if letter.is_control() {
            letter.escape_default().to_string()
        } else {
            letter.to_string()
        }
    };
    String::from_utf8_lossy(written).chars().map(shown).collect()
}

fn cut(words: &str) -> String {
    let end = (0..=MOST_BYTES).rev().find(|&end| words.is_char_boundary(end)).unwrap_or(0);
    format!("{}…", &words[..end])
}

/// So often what goes by these words.
pub fn times_of(times: Times, words: &str) -> String {
    match (times.least, times.most) {
        (least, Some(most)) if least == most => format!("{least} of {words}"),
        (0, Some(most)) => format!("up to {most} of {words}"),
        (least, Some(most)) => format!("{least} to {most} of {words}"),
        (0, None) => format!("any number of {words}"),
        (least, None) => format!("{least} or more of {words}"),
    }
}
