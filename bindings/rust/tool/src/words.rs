//! Bytes and lists in words, for messages.

use noontrough_assembler::line::{quote_byte, quote_text};

/// How much of a long text is shown: from its beginning and from its end.
const FIRST: usize = 40;
const LAST: usize = 16;

/// A name, or the words of a part, in single quotes.
pub fn quote_name(words: &str) -> String {
    format!("'{words}'")
}

/// A text in double quotes; of a long one the beginning and the end.
pub fn quote_shortened(text: &[u8]) -> String {
    if text.len() <= FIRST + LAST {
        return quote_text(text);
    }
    let (first, last) = (&text[..FIRST], &text[text.len() - LAST..]);
    format!("{}...{} ({} bytes)", quote_text(first), quote_text(last), grouped(text.len()))
}

/// `a`, `a or b`, `a, b or c`.
pub fn list(items: &[String], last: &str) -> String {
    match items {
        [] => String::new(),
        [only] => only.clone(),
        [before @ .., end] => format!("{} {last} {end}", before.join(", ")),
    }
}

/// A number with commas, by thousands.
pub fn grouped(number: usize) -> String {
    if number < 1000 {
        return number.to_string();
    }
    format!("{},{:03}", grouped(number / 1000), number % 1000)
}

/// Bytes between single quotes, as a reader knows them: what is no letter or mark
/// of UTF-8 as an escape.
pub fn readable(bytes: &[u8]) -> String {
    let mut shown = String::new();
    for chunk in bytes.utf8_chunks() {
        shown.extend(chunk.valid().chars().map(readable_letter));
        shown.extend(chunk.invalid().iter().map(|byte| format!("\\x{byte:02X}")));
    }
    shown
}

fn readable_letter(letter: char) -> String {
    match letter {
        '\\' | '\'' => format!("\\{letter}"),
        '\n' => "\\n".to_string(),
        '\r' => "\\r".to_string(),
        '\t' => "\\t".to_string(),
        '\u{feff}' | '\u{a0}' => letter.escape_unicode().to_string(),
        _ if letter.is_control() => letter.escape_unicode().to_string(),
        _ => letter.to_string(),
    }
}

type Run = (u8, u8);

/// Runs of bytes that have a name of their own. Those of the first line are also
/// named where they are a part of a run.
const CLASSES: [(Run, &str); 3] =
    [((b'0', b'9'), "a digit"), ((b'A', b'Z'), "a capital"), ((b'a', b'z'), "a small letter")];
const NAMED: [(Run, &str); 6] = [
    ((b'\n', b'\n'), "a newline"),
    ((b' ', b' '), "a space"),
    ((b'\t', b'\t'), "a tab"),
    ((b' ', b'~'), "any printable byte"),
    ((0x80, 0xFF), "a byte from \\x80 on"),
    ((0, 0xFF), "any byte"),
];

/// How many ways to go on are named.
const MOST_NAMED: usize = 8;
/// How many bytes beside a class are named one by one.
const BESIDE: u8 = 2;

/// Runs of bytes that don't touch, lowest first: one by one or, if only a few are
/// missing, by those.
pub fn runs_in_words(runs: &[Run]) -> Vec<String> {
    let missing = between(runs);
    let count: usize = runs.iter().map(|&(first, last)| usize::from(last - first) + 1).sum();
    if count > 128 && !missing.is_empty() && missing.len() < runs.len().max(3) {
        let but: Vec<String> = missing.iter().flat_map(|&run| run_in_words(run)).collect();
        return vec![format!("any byte but {}", list(&but, "and"))];
    }
    let mut ways: Vec<String> = runs.iter().flat_map(|&run| run_in_words(run)).collect();
    if ways.len() > MOST_NAMED {
        let more = ways.len() - MOST_NAMED;
        ways.truncate(MOST_NAMED);
        ways.push(format!("{more} more"));
    }
    ways
}

/// The runs of all other bytes.
fn between(runs: &[Run]) -> Vec<Run> {
    let starts = std::iter::once(0).chain(runs.iter().map(|&(_, last)| u16::from(last) + 1));
    let ends = runs.iter().map(|&(first, _)| u16::from(first)).chain(std::iter::once(256));
    starts.zip(ends).filter(|(start, end)| start < end).map(|(start, end)| (start as u8, (end - 1) as u8)).collect()
}

/// A run by its name, or by the class that it holds and the few bytes beside it.
fn run_in_words((first, last): Run) -> Vec<String> {
    let named = CLASSES.iter().chain(&NAMED).find(|(run, _)| *run == (first, last));
    if let Some((_, name)) = named {
        return vec![name.to_string()];
    }
    let one = |byte: u8| run_in_words((byte, byte));
    let holds = |run: &Run| first <= run.0 && run.1 <= last && run.0 - first <= BESIDE && last - run.1 <= BESIDE;
    if let Some(((low, high), name)) = CLASSES.iter().find(|(run, _)| holds(run)) {
        let before = (first..*low).flat_map(one);
        let behind = (*high..=last).skip(1).flat_map(one);
        return before.chain(std::iter::once(name.to_string())).chain(behind).collect();
    }
    match last - first {
        0 => vec![quote_byte(first)],
        1 => [first, last].into_iter().flat_map(one).collect(),
        _ => vec![format!("{} to {}", quote_byte(first), quote_byte(last))],
    }
}
