//! Why a line of a section of Adobe's metrics, or of a sheet beside it, is not of its
//! form. Which line is the first such one is the engine's answer; here it is looked at
//! once more, and said in words.

use noontrough_assembler::line::quote_byte;

use crate::words::quote_shortened;

/// What a line is one of.
#[derive(Clone, Copy, Debug, PartialEq, Eq)]
pub enum Kind {
    Section,
    Sheet,
}

const START: &[u8] = b"StartKernPairs";
const PAIR: &[u8] = b"KPX";
const END: &[u8] = b"EndKernPairs";

/// The line itself, unless it is missing, and what is wrong with it. Lines count from 1.
pub fn told(kind: Kind, bytes: &[u8], number: usize) -> String {
    let Some(line) = line(bytes, number) else {
        return missing(number).to_string();
    };
    let text = line.strip_suffix(b"\n").unwrap_or(line);
    let wrong = match kind {
        Kind::Section if is_behind_end(bytes, number) => Some("nothing stands behind EndKernPairs".to_string()),
        Kind::Section if number == 1 => of_a_sheet(text).or_else(|| wrong_start(text)),
        Kind::Section => wrong_pair_or_end(text),
        Kind::Sheet if number == 1 => of_a_section(text).or_else(|| wrong_line(text)),
        Kind::Sheet => wrong_line(text),
    };
    let unended = (text.len() == line.len()).then(|| "the newline at its end is missing".to_string());
    let whole: Vec<String> = wrong.into_iter().chain(unended).collect();
    let whole = if whole.is_empty() { "it is not of its form".to_string() } else { whole.join("; ") };
    format!("{}: {whole}", quote_shortened(text))
}

/// A first line that belongs to the other of the two commands.
fn of_a_sheet(line: &[u8]) -> Option<String> {
    let message = "this is a line of a sheet, and 'afm export' takes sheets";
    wrong_line(line).is_none().then(|| message.to_string())
}

fn of_a_section(line: &[u8]) -> Option<String> {
    let message = "this is a line of a section, and 'afm import' takes sections";
    wrong_start(line).is_none().then(|| message.to_string())
}

/// How many pairs a section announces, and how many it has. Only its count is wrong.
pub fn counts(section: &[u8]) -> String {
    let start = line(section, 1).map_or(&[][..], |line| line.trim_ascii_end());
    let count = String::from_utf8_lossy(words(start).last().unwrap_or(&&[][..])).into_owned();
    let pairs = section.iter().filter(|&&byte| byte == b'\n').count().saturating_sub(2);
    let are = if pairs == 1 { "is 1 pair".to_string() } else { format!("are {pairs} pairs") };
    format!("the count says {count}, and there {are}")
}

/// A line with its newline, if it has one.
fn line(bytes: &[u8], number: usize) -> Option<&[u8]> {
    bytes.split_inclusive(|&byte| byte == b'\n').nth(number.checked_sub(1)?)
}

/// Whether the line before is the last one of a section. All before it are of their
/// form, so it is no first line.
fn is_behind_end(section: &[u8], number: usize) -> bool {
    line(section, number.saturating_sub(1)).and_then(|line| line.strip_suffix(b"\n")) == Some(END)
}

/// Only a section can lack a line: a sheet may end behind any.
fn missing(number: usize) -> &'static str {
    match number {
        1 => "the text is empty; a section begins with StartKernPairs and its count",
        _ => "the text ends here; the line EndKernPairs is missing",
    }
}

/// Blanks that are no spaces, and spaces at an end, in a line of a section.
fn wrong_blanks(line: &[u8]) -> Option<String> {
    match line {
        [.., b'\r'] => Some(ENDS_IN_CR.to_string()),
        [b' ', ..] => Some("no space stands at the beginning of a line".to_string()),
        [.., b' '] => Some("no space stands at the end of a line".to_string()),
        _ => {
            let blank = line.iter().find(|byte| matches!(byte, b'\t' | b'\r'))?;
            Some(format!("tabs and carriage returns are no spaces, and it has {}", quote_byte(*blank)))
        }
    }
}

const ENDS_IN_CR: &str = "it ends in a carriage return, which is no space: save the file with LF";

/// The words between runs of spaces.
fn words(line: &[u8]) -> Vec<&[u8]> {
    line.split(|&byte| byte == b' ').filter(|word| !word.is_empty()).collect()
}

fn wrong_start(line: &[u8]) -> Option<String> {
    if line.starts_with(b"\xEF\xBB\xBF") {
        return Some("the file begins with a byte order mark: save it without one".to_string());
    }
    wrong_blanks(line).or_else(|| match words(line)[..] {
        [START, count] => COUNT.wrong(count),
        [START, ..] => Some("behind StartKernPairs stands the count, and nothing else".to_string()),
        _ => Some(
            "a section begins with StartKernPairs and its count: cut it out of its file, from there to EndKernPairs"
                .to_string(),
        ),
    })
}

fn wrong_pair_or_end(line: &[u8]) -> Option<String> {
    wrong_blanks(line).or_else(|| match words(line)[..] {
        [] => Some("no line is empty".to_string()),
        [END] => None,
        [PAIR, left, right, value] => wrong_parts(left, right, value),
        [PAIR, ..] => {
            let count = words(line).len() - 1;
            Some(format!("behind KPX stand two names and a value: 3 words, and not {count}"))
        }
        [word, ..] if word.starts_with(END) => Some("EndKernPairs stands alone in its line".to_string()),
        [word, ..] if word.starts_with(b"KP") => Some("of pairs only those with KPX are read".to_string()),
        _ => Some("a line is KPX with two names and a value, or EndKernPairs".to_string()),
    })
}

/// A line of a sheet.
fn wrong_line(line: &[u8]) -> Option<String> {
    let parts: Vec<&[u8]> = line.split(|&byte| byte == b';').collect();
    match (line, &parts[..]) {
        ([], _) => Some("no line is empty".to_string()),
        ([.., b'\r'], _) => Some(ENDS_IN_CR.to_string()),
        _ if line.contains(&b' ') => Some("no space stands in a line of a sheet".to_string()),
        (_, [left, right, value]) => wrong_parts(left, right, value),
        _ => Some(format!("a line is left;right;value: 3 parts, and not {}", parts.len())),
    }
}

fn wrong_parts(left: &[u8], right: &[u8], value: &[u8]) -> Option<String> {
    wrong_name("left", left).or_else(|| wrong_name("right", right)).or_else(|| VALUE.wrong(value))
}

const LONGEST_NAME: usize = 63;

fn wrong_name(which: &str, name: &[u8]) -> Option<String> {
    let is_right = |byte: &u8| matches!(byte, 0x21..=0x7E) && *byte != b';';
    let wrong = match name.iter().find(|byte| !is_right(byte)) {
        Some(byte) => format!("has {}", quote_byte(*byte)),
        None if name.is_empty() => "is empty".to_string(),
        None if name.len() > LONGEST_NAME => format!("has {}", name.len()),
        None => return None,
    };
    Some(format!("a name has 1 to {LONGEST_NAME} bytes from 0x21 to 0x7E without ';', and the {which} one {wrong}"))
}

/// Whole numbers between two others.
struct Numbers {
    name: &'static str,
    least: i64,
    most: i64,
}

const VALUE: Numbers = Numbers { name: "value", least: -32768, most: 32767 };
const COUNT: Numbers = Numbers { name: "count", least: 0, most: 65535 };

impl Numbers {
    fn wrong(&self, text: &[u8]) -> Option<String> {
        let Numbers { name, least, most } = self;
        let wrong = self.fault(text)?;
        Some(format!("a {name} is a whole number from {least} to {most}, and {} {wrong}", quote_shortened(text)))
    }

    fn fault(&self, text: &[u8]) -> Option<&'static str> {
        let digits = text.strip_prefix(b"-").unwrap_or(text);
        match (text, digits) {
            ([b'+', ..], _) => Some("has a plus sign"),
            (b"-0", _) => Some("is minus nought"),
            _ if digits.is_empty() || !digits.iter().all(u8::is_ascii_digit) => Some("is no whole number"),
            (_, [b'0', _, ..]) => Some("has leading zeros"),
            _ => (!self.holds(text)).then_some("lies outside"),
        }
    }

    /// A number that is too long to be read is too large too.
    fn holds(&self, text: &[u8]) -> bool {
        let number: Option<i64> = std::str::from_utf8(text).ok().and_then(|text| text.parse().ok());
        number.is_some_and(|number| (self.least..=self.most).contains(&number))
    }
}
