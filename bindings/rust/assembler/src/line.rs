//! One line of a program's text: its tokens, and how bytes are quoted.
//!
//! Texts stand in double quotes, single bytes in single quotes. Inside quotes a
//! byte stands for itself, save for the escapes `\n`, `\r`, `\t`, `\\`, `\"`,
//! `\'` and `\xNN` with two hexadecimal digits. Sets of bytes stand in brackets,
//! as `sets.rs` tells. A `#` outside quotes and brackets begins a comment.

use crate::place::{Mistake, Place};
use crate::sets::{self, Set};

#[derive(Clone, Debug, PartialEq, Eq)]
pub enum Token {
    /// A letter or `_`, then letters, digits, `_`, `-` and `.`.
    Name(String),
    Number(usize),
    /// In double quotes.
    Text(Vec<u8>),
    /// In single quotes.
    Byte(u8),
    /// In brackets.
    Set(Set),
    Equals,
    /// One of `( ) * + ? { } ,`.
    Mark(u8),
}

/// A token, where it stands, and how it is written there.
#[derive(Clone, Debug)]
pub struct Placed<'a> {
    pub token: Token,
    pub place: Place,
    pub written: &'a [u8],
}

impl Placed<'_> {
    /// Whether nothing stands between this token and the next.
    pub fn touches(&self, next: &Placed) -> bool {
        self.place.line == next.place.line && self.place.column + self.written.len() == next.place.column
    }
}

/// The tokens of a line that stands alone.
pub fn tokens(line: &[u8]) -> Result<Vec<Token>, Mistake> {
    Ok(placed_tokens(1, line)?.into_iter().map(|placed| placed.token).collect())
}

/// The tokens of the line with this number.
pub fn placed_tokens(number: usize, line: &[u8]) -> Result<Vec<Placed<'_>>, Mistake> {
    let mut scanner = Scanner { number, line, at: 0 };
    let mut found = Vec::new();
    while scanner.comes_to_token() {
        let start = scanner.at;
        let token = scanner.token()?;
        found.push(Placed { token, place: scanner.place(start), written: &line[start..scanner.at] });
    }
    Ok(found)
}

/// Reads a line from left to right.
pub(crate) struct Scanner<'a> {
    number: usize,
    line: &'a [u8],
    /// How many bytes were read.
    pub at: usize,
}

impl<'a> Scanner<'a> {
    pub fn rest(&self) -> &'a [u8] {
        &self.line[self.at..]
    }

    /// Something is wrong behind so many bytes of the line.
    pub fn wrong(&self, at: usize, message: impl Into<String>) -> Mistake {
        self.place(at).mistake(message)
    }

    fn place(&self, at: usize) -> Place {
        Place { line: self.number, column: at + 1 }
    }

    /// Passes blanks; whether a token follows.
    fn comes_to_token(&mut self) -> bool {
        self.at += self.rest().iter().take_while(|byte| matches!(byte, b' ' | b'\t' | b'\r')).count();
        !matches!(self.rest(), [] | [b'#', ..])
    }

    fn token(&mut self) -> Result<Token, Mistake> {
        let start = self.at;
        let first = self.line[start];
        self.at += 1;
        match first {
            b'=' => Ok(Token::Equals),
            b'(' | b')' | b'*' | b'+' | b'?' | b'{' | b'}' | b',' => Ok(Token::Mark(first)),
            b'"' => self.quoted(first).map(Token::Text),
            b'\'' => {
                let bytes = self.quoted(first)?;
                single(&bytes).map(Token::Byte).map_err(|message| self.wrong(start, message))
            }
            b'[' => sets::set(self).map(Token::Set),
            _ if in_name(first) => {
                self.at += self.rest().iter().take_while(|&&byte| in_name(byte)).count();
                name_or_number(&self.line[start..self.at]).map_err(|message| self.wrong(start, message))
            }
            _ => Err(self.wrong(start, format!("{} can't stand here; {}", quote_byte(first), instead_of(first)))),
        }
    }

    /// The bytes up to the closing quote; the opening one was read.
    fn quoted(&mut self, quote: u8) -> Result<Vec<u8>, Mistake> {
        let opened = self.at - 1;
        let mut bytes = Vec::new();
        loop {
            match self.rest() {
                [] => return Err(self.wrong(opened, "the closing quote is missing")),
                [b'\\', ..] => bytes.push(self.escape(&[], "quotes")?),
                [byte, ..] => {
                    self.at += 1;
                    if *byte == quote {
                        return Ok(bytes);
                    }
                    bytes.push(*byte);
                }
            }
        }
    }

    /// The byte that an escape stands for. The backslash comes next, `also` are
    /// the bytes that it may precede in this place beside those of all places.
    pub fn escape(&mut self, also: &[u8], place: &str) -> Result<u8, Mistake> {
        let digits = "\\x takes two hexadecimal digits, such as \\xD7";
        let (byte, length) = match &self.rest()[1..] {
            [b'n', ..] => (b'\n', 2),
            [b'r', ..] => (b'\r', 2),
            [b't', ..] => (b'\t', 2),
            [byte @ (b'\\' | b'"' | b'\''), ..] => (*byte, 2),
            [byte, ..] if also.contains(byte) => (*byte, 2),
            [b'x', high, low, ..] => match (hexadecimal(*high), hexadecimal(*low)) {
                (Some(high), Some(low)) => (16 * high + low, 4),
                _ => return Err(self.wrong(self.at, digits)),
            },
            [b'x', ..] => return Err(self.wrong(self.at, digits)),
            _ => {
                let also: String = also.iter().map(|&byte| format!("{}, ", char::from(byte))).collect();
                let known = format!("n, r, t, \\, \", {also}' or x and two digits");
                return Err(self.wrong(self.at, format!("a backslash in {place} is followed by {known}")));
            }
        };
        self.at += length;
        Ok(byte)
    }
}

/// What may have been meant by a byte that begins no token.
fn instead_of(byte: u8) -> &'static str {
    match byte {
        b'|' => "a choice is written union a b",
        b'/' => "a comment begins with #",
        b';' => "a definition ends with its line",
        _ => "texts go in double quotes",
    }
}

fn in_name(byte: u8) -> bool {
    byte.is_ascii_alphanumeric() || matches!(byte, b'_' | b'-' | b'.')
}

fn name_or_number(word: &[u8]) -> Result<Token, String> {
    let word: String = word.iter().copied().map(char::from).collect();
    if word.bytes().all(|byte| byte.is_ascii_digit()) {
        return word.parse().map(Token::Number).map_err(|_| format!("the number {word} is too large"));
    }
    if word.starts_with(|first: char| first.is_ascii_alphabetic() || first == '_') {
        return Ok(Token::Name(word));
    }
    Err(format!("'{word}' is no name, since it does not begin with a letter, and no number"))
}

fn hexadecimal(digit: u8) -> Option<u8> {
    char::from(digit).to_digit(16).map(|value| value as u8)
}

fn single(bytes: &[u8]) -> Result<u8, String> {
    match bytes {
        [byte] => Ok(*byte),
        _ => Err(format!(
            "single quotes hold one byte, and here are {}; a letter outside ASCII has several, or is written \\xNN",
            bytes.len()
        )),
    }
}

/// A text in double quotes, in printable ASCII.
pub fn quote_text(text: &[u8]) -> String {
    quote(b'"', text)
}

/// A byte in single quotes, in printable ASCII.
pub fn quote_byte(byte: u8) -> String {
    quote(b'\'', &[byte])
}

fn quote(mark: u8, bytes: &[u8]) -> String {
    let mut quoted = String::from(char::from(mark));
    for &byte in bytes {
        match byte {
            b'\n' => quoted.push_str("\\n"),
            b'\r' => quoted.push_str("\\r"),
            b'\t' => quoted.push_str("\\t"),
            b'\\' => quoted.push_str("\\\\"),
            b' '..=b'~' if byte == mark => quoted.extend(['\\', char::from(mark)]),
            b' '..=b'~' => quoted.push(char::from(byte)),
            _ => quoted.push_str(&format!("\\x{byte:02X}")),
        }
    }
    quoted.push(char::from(mark));
    quoted
}
