//! A program's text cut into statements: the tokens of a line, and of the lines
//! behind it while a parenthesis is open.

use crate::line::{placed_tokens, Placed, Token};
use crate::place::{Mistake, Place};

/// The tree of a statement is walked by recursion, so its depth has a limit. A
/// program has at most 96 nodes, so that only idle parentheses can pass it.
const MOST_OPEN: usize = 128;

/// The statements of a text, each with at least one token and with its
/// parentheses closed. Lines with no token are left out.
pub fn statements(text: &[u8]) -> impl Iterator<Item = Result<Vec<Placed<'_>>, Mistake>> {
    let mut lines = text.split(|&byte| byte == b'\n').enumerate();
    std::iter::from_fn(move || gathered(&mut lines).transpose())
}

/// The next statement, if there is one.
fn gathered<'a>(lines: &mut impl Iterator<Item = (usize, &'a [u8])>) -> Result<Option<Vec<Placed<'a>>>, Mistake> {
    let mut tokens = Vec::new();
    let mut open = Vec::new();
    for (index, line) in lines {
        let found = placed_tokens(index + 1, line)?;
        follow(&found, &mut open)?;
        tokens.extend(found);
        if open.is_empty() && !tokens.is_empty() {
            return Ok(Some(tokens));
        }
    }
    match open.last() {
        Some(opened) => Err(opened.mistake("this parenthesis is not closed")),
        None => Ok(None),
    }
}

/// Keeps the places of the open parentheses over the tokens of one more line.
fn follow(tokens: &[Placed], open: &mut Vec<Place>) -> Result<(), Mistake> {
    // Otherwise a forgotten parenthesis would swallow all lines behind it, and
    // the mistake would be told of the text's end.
    if let ([name, equals, ..], Some(opened)) = (tokens, open.last()) {
        if matches!((&name.token, &equals.token), (Token::Name(_), Token::Equals)) {
            let line = name.place.line;
            return Err(opened.mistake(format!("this parenthesis is not closed before the next '=' in line {line}")));
        }
    }
    for placed in tokens {
        match placed.token {
            Token::Mark(b'(') if open.len() == MOST_OPEN => {
                return Err(placed.place.mistake(format!("more than {MOST_OPEN} parentheses are open here")));
            }
            Token::Mark(b'(') => open.push(placed.place),
            Token::Mark(b')') if open.pop().is_none() => {
                return Err(placed.place.mistake("no parenthesis is open that this one could close"));
            }
            _ => (),
        }
    }
    Ok(())
}
