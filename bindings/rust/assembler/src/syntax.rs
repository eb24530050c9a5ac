//! From the tokens of a statement to a small tree, by the grammar of the crate's
//! page.
//!
//! A name at the beginning of an expression is a kind if it is a kind's word,
//! `lens` or `raw`; everywhere else names are those of nodes. The kinds `word`,
//! `set`, `range` and `raw` have operands of their own: a text or a set (and `at`
//! with a number), two bytes, four bytes.
//!
//! Nothing is known of nodes here: whether a name stands for one, and whether it
//! is a pattern or a lens, is for [`crate::assembly`] to say.

use crate::costs::MAX_POSITIONS;
use crate::kinds::{by_words, kind_words, Kind, Shape};
use crate::line::{quote_byte, Placed, Token};
use crate::place::{Mistake, Place};
use crate::sets::Set;

/// More of the same could not be within the limit of positions anyway.
const MOST_TIMES: usize = MAX_POSITIONS;

const SECOND_EQUALS: &str = "a second '=' stands in this line";

/// From one token of a statement to another, both included.
#[derive(Clone, Copy, Debug)]
pub struct Part {
    pub first: usize,
    pub last: usize,
}

#[derive(Debug)]
pub enum Statement<'a> {
    Pool(&'a [u8]),
    Definition(&'a str, Expression<'a>),
}

#[derive(Debug)]
pub struct Expression<'a> {
    pub form: Form<'a>,
    pub part: Part,
}

#[derive(Debug)]
pub enum Form<'a> {
    /// A text, and the place in the pool if one is named.
    Word(&'a [u8], Option<usize>),
    /// A set with its pairs as they are written, and their place likewise.
    Set(&'a Set, Option<usize>),
    /// A kind byte, and operands that are bytes too.
    Bytes(u8, [u8; 3]),
    /// As many operands as the kind takes.
    Of(&'static Kind, Vec<Operand<'a>>),
    Alone(Operand<'a>),
}

#[derive(Debug)]
pub struct Operand<'a> {
    pub primary: Primary<'a>,
    /// The primary alone.
    pub part: Part,
    /// Innermost first. `{1}` changes nothing and is left out.
    pub suffixes: Vec<Suffix>,
}

#[derive(Debug)]
pub enum Primary<'a> {
    Name(&'a str),
    Text(&'a [u8]),
    Set(&'a Set),
    Group(Box<Expression<'a>>),
}

#[derive(Debug)]
pub struct Suffix {
    pub times: Times,
    /// The last token of the suffix.
    pub last: usize,
}

/// How often an operand stands; `most` is missing if there is no end.
#[derive(Clone, Copy, Debug, PartialEq, Eq)]
pub struct Times {
    pub least: usize,
    pub most: Option<usize>,
}

const ONCE: Times = Times { least: 1, most: Some(1) };

/// The tree of a statement, whose parentheses are closed.
pub fn statement<'a>(tokens: &'a [Placed<'a>]) -> Result<Statement<'a>, Mistake> {
    let beginning: Vec<&Token> = tokens.iter().take(3).map(|placed| &placed.token).collect();
    let misfit = match beginning[..] {
        [Token::Name(name), Token::Equals, ..] => {
            let expression = Parser { tokens, next: 2 }.expression()?;
            return Ok(Statement::Definition(name, expression));
        }
        [Token::Name(word), Token::Text(text)] if word == "pool" => return Ok(Statement::Pool(text)),
        [Token::Name(word), Token::Text(_), _] if word == "pool" => 2,
        [Token::Name(_), _, ..] => 1,
        _ => 0,
    };
    let forms = "a line is 'name = kind operands', 'name = operand', or 'pool' and a text in quotes";
    Err(tokens[misfit].place.mistake(forms))
}

/// The byte that a token gives, as a range's end or an operand of `raw`.
fn byte(token: &Token) -> Option<u8> {
    match token {
        Token::Byte(byte) => Some(*byte),
        Token::Number(number) => u8::try_from(*number).ok(),
        _ => None,
    }
}

fn is_byte(token: &Token) -> bool {
    byte(token).is_some()
}

struct Parser<'a> {
    tokens: &'a [Placed<'a>],
    next: usize,
}

impl<'a> Parser<'a> {
    fn peek(&self) -> Option<&'a Token> {
        self.tokens.get(self.next).map(|placed| &placed.token)
    }

    fn place(&self, token: usize) -> Place {
        self.tokens[token].place
    }

    fn expression_ends(&self) -> bool {
        matches!(self.peek(), None | Some(Token::Mark(b')')))
    }

    fn expression(&mut self) -> Result<Expression<'a>, Mistake> {
        let first = self.next;
        if self.expression_ends() {
            let goes_on = "a definition goes on in the next line only inside parentheses";
            let message = format!("a kind is missing, or an operand ({goes_on}); the kinds are {}", kind_words());
            return Err(self.place(first - 1).mistake(message));
        }
        let form = match self.peek() {
            Some(Token::Name(word)) if word == "raw" => self.raw(),
            Some(Token::Name(word)) if word == "lens" => self.lens(),
            Some(Token::Name(word)) => match by_words(word) {
                Some(kind) => self.of_kind(kind, first),
                None => self.alone(),
            },
            _ => self.alone(),
        }?;
        Ok(Expression { form, part: Part { first, last: self.next - 1 } })
    }

    fn lens(&mut self) -> Result<Form<'a>, Mistake> {
        let first = self.next;
        self.next += 1;
        let kind = match self.peek() {
            Some(Token::Name(second)) => by_words(&format!("lens {second}")),
            _ => None,
        };
        let wrong = if self.expression_ends() { first } else { self.next };
        let kind = kind.ok_or_else(|| self.place(wrong).mistake("'lens' is followed by join, union or repeat"))?;
        self.of_kind(kind, first)
    }

    /// The last token of the kind's words comes next.
    fn of_kind(&mut self, kind: &'static Kind, first: usize) -> Result<Form<'a>, Mistake> {
        self.next += 1;
        let takes = format!("'{}' takes {}", kind.words, kind.takes);
        match kind.shape {
            Shape::Word | Shape::Set => self.in_pool(kind, &takes),
            Shape::Range => {
                let ends = self.bytes(2, first, &takes)?;
                Ok(Form::Bytes(kind.byte, [ends[0], ends[1], 0]))
            }
            Shape::Children(count) => self.children(kind, count..=count, first, &takes),
            Shape::Row => self.children(kind, 2..=usize::MAX, first, &takes),
        }
    }

    fn children(
        &mut self,
        kind: &'static Kind,
        counts: std::ops::RangeInclusive<usize>,
        first: usize,
        takes: &str,
    ) -> Result<Form<'a>, Mistake> {
        let mut operands = Vec::new();
        while !self.expression_ends() {
            operands.push(self.operand()?);
        }
        let one_too_many = operands.get(*counts.end());
        if one_too_many.is_none() && operands.len() >= *counts.start() {
            return Ok(Form::Of(kind, operands));
        }
        let wrong = one_too_many.map_or(first, |operand| operand.part.first);
        Err(self.place(wrong).mistake(takes))
    }

    /// A text or a set, and perhaps its place in the pool.
    fn in_pool(&mut self, kind: &Kind, takes: &str) -> Result<Form<'a>, Mistake> {
        let first = self.next - 1;
        let is_leaf: fn(&Token) -> bool = match kind.shape {
            Shape::Set => |token| matches!(token, Token::Set(_)),
            _ => |token| matches!(token, Token::Text(_)),
        };
        let fits: [fn(&Token) -> bool; 3] = [
            is_leaf,
            |token| matches!(token, Token::Name(at) if at == "at"),
            |token| matches!(token, Token::Number(_)),
        ];
        let (leaf, start) = match self.plain(&fits)[..] {
            [leaf] if self.expression_ends() => (leaf, None),
            [leaf, _, Token::Number(start)] if self.expression_ends() => (leaf, Some(*start)),
            _ => return Err(self.misfit(first, takes)),
        };
        match leaf {
            Token::Text(text) => Ok(Form::Word(text, start)),
            Token::Set(set) => Ok(Form::Set(set, start)),
            _ => Err(self.misfit(first, takes)),
        }
    }

    fn raw(&mut self) -> Result<Form<'a>, Mistake> {
        let first = self.next;
        self.next += 1;
        let bytes = self.bytes(4, first, "'raw' takes four bytes: the kind and the operands a, b and c")?;
        Ok(Form::Bytes(bytes[0], [bytes[1], bytes[2], bytes[3]]))
    }

    /// Exactly so many bytes, and the expression's end behind them.
    fn bytes(&mut self, count: usize, first: usize, takes: &str) -> Result<Vec<u8>, Mistake> {
        let found = self.plain(&vec![is_byte as fn(&Token) -> bool; count]);
        if found.len() == count && self.expression_ends() {
            Ok(found.into_iter().filter_map(byte).collect())
        } else {
            Err(self.misfit(first, takes))
        }
    }

    /// Passes the tokens that fit, one for each test, and gives them.
    fn plain(&mut self, fits: &[fn(&Token) -> bool]) -> Vec<&'a Token> {
        let rest = self.tokens[self.next..].iter().map(|placed| &placed.token);
        let found: Vec<&Token> =
            rest.zip(fits).take_while(|(token, fits)| fits(token)).map(|(token, _)| token).collect();
        self.next += found.len();
        found
    }

    /// Points to the token that does not fit, or to the kind if some is missing.
    fn misfit(&self, kind: usize, takes: &str) -> Mistake {
        self.place(if self.expression_ends() { kind } else { self.next }).mistake(takes)
    }

    fn alone(&mut self) -> Result<Form<'a>, Mistake> {
        let first = self.next;
        let operand = self.operand()?;
        match (self.peek(), &operand.primary) {
            (None | Some(Token::Mark(b')')), _) => Ok(Form::Alone(operand)),
            (Some(Token::Equals), _) => Err(self.place(self.next).mistake(SECOND_EQUALS)),
            (_, Primary::Name(word)) if operand.suffixes.is_empty() => {
                Err(self.place(first).mistake(format!("there is no kind '{word}'; the kinds are {}", kind_words())))
            }
            _ => Err(self.place(self.next).mistake("a kind stands before several operands, such as join or lens join")),
        }
    }

    fn operand(&mut self) -> Result<Operand<'a>, Mistake> {
        let first = self.next;
        let primary = self.primary()?;
        let part = Part { first, last: self.next - 1 };
        let mut suffixes = Vec::new();
        while let Some(times) = self.suffix()? {
            suffixes.push(Suffix { times, last: self.next - 1 });
        }
        suffixes.retain(|suffix| suffix.times != ONCE);
        Ok(Operand { primary, part, suffixes })
    }

    /// A token comes next, and it is no closing parenthesis.
    fn primary(&mut self) -> Result<Primary<'a>, Mistake> {
        let placed = &self.tokens[self.next];
        self.next += 1;
        let wrong = |message: String| Err(placed.place.mistake(message));
        match &placed.token {
            Token::Name(name) => Ok(Primary::Name(name)),
            Token::Text(text) => Ok(Primary::Text(text)),
            Token::Set(set) => Ok(Primary::Set(set)),
            Token::Mark(b'(') => {
                let expression = self.expression()?;
                self.next += 1; // An expression ends before a closing parenthesis.
                Ok(Primary::Group(Box::new(expression)))
            }
            Token::Number(number) => wrong(format!("nodes go by name here, and {number} is a number")),
            Token::Byte(_) => wrong("a single byte is a range's end; a word stands in double quotes".to_string()),
            Token::Equals => wrong(SECOND_EQUALS.to_string()),
            Token::Mark(mark @ (b'*' | b'+' | b'?' | b'{')) => {
                wrong(format!("nothing stands before {} that it could repeat", quote_byte(*mark)))
            }
            Token::Mark(mark) => wrong(format!("{} stands only behind a number in braces", quote_byte(*mark))),
        }
    }

    fn suffix(&mut self) -> Result<Option<Times>, Mistake> {
        let times = match self.peek() {
            Some(Token::Mark(b'*')) => Times { least: 0, most: None },
            Some(Token::Mark(b'+')) => Times { least: 1, most: None },
            Some(Token::Mark(b'?')) => Times { least: 0, most: Some(1) },
            Some(Token::Mark(b'{')) => return self.braces().map(Some),
            _ => return Ok(None),
        };
        self.next += 1;
        Ok(Some(times))
    }

    fn braces(&mut self) -> Result<Times, Mistake> {
        let opened = self.next;
        let inside: Vec<&Token> = self.tokens[opened + 1..].iter().take(4).map(|placed| &placed.token).collect();
        let (length, least, most) = match inside[..] {
            [Token::Number(times), Token::Mark(b'}'), ..] => (1, *times, Some(*times)),
            [Token::Number(least), Token::Mark(b','), Token::Mark(b'}'), ..] => (2, *least, None),
            [Token::Number(least), Token::Mark(b','), Token::Number(most), Token::Mark(b'}')] => {
                (3, *least, Some(*most))
            }
            _ => return Err(self.place(opened).mistake("braces hold how often: {4}, {2,4} or {2,}")),
        };
        let (first, last) = (self.place(opened + 1), self.place(opened + length));
        let too_many = format!("{MOST_TIMES} is the most here, since a program has at most {MOST_TIMES} positions");
        if least > MOST_TIMES {
            return Err(first.mistake(too_many));
        }
        match most {
            Some(most) if most > MOST_TIMES => return Err(last.mistake(too_many)),
            Some(0) => return Err(last.mistake("0 times leaves nothing of what stands before; the empty text is \"\"")),
            Some(most) if most < least => {
                return Err(last.mistake(format!("the lower number comes first: {{{most},{least}}}")))
            }
            _ => (),
        }
        self.next = opened + length + 2;
        Ok(Times { least, most })
    }
}
