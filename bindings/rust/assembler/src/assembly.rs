//! From text to the table's bytes.
//!
//! Nodes are numbered in the order in which the lines make them, and a line
//! names only nodes above it, so a child always has a lower number. The last
//! node that a line makes is the one that its name stands for, and that is
//! always a new one.
//!
//! What a line makes beside it, in this order:
//!
//! - The operands, from left to right: a text in quotes is a word node, an
//!   expression in parentheses a node of its kind. A set in brackets is a range if
//!   it is one, and else a set of the fewest pairs, lowest first. A set node has at
//!   most 32 pairs; more are a union of several such nodes.
//!   `set [xa-c]` in place of `[xa-c]` takes the pairs as they are written, here
//!   x to x and then a to c.
//! - `join` and `union` with more than two operands: `join a b c` is a joined
//!   with the join of b and c, which gets its node first. The unions of a set
//!   are nested in the same way.
//! - The nodes of a suffix, behind those of its operand x. Over a pattern they
//!   are patterns, over a lens lenses:
//!
//! | Suffix | Stands for |
//! |---|---|
//! | `x*` | `repeat x` |
//! | `x+` | `join x (repeat x)` |
//! | `x?` | `union "" x`, for a lens `lens union (copy "") x` |
//! | `x{4}` | `join x x x x` |
//! | `x{2,}` | `join x x (repeat x)` |
//! | `x{2,4}` | `join x x o` where `o` is `union "" (join x (union "" x))` |
//!
//! The options of `x{2,4}` are nested, since a row of `x?` would be ambiguous
//! for a lens. `{0,}` is `*`, `{1,}` is `+`, `{0,4}` are the options alone and
//! `{1}` is x itself.
//!
//! So `label = key [A-Z]+` makes a range, a repeat, a join and a key, as
//!
//! ```text
//! capital  = range 'A' 'Z'
//! capitals = repeat capital
//! name     = join capital capitals
//! label    = key name
//! ```
//!
//! do. If a node equal to one of those beside the named one stands above, and no
//! line has it for its name, the first such node is taken and no other is made; a
//! text in quotes also takes a word that has a name. Not so for lenses other than
//! copy, const and key, and for what is written right under a match: two matches
//! with one child share their entries, which must be asked for by a name.
//!
//! A word's text, or the bytes of a set's pairs, are looked for in the pool as it
//! stands so far. The first place that holds them is taken; if there is none, they
//! go to the pool's end. `pool "…"` lines above the first node fill the pool
//! beforehand, and `word "…" at 5` and `set […] at 5` name the place.

use std::collections::HashMap;

use crate::costs::{too_many, Line, MOST_COUNTED};
use crate::draft::{Draft, Node, Role};
use crate::kinds::{is_kind_word, is_lens, kind_words, Kind, Shape};
use crate::kinds::{COPY, JOIN, LENS_JOIN, LENS_REPEAT, LENS_UNION, MATCH, RANGE, REPEAT, UNION};
use crate::line::{Placed, Token};
use crate::place::{Mistake, Place};
use crate::sets::{pool_bytes, Pair};
use crate::statements::statements;
use crate::syntax::{statement, Expression, Form, Operand, Part, Primary, Statement, Suffix, Times};
use crate::words::{times_of, words};

pub use crate::draft::{MAX_NODES, MAX_PAIRS, MAX_POOL};

/// Where a node comes from. A node that serves several times has the first
/// place.
#[derive(Clone, Debug, PartialEq, Eq)]
pub struct Origin {
    /// Where the node's expression begins, counted from 1.
    pub line: usize,
    /// Counted from 1, in bytes.
    pub column: usize,
    /// The name that the line gives.
    pub name: String,
    /// Whether the name stands for this very node, and not for one that the line
    /// made beside it.
    pub is_named: bool,
    /// How a message may call the node: the name if it is the named one, else
    /// the text's own words for it.
    pub words: String,
}

#[derive(Clone, Debug, PartialEq, Eq)]
pub struct Assembled {
    pub table: Vec<u8>,
    /// One for each node.
    pub origins: Vec<Origin>,
    /// For each node whether it only holds a part of a row, a set or a suffix
    /// together.
    pub(crate) is_inner: Vec<bool>,
}

/// The table of a program's text.
pub fn assemble(text: &[u8]) -> Result<Assembled, Mistake> {
    let mut assembly = Assembly::default();
    for tokens in statements(text) {
        assembly.statement(&tokens?)?;
    }
    if assembly.draft.nodes.is_empty() {
        let line = text.split(|&byte| byte == b'\n').count();
        return Err(Place { line, column: 1 }.mistake("the program has no node"));
    }
    if assembly.draft.nodes.len() > MAX_NODES {
        return Err(assembly.too_many());
    }
    Ok(Assembled { table: assembly.draft.table(), origins: assembly.origins, is_inner: assembly.is_inner })
}

#[derive(Default)]
struct Assembly {
    draft: Draft,
    /// Of the nodes that a table can have, and of the first one too many.
    origins: Vec<Origin>,
    is_inner: Vec<bool>,
    names: HashMap<String, Named>,
    lines: Vec<Line>,
}

#[derive(Clone, Copy)]
struct Named {
    node: usize,
    line: usize,
}

impl Assembly {
    fn statement(&mut self, tokens: &[Placed]) -> Result<(), Mistake> {
        let made = self.make(tokens);
        made.map_err(|mistake| self.missing_parentheses(tokens).unwrap_or(mistake))
    }

    /// A kind's word where an operand belongs, and no line has that name: whatever
    /// else is wrong comes of it.
    fn missing_parentheses(&self, tokens: &[Placed]) -> Option<Mistake> {
        let word_of = |placed: &Placed| match &placed.token {
            Token::Name(word) if is_kind_word(word) && !self.names.contains_key(word) => Some(word.clone()),
            _ => None,
        };
        let begins = |before: &Token| match before {
            Token::Equals | Token::Mark(b'(') => true,
            Token::Name(word) => word == "lens",
            _ => false,
        };
        let pairs = tokens.windows(2).skip(1);
        let (word, place) = pairs
            .filter(|pair| !begins(&pair[0].token))
            .find_map(|pair| word_of(&pair[1]).map(|word| (word, pair[1].place)))?;
        let message = format!("'{word}' begins an expression of its own, which stands in parentheses here");
        Some(place.mistake(message))
    }

    fn make(&mut self, tokens: &[Placed]) -> Result<(), Mistake> {
        let place = tokens[0].place;
        match statement(tokens)? {
            Statement::Pool(_) if !self.draft.nodes.is_empty() => {
                Err(place.mistake("the pool stands above the first node"))
            }
            Statement::Pool(text) => {
                self.draft.append(text).map_err(|message| tokens[1].place.mistake(message))?;
                Ok(())
            }
            Statement::Definition(name, expression) => {
                if let Some(Named { line, .. }) = self.names.get(name) {
                    return Err(place.mistake(format!("the name '{name}' is already used in line {line}")));
                }
                self.lines.push(Line { line: place.line, name: name.to_string(), first_node: self.draft.nodes.len() });
                let node = Definition { assembly: self, name, tokens }.expression(&expression, Role::Named)?;
                self.names.insert(name.to_string(), Named { node, line: place.line });
                Ok(())
            }
        }
    }

    /// There are more than [`MAX_NODES`] nodes.
    fn too_many(&self) -> Mistake {
        let first = &self.origins[MAX_NODES];
        Place { line: first.line, column: first.column }.mistake(too_many(&self.lines, self.draft.nodes.len()))
    }
}

/// A definition that is being turned into nodes.
struct Definition<'a> {
    assembly: &'a mut Assembly,
    name: &'a str,
    tokens: &'a [Placed<'a>],
}

impl Definition<'_> {
    fn place(&self, token: usize) -> Place {
        self.tokens[token].place
    }

    /// Where the first text or set of a part stands.
    fn text_place(&self, part: Part) -> Place {
        let mut tokens = self.tokens[part.first..=part.last].iter();
        let text = tokens.find(|placed| matches!(placed.token, Token::Text(_) | Token::Set(_)));
        text.map_or_else(|| self.place(part.first), |placed| placed.place)
    }

    fn expression(&mut self, expression: &Expression, role: Role) -> Result<usize, Mistake> {
        let part = expression.part;
        match &expression.form {
            Form::Word(text, None) => self.text(text, part, role),
            Form::Word(text, Some(start)) => {
                self.require_in_pool(*start, text, "this text", part)?;
                self.word(text, *start, part, role)
            }
            Form::Set(set, None) => self.pairs(&set.pairs, part, role),
            Form::Set(set, Some(start)) => {
                self.require_in_pool(*start, &pool_bytes(&set.pairs), "these pairs", part)?;
                self.set(set.pairs.len(), *start, part, role)
            }
            Form::Bytes(kind, operands) => self.add(*kind, operands.map(usize::from), part, role),
            Form::Of(kind, operands) => self.of_kind(kind, operands, part, role),
            Form::Alone(operand) => self.operand(operand, role),
        }
    }

    fn of_kind(&mut self, kind: &Kind, operands: &[Operand], part: Part, role: Role) -> Result<usize, Mistake> {
        let below = if kind.byte == MATCH { Role::Entry } else { Role::Beside };
        let children: Vec<usize> =
            operands.iter().map(|operand| self.operand(operand, below)).collect::<Result<_, _>>()?;
        if kind.shape == Shape::Row {
            let inner = |place: usize| Part { first: operands[place].part.first, last: part.last };
            return self.row(kind.byte, &children, |place| if place == 0 { part } else { inner(place) }, role);
        }
        let mut three = [0; 3];
        three[..children.len()].copy_from_slice(&children);
        self.add(kind.byte, three, part, role)
    }

    /// One or more children, nested from the right. The outermost node has the
    /// role; `part` says which part of the text the node makes that begins with
    /// a child.
    fn row(
        &mut self,
        kind: u8,
        children: &[usize],
        part: impl Fn(usize) -> Part,
        role: Role,
    ) -> Result<usize, Mistake> {
        let (&last, before) = children.split_last().expect("a row has a child");
        before.iter().enumerate().rev().try_fold(last, |node, (place, &child)| {
            let role = if place == 0 { role } else { Role::Inner };
            self.add(kind, [child, node, 0], part(place), role)
        })
    }

    fn operand(&mut self, operand: &Operand, role: Role) -> Result<usize, Mistake> {
        let (last, before) = match operand.suffixes.split_last() {
            Some(suffixes) => suffixes,
            None => return self.primary(&operand.primary, operand.part, role),
        };
        let node = self.primary(&operand.primary, operand.part, Role::Beside)?;
        let first = operand.part.first;
        let node = before.iter().try_fold(node, |node, suffix| self.suffix(node, suffix, first, Role::Beside))?;
        self.suffix(node, last, first, role)
    }

    fn primary(&mut self, primary: &Primary, part: Part, role: Role) -> Result<usize, Mistake> {
        match primary {
            Primary::Name(name) => self.named(name, part, role),
            Primary::Text(text) => self.text(text, part, role),
            Primary::Group(expression) => self.expression(expression, role),
            Primary::Set(set) => self.ranges(&set.ranges, part, role),
        }
    }

    /// One byte of these ranges.
    fn ranges(&mut self, ranges: &[Pair], part: Part, role: Role) -> Result<usize, Mistake> {
        if let [(first, last)] = ranges[..] {
            return self.add(RANGE, [first.into(), last.into(), 0], part, role);
        }
        let below = if ranges.len() <= MAX_PAIRS { role } else { Role::Beside };
        let sets = ranges.chunks(MAX_PAIRS).map(|pairs| self.pairs(pairs, part, below));
        let children: Vec<usize> = sets.collect::<Result<_, _>>()?;
        self.row(UNION, &children, |_| part, role)
    }

    fn named(&mut self, name: &str, part: Part, role: Role) -> Result<usize, Mistake> {
        let wrong = |message| Err(self.place(part.first).mistake(message));
        match (self.assembly.names.get(name), role) {
            (Some(_), Role::Named) => {
                let message = "would only be another name for";
                wrong(format!("'{}' {message} '{name}', and a line makes a node of its own", self.name))
            }
            (Some(named), _) => Ok(named.node),
            (None, Role::Named) => {
                let message = format!("there is no node '{name}' above this line, nor a kind of this name");
                wrong(format!("{message}; the kinds are {}", kind_words()))
            }
            (None, _) => wrong(format!("there is no node '{name}' above this line")),
        }
    }

    /// So often the node, as the module's text says.
    fn suffix(&mut self, node: usize, suffix: &Suffix, first: usize, role: Role) -> Result<usize, Mistake> {
        let part = Part { first, last: suffix.last };
        let is_lens = is_lens(self.assembly.draft.nodes[node].kind);
        let (join, repeat) = if is_lens { (LENS_JOIN, LENS_REPEAT) } else { (JOIN, REPEAT) };
        let Times { least, most } = suffix.times;
        let tail_role = if least == 0 { role } else { Role::Inner };
        let mut children = vec![node; least];
        match most {
            None => {
                let tail = self.add(repeat, [node, 0, 0], part, tail_role)?;
                self.call(tail, tail_role, Times { least: 0, most }, node);
                children.push(tail);
            }
            Some(most) if most > least => children.push(self.options(node, most - least, part, tail_role)?),
            Some(_) => (),
        }
        let (&last, before) = children.split_last().expect("a suffix leaves something");
        before.iter().enumerate().rev().try_fold(last, |rest, (place, &child)| {
            let role = if place == 0 { role } else { Role::Inner };
            let some = self.add(join, [child, rest, 0], part, role)?;
            self.call(some, role, Times { least: least - place, most: most.map(|most| most - place) }, node);
            Ok(some)
        })
    }

    /// None to so many of the node, one within the other.
    fn options(&mut self, node: usize, most: usize, part: Part, role: Role) -> Result<usize, Mistake> {
        let is_lens = is_lens(self.assembly.draft.nodes[node].kind);
        let (join, union) = if is_lens { (LENS_JOIN, LENS_UNION) } else { (JOIN, UNION) };
        let word = self.text(b"", part, Role::Beside)?;
        let nothing = if is_lens { self.add(COPY, [word, 0, 0], part, Role::Beside)? } else { word };
        self.call_nothing(word, "\"\"");
        self.call_nothing(nothing, if is_lens { "copy \"\"" } else { "\"\"" });
        (1..=most).try_fold(node, |inside, number| {
            let up_to = |least| Times { least, most: Some(number) };
            let some = if number == 1 { node } else { self.add(join, [node, inside, 0], part, Role::Inner)? };
            let role = if number == most { role } else { Role::Inner };
            let option = self.add(union, [nothing, some, 0], part, role)?;
            if number > 1 {
                self.call(some, Role::Inner, up_to(1), node);
            }
            self.call(option, role, up_to(0), node);
            Ok(option)
        })
    }

    /// What only holds a part of a suffix together does not go by the words of the
    /// whole, but by how often it has the node.
    fn call(&mut self, inner: usize, role: Role, times: Times, node: usize) {
        if role == Role::Inner && self.assembly.is_inner.get(inner) == Some(&true) {
            self.assembly.origins[inner].words = times_of(times, &self.assembly.origins[node].words);
        }
    }

    /// The empty text of an option stands nowhere in the program, so it does not
    /// go by the words that made it.
    fn call_nothing(&mut self, node: usize, words: &str) {
        if let Some(origin) = self.assembly.origins.get_mut(node).filter(|origin| !origin.is_named) {
            origin.words = words.to_string();
        }
    }

    fn text(&mut self, text: &[u8], part: Part, role: Role) -> Result<usize, Mistake> {
        if let Some(node) = self.assembly.draft.shared_word(role, text) {
            return Ok(node);
        }
        let start = self.pool_place(text, part)?;
        self.word(text, start, part, role)
    }

    /// A set of these pairs, in this order.
    fn pairs(&mut self, pairs: &[Pair], part: Part, role: Role) -> Result<usize, Mistake> {
        let start = self.pool_place(&pool_bytes(pairs), part)?;
        self.set(pairs.len(), start, part, role)
    }

    fn set(&mut self, pairs: usize, start: usize, part: Part, role: Role) -> Result<usize, Mistake> {
        let node = Draft::set(start, pairs).map_err(|message| self.text_place(part).mistake(message))?;
        self.add(node.kind, node.operands, part, role)
    }

    /// Where the pool holds these bytes, which are added if they are not there.
    fn pool_place(&mut self, bytes: &[u8], part: Part) -> Result<usize, Mistake> {
        let place = self.text_place(part);
        self.assembly.draft.place(bytes).map_err(|message| place.mistake(message))
    }

    fn require_in_pool(&self, start: usize, bytes: &[u8], called: &str, part: Part) -> Result<(), Mistake> {
        if self.assembly.draft.pool_holds(start, bytes) {
            return Ok(());
        }
        Err(self.place(part.last).mistake(format!("the pool does not hold {called} at {start}")))
    }

    fn word(&mut self, text: &[u8], start: usize, part: Part, role: Role) -> Result<usize, Mistake> {
        let node = Draft::word(start, text).map_err(|message| self.text_place(part).mistake(message))?;
        let number = self.add(node.kind, node.operands, part, role)?;
        self.assembly.draft.remember_word(text, number);
        Ok(number)
    }

    /// The node of this kind and these operands, made by a part of the text.
    fn add(&mut self, kind: u8, operands: [usize; 3], part: Part, role: Role) -> Result<usize, Mistake> {
        let node = Node { kind, operands };
        if let Some(number) = self.assembly.draft.shared(role, &node) {
            return Ok(number);
        }
        let number = self.assembly.draft.add(role, node);
        if number <= MAX_NODES {
            let origin = self.origin(part, role);
            self.assembly.origins.push(origin);
            self.assembly.is_inner.push(role == Role::Inner);
        }
        if number == MOST_COUNTED {
            return Err(self.assembly.too_many());
        }
        Ok(number)
    }

    fn origin(&self, part: Part, role: Role) -> Origin {
        let Place { line, column } = self.place(part.first);
        let is_named = role == Role::Named;
        let written = || words(&self.tokens[part.first..=part.last]);
        let words = if is_named { self.name.to_string() } else { written() };
        Origin { line, column, name: self.name.to_string(), is_named, words }
    }
}
