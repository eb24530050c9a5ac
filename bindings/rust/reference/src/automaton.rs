//! Thompson automata: one start, one end, moves that read a byte and free
//! moves that read none.
//!
//! They are never made deterministic: a run keeps the set of states that the
//! bytes so far can lead to. Every construction below gives a state at most one
//! reading move out and one in, so the automaton that reads backwards has the
//! same form.

use std::cell::OnceCell;

use crate::class::Class;
use crate::table::{Node, Side, Table};

/// A move that reads one byte of a class.
#[derive(Clone, Copy, Debug)]
pub struct Reading {
    pub class: Class,
    pub to: usize,
}

#[derive(Clone, Debug, Default)]
pub struct State {
    pub reading: Option<Reading>,
    pub free: Vec<usize>,
}

/// The language of one node on one side.
#[derive(Clone, Debug)]
pub struct Automaton {
    pub states: Vec<State>,
    /// The same moves turned round, made when first asked for: most automata
    /// are only ever read forwards.
    turned: OnceCell<Vec<State>>,
    pub start: usize,
    pub end: usize,
}

impl Automaton {
    pub fn of(table: &Table, node: usize, side: Side) -> Automaton {
        let mut states = Vec::new();
        let (start, end) = Builder { table, side, states: &mut states }.add(node);
        Automaton { states, turned: OnceCell::new(), start, end }
    }

    /// The same moves turned round, for runs from the end of a text.
    pub fn turned(&self) -> &[State] {
        self.turned.get_or_init(|| turned(&self.states))
    }

    /// Whether the text belongs to the language.
    pub fn contains(&self, text: &[u8]) -> bool {
        let mut run = Run::new(&self.states, self.start);
        for &byte in text {
            run.step(byte);
            if run.is_over() {
                return false;
            }
        }
        run.is_at(self.end)
    }

    /// Whether several states can read some byte of the text, so that the bytes
    /// before it don't say which way to go.
    pub fn has_choices(&self, text: &[u8]) -> bool {
        let mut run = Run::new(&self.states, self.start);
        for &byte in text {
            if run.count_readers(byte) > 1 {
                return true;
            }
            run.step(byte);
        }
        false
    }

    /// Flag i says whether the first i bytes belong to the language.
    pub fn prefixes(&self, text: &[u8]) -> Vec<bool> {
        flags(Run::new(&self.states, self.start), self.end, text.iter(), text.len())
    }

    /// Flag i says whether the bytes from i on belong to the language.
    pub fn suffixes(&self, text: &[u8]) -> Vec<bool> {
        let mut flags = flags(Run::new(self.turned(), self.end), self.start, text.iter().rev(), text.len());
        flags.reverse();
        flags
    }

    /// The least number n of bytes, at least one, such that the first n bytes
    /// belong to the language and `allowed` holds of n.
    pub fn first_end(&self, text: &[u8], allowed: impl Fn(usize) -> bool) -> Option<usize> {
        let mut run = Run::new(&self.states, self.start);
        for (index, &byte) in text.iter().enumerate() {
            run.step(byte);
            if run.is_over() {
                return None;
            }
            if run.is_at(self.end) && allowed(index + 1) {
                return Some(index + 1);
            }
        }
        None
    }
}

fn flags<'b>(mut run: Run, goal: usize, bytes: impl Iterator<Item = &'b u8>, length: usize) -> Vec<bool> {
    let mut flags = vec![false; length + 1];
    flags[0] = run.is_at(goal);
    for (index, &byte) in bytes.enumerate() {
        run.step(byte);
        if run.is_over() {
            break;
        }
        flags[index + 1] = run.is_at(goal);
    }
    flags
}

fn turned(states: &[State]) -> Vec<State> {
    let mut turned = vec![State::default(); states.len()];
    for (from, state) in states.iter().enumerate() {
        for &to in &state.free {
            turned[to].free.push(from);
        }
        if let Some(reading) = state.reading {
            debug_assert!(turned[reading.to].reading.is_none());
            turned[reading.to].reading = Some(Reading { to: from, ..reading });
        }
    }
    turned
}

/// Thompson's construction over the nodes of a table.
struct Builder<'a> {
    table: &'a Table,
    side: Side,
    states: &'a mut Vec<State>,
}

impl Builder<'_> {
    /// Adds the states of a node and gives its start and its end.
    fn add(&mut self, node: usize) -> (usize, usize) {
        match (&self.table.nodes[node], self.side) {
            (Node::Word(text), _) => self.word(text),
            (&Node::Class(class), _) => self.chain([class].into_iter()),
            (&Node::PatternJoin(a, b) | &Node::LensJoin(a, b), _) => self.join(a, b),
            (&Node::PatternUnion(a, b) | &Node::LensUnion(a, b), _) => self.union(a, b),
            (&Node::PatternRepeat(a) | &Node::LensRepeat(a), _) => self.repeat(a),
            (&Node::Copy(a) | &Node::Key(a) | &Node::Match(a), _) => self.add(a),
            (&Node::Const { pattern, .. }, Side::Source) => self.add(pattern),
            (&Node::Const { sheet, .. }, Side::Sheet) => self.add(sheet),
        }
    }

    fn state(&mut self) -> usize {
        self.states.push(State::default());
        self.states.len() - 1
    }

    fn free(&mut self, from: usize, to: usize) {
        self.states[from].free.push(to);
    }

    fn word(&mut self, text: &[u8]) -> (usize, usize) {
        self.chain(text.iter().map(|&byte| Class::of_byte(byte)))
    }

    fn chain(&mut self, classes: impl Iterator<Item = Class>) -> (usize, usize) {
        let start = self.state();
        let mut end = start;
        for class in classes {
            let to = self.state();
            self.states[end].reading = Some(Reading { class, to });
            end = to;
        }
        (start, end)
    }

    fn join(&mut self, a: usize, b: usize) -> (usize, usize) {
        let (start, middle) = self.add(a);
        let (entry, end) = self.add(b);
        self.free(middle, entry);
        (start, end)
    }

    fn union(&mut self, a: usize, b: usize) -> (usize, usize) {
        let start = self.state();
        let arms = [self.add(a), self.add(b)];
        let end = self.state();
        for (entry, exit) in arms {
            self.free(start, entry);
            self.free(exit, end);
        }
        (start, end)
    }

    fn repeat(&mut self, a: usize) -> (usize, usize) {
        let hub = self.state();
        let (entry, exit) = self.add(a);
        let end = self.state();
        self.free(hub, entry);
        self.free(exit, hub);
        self.free(hub, end);
        (hub, end)
    }
}

/// The states that the bytes read so far can lead to.
pub(crate) struct Run<'a> {
    states: &'a [State],
    active: Vec<usize>,
    is_active: Vec<bool>,
    /// The set before the last step, kept only to use its memory again.
    before: Vec<usize>,
}

impl<'a> Run<'a> {
    pub(crate) fn new(states: &'a [State], start: usize) -> Run<'a> {
        let mut run = Run { states, active: Vec::new(), is_active: vec![false; states.len()], before: Vec::new() };
        run.enter(start);
        run.follow_free_moves();
        run
    }

    fn enter(&mut self, state: usize) {
        if !self.is_active[state] {
            self.is_active[state] = true;
            self.active.push(state);
        }
    }

    /// The active list grows while it is walked, so free moves of states that
    /// were reached by free moves are followed too.
    fn follow_free_moves(&mut self) {
        let mut next = 0;
        while next < self.active.len() {
            let states = self.states;
            for &to in &states[self.active[next]].free {
                self.enter(to);
            }
            next += 1;
        }
    }

    pub(crate) fn step(&mut self, byte: u8) {
        std::mem::swap(&mut self.active, &mut self.before);
        self.active.clear();
        for &state in &self.before {
            self.is_active[state] = false;
        }
        for index in 0..self.before.len() {
            if let Some(reading) = &self.states[self.before[index]].reading {
                if reading.class.has(byte) {
                    self.enter(reading.to);
                }
            }
        }
        self.follow_free_moves();
    }

    /// The reading moves that can come next.
    pub(crate) fn readings(&self) -> impl Iterator<Item = Reading> + '_ {
        self.active.iter().filter_map(|&state| self.states[state].reading)
    }

    fn count_readers(&self, byte: u8) -> usize {
        self.readings().filter(|reading| reading.class.has(byte)).count()
    }

    pub(crate) fn is_at(&self, state: usize) -> bool {
        self.is_active[state]
    }

    fn is_over(&self) -> bool {
        self.active.is_empty()
    }
}
