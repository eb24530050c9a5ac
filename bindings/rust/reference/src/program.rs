//! Programs: tables that passed both rounds of checking, and the only cut of a
//! text that the second round makes sure of.

use std::cell::OnceCell;
use std::ops::Range;

use crate::ambiguity::{overlap, repeat_fails, two_cuts};
use crate::answer::*;
use crate::automaton::Automaton;
use crate::table::{Node, Side, Table, SIDES};

/// An accepted program. Only inside this crate one may be met that is refused in
/// the second round, so that the refusal can be looked into.
pub struct Program {
    table: Table,
    automata: Automata,
}

impl Program {
    /// Reads and checks a table: the refusals 1 to 11.
    pub fn read(bytes: &[u8]) -> Result<Program, Refusal> {
        let program = Program::after_first_round(bytes)?;
        program.first_typing_fault().map_or(Ok(program), Err)
    }

    /// Reads a table with the refusals 1 to 5 only.
    pub(crate) fn after_first_round(bytes: &[u8]) -> Result<Program, Refusal> {
        let table = Table::read(bytes)?;
        let automata = Automata::new(table.nodes.len());
        Ok(Program { table, automata })
    }

    pub fn table(&self) -> &Table {
        &self.table
    }

    pub fn root(&self) -> usize {
        self.table.root()
    }

    pub fn node(&self, node: usize) -> &Node {
        &self.table.nodes[node]
    }

    /// The automaton of a node's texts on one side, built when first asked for.
    pub fn automaton(&self, node: usize, side: Side) -> &Automaton {
        self.automata.cells[node][side as usize].get_or_init(|| Automaton::of(&self.table, node, side))
    }

    /// Whether a text belongs to a node's language on one side.
    pub fn fits(&self, node: usize, side: Side, text: &[u8]) -> bool {
        self.automaton(node, side).contains(text)
    }

    /// The second round, the refusals 6 to 11: that of the lowest node that
    /// breaks a typing rule.
    pub(crate) fn first_typing_fault(&self) -> Option<Refusal> {
        let at_node = |node| self.typing_fault(node).map(|number| Refusal::at(number, node));
        (0..self.table.nodes.len()).find_map(at_node)
    }

    /// The typing rule that a node breaks. On nodes that break it on both sides
    /// the source comes first, as in the table of refusals.
    fn typing_fault(&self, number: usize) -> Option<u8> {
        let on_sides = |numbers: [u8; 2], fails: &dyn Fn(Side) -> bool| {
            SIDES.into_iter().zip(numbers).find(|&(side, _)| fails(side)).map(|(_, number)| number)
        };
        match *self.node(number) {
            Node::Const { pattern, default, .. } => {
                let default = self.table.word(default);
                (!self.fits(pattern, Side::Source, default)).then_some(BAD_DEFAULT)
            }
            Node::LensJoin(a, b) => on_sides([SOURCE_JOIN_AMBIGUOUS, SHEET_JOIN_AMBIGUOUS], &|side| {
                two_cuts(self.automaton(a, side), self.automaton(b, side))
            }),
            Node::LensUnion(a, b) => {
                let (a, b) = (self.automaton(a, Side::Source), self.automaton(b, Side::Source));
                overlap(a, b).then_some(UNION_OVERLAPS)
            }
            Node::LensRepeat(a) => on_sides([SOURCE_REPEAT_AMBIGUOUS, SHEET_REPEAT_AMBIGUOUS], &|side| {
                repeat_fails(self.automaton(a, side), self.automaton(number, side))
            }),
            _ => None,
        }
    }

    /// The only cut of a text of the join of `a` and `b`.
    ///
    /// The text is asked about from both ends, so neither the shortest nor the
    /// longest match is preferred: the cut is where both halves fit.
    pub fn cut<'t>(&self, a: usize, b: usize, side: Side, text: &'t [u8]) -> (&'t [u8], &'t [u8]) {
        let fits_a = self.automaton(a, side).prefixes(text);
        let fits_b = self.automaton(b, side).suffixes(text);
        let at = (0..=text.len()).find(|&at| fits_a[at] && fits_b[at]);
        text.split_at(at.expect("only texts of the join are cut"))
    }

    /// The only cut into parts of a text of the repeat `repeat` over `part`.
    pub fn parts(&self, repeat: usize, part: usize, side: Side, text: &[u8]) -> Vec<Range<usize>> {
        let rest_fits = self.automaton(repeat, side).suffixes(text);
        let mut parts = Vec::new();
        let mut start = 0;
        while start < text.len() {
            let length = self.automaton(part, side).first_end(&text[start..], |length| rest_fits[start + length]);
            let end = start + length.expect("only texts of the repeat are cut");
            parts.push(start..end);
            start = end;
        }
        parts
    }
}

/// Automata by node and side, each built at most once.
struct Automata {
    cells: Vec<[OnceCell<Automaton>; 2]>,
}

impl Automata {
    fn new(nodes: usize) -> Automata {
        Automata { cells: (0..nodes).map(|_| [OnceCell::new(), OnceCell::new()]).collect() }
    }
}
