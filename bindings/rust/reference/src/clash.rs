//! The text behind a refusal 7 to 11: a shortest one that breaks the rule, and
//! among the shortest the lowest in byte order.
//!
//! As in [`crate::ambiguity`], two runs over one text are a walk through pairs
//! of states. Here the texts are followed from the empty one on, byte by byte,
//! shorter ones before longer ones and lower ones before higher ones. Each place
//! belongs to the first text that leads to it. A text that leads to a place only
//! after another need not go on from there: whatever follows, the other text
//! with the same bytes behind it comes before it. So each place is met once, and
//! the text that first leads to the end is the one to be shown.

use std::ops::Range;

use crate::answer::*;
use crate::automaton::{Automaton, State};
use crate::program::Program;
use crate::table::{Node, Side};

/// A shortest text that breaks a typing rule, the lowest in byte order among
/// them.
#[derive(Clone, Debug, PartialEq, Eq)]
pub struct Clash {
    /// The side on which the rule is broken.
    pub side: Side,
    pub text: Vec<u8>,
    /// For a join the two smallest ends of the first half, over all cuts of the
    /// text. For a repeat those of the first part; both are 0 if a part can be
    /// empty, and then the text is empty too. For a union its two children's
    /// numbers, in the order of its operands.
    pub numbers: [usize; 2],
}

/// The clash behind a refusal 7 to 11 of a table; nothing for a table that is
/// accepted or refused with another number.
///
/// Number and node are those that check gives, and only that rule at that node
/// is shown.
pub fn clash(table: &[u8]) -> Option<(Refusal, Clash)> {
    shown(table).ok().flatten()
}

/// The same with the other refusals; nothing for a table that is accepted.
pub fn shown(table: &[u8]) -> Result<Option<(Refusal, Clash)>, Refusal> {
    let program = Program::after_first_round(table)?;
    let Some(refusal) = program.first_typing_fault() else { return Ok(None) };
    clash_behind(&program, refusal).map(|clash| Some((refusal, clash))).ok_or(refusal)
}

fn clash_behind(program: &Program, refusal: Refusal) -> Option<Clash> {
    let side = match refusal.number {
        SOURCE_JOIN_AMBIGUOUS | UNION_OVERLAPS | SOURCE_REPEAT_AMBIGUOUS => Side::Source,
        SHEET_JOIN_AMBIGUOUS | SHEET_REPEAT_AMBIGUOUS => Side::Sheet,
        _ => return None,
    };
    let of = |node| program.automaton(node, side);
    let node = usize::from(refusal.node);
    let (text, numbers) = match *program.node(node) {
        Node::LensJoin(a, b) => two_cuts(of(a), of(b)),
        Node::LensUnion(a, b) => (Search::for_texts_of_both(of(a), of(b)).first_text(), [a, b]),
        Node::LensRepeat(part) if program.fits(part, side, b"") => (Vec::new(), [0, 0]),
        // Two lists of parts of a shortest text begin with different parts,
        // since a part that both begin with could be left out. So they are two
        // cuts into a part and further parts.
        Node::LensRepeat(part) => two_cuts(of(part), of(node)),
        ref other => unreachable!("joins, unions and repeats are refused with 7 to 11, not {other:?}"),
    };
    Some(Clash { side, text, numbers })
}

/// The text with two cuts into one of `a` and one of `b`, and its two smallest
/// cuts. They need not be the two that the search has met.
fn two_cuts(a: &Automaton, b: &Automaton) -> (Vec<u8>, [usize; 2]) {
    let text = Search::for_two_cuts(a, b).first_text();
    let ends = all_cuts(a, b, &text);
    assert!(ends.len() > 1, "the text has two cuts");
    (text, [ends[0], ends[1]])
}

/// The ends of the first half in all cuts of a text into one of `a` and one of `b`.
fn all_cuts(a: &Automaton, b: &Automaton, text: &[u8]) -> Vec<usize> {
    let (fits_a, fits_b) = (a.prefixes(text), b.suffixes(text));
    (0..=text.len()).filter(|&at| fits_a[at] && fits_b[at]).collect()
}

/// The ends of the first half or part in all cuts of a text at a join or a repeat.
/// Other nodes have none.
pub(crate) fn cuts(program: &Program, node: usize, side: Side, text: &[u8]) -> Vec<usize> {
    let of = |node| program.automaton(node, side);
    match *program.node(node) {
        Node::LensJoin(a, b) => all_cuts(of(a), of(b), text),
        Node::LensRepeat(part) => all_cuts(of(part), of(node), text),
        _ => Vec::new(),
    }
}

/// The same for a table. Nothing if it has not passed the first round, or has no such
/// node.
pub fn ends(table: &[u8], node: usize, side: Side, text: &[u8]) -> Option<Vec<usize>> {
    let program = Program::after_first_round(table).ok()?;
    (node <= program.root()).then(|| cuts(&program, node, side, text))
}

/// Whether a text, not empty, breaks the rule of a join, a union or a repeat.
pub(crate) fn breaks(program: &Program, node: usize, side: Side, text: &[u8]) -> bool {
    match *program.node(node) {
        Node::LensUnion(a, b) => program.fits(a, side, text) && program.fits(b, side, text),
        _ => cuts(program, node, side, text).len() > 1,
    }
}

/// A text of the repeat at this node cut into parts: the first part has this
/// end, and each further one, none of them empty, the shortest end that lets the
/// rest be cut.
///
/// The table need only have passed the first round, so that the cuts of a repeat
/// that is refused can be shown. Nothing if it has not, if the node is no lens
/// repeat, or if the text has no such cut.
pub fn parts_from(table: &[u8], repeat: usize, side: Side, text: &[u8], first_end: usize) -> Option<Vec<Range<usize>>> {
    let program = Program::after_first_round(table).ok()?;
    let &Node::LensRepeat(part) = program.table().nodes.get(repeat)? else { return None };
    let (first, rest) = text.split_at_checked(first_end)?;
    if !program.fits(part, side, first) || !program.fits(repeat, side, rest) {
        return None;
    }
    let further = program.parts(repeat, part, side, rest);
    let in_text = further.into_iter().map(|range| first_end + range.start..first_end + range.end);
    Some(std::iter::once(0..first_end).chain(in_text).collect())
}

/// Two runs over one text, from the start of the first stage to the end of the
/// last.
struct Search<'a> {
    stages: Vec<Stage<'a>>,
    /// The number of places in all stages.
    places: usize,
}

/// A stretch of the text in which each run stays in one language.
struct Stage<'a> {
    early: &'a Automaton,
    late: &'a Automaton,
    /// The stage in which the runs are after a byte. It has the same languages.
    after_byte: usize,
    /// The run that may go on to the next stage once it is at its end, and then
    /// is at the start of its language there.
    crosses: Option<Crossing>,
    /// How many places the stages before have.
    places_before: usize,
}

#[derive(Clone, Copy)]
enum Crossing {
    Early,
    Late,
}

/// The states in which two runs are.
#[derive(Clone, Copy, PartialEq, Eq)]
struct Place {
    stage: usize,
    early: usize,
    late: usize,
}

impl<'a> Search<'a> {
    fn for_texts_of_both(a: &'a Automaton, b: &'a Automaton) -> Search<'a> {
        Search::through([(a, b, 0, None)])
    }

    /// Two cuts of one text are texts u, x, v with x not empty, both u and ux in
    /// `a`, both xv and v in `b`. The early run is cut before x, the late one
    /// behind it.
    fn for_two_cuts(a: &'a Automaton, b: &'a Automaton) -> Search<'a> {
        Search::through([
            // u
            (a, a, 0, Some(Crossing::Early)),
            // x while nothing of it is read, and from its first byte on
            (b, a, 2, None),
            (b, a, 2, Some(Crossing::Late)),
            // v
            (b, b, 3, None),
        ])
    }

    /// The stages in their order, each as its early and late language, the stage
    /// after a byte, and the run that crosses to the next.
    fn through<const COUNT: usize>(
        parts: [(&'a Automaton, &'a Automaton, usize, Option<Crossing>); COUNT],
    ) -> Search<'a> {
        let (mut stages, mut places) = (Vec::new(), 0);
        for (early, late, after_byte, crosses) in parts {
            stages.push(Stage { early, late, after_byte, crosses, places_before: places });
            places += early.states.len() * late.states.len();
        }
        Search { stages, places }
    }

    fn start(&self) -> Place {
        let first = &self.stages[0];
        Place { stage: 0, early: first.early.start, late: first.late.start }
    }

    fn end(&self) -> Place {
        let stage = self.stages.len() - 1;
        let last = &self.stages[stage];
        Place { stage, early: last.early.end, late: last.late.end }
    }

    /// The place's number among all.
    fn number(&self, place: Place) -> usize {
        let stage = &self.stages[place.stage];
        stage.places_before + place.early * stage.late.states.len() + place.late
    }

    fn free_moves(&self, place: Place) -> impl Iterator<Item = Place> + '_ {
        let stage = &self.stages[place.stage];
        beside(place, &stage.early.states, &stage.late.states).chain(self.crossing_from(place))
    }

    fn crossing_from(&self, place: Place) -> Option<Place> {
        let here = &self.stages[place.stage];
        let next = self.stages.get(place.stage + 1)?;
        let stage = place.stage + 1;
        match here.crosses? {
            Crossing::Early => {
                (place.early == here.early.end).then_some(Place { stage, early: next.early.start, ..place })
            }
            Crossing::Late => (place.late == here.late.end).then_some(Place { stage, late: next.late.start, ..place }),
        }
    }

    /// The lowest byte that both runs can read, and where it leads to.
    fn byte_move(&self, place: Place) -> Option<(u8, Place)> {
        let stage = &self.stages[place.stage];
        let early = stage.early.states[place.early].reading?;
        let late = stage.late.states[place.late].reading?;
        let byte = early.class.shared(&late.class).lowest()?;
        Some((byte, Place { stage: stage.after_byte, early: early.to, late: late.to }))
    }

    /// The first text, by length and then by bytes, that leads from the start to
    /// the end.
    fn first_text(&self) -> Vec<u8> {
        let (end, mut met) = (self.end(), vec![false; self.places]);
        let mut texts = Texts::default();
        // The texts of one length, lowest first, with the places that each is the first to lead to.
        let mut layer = vec![(Texts::EMPTY, vec![self.start()])];
        while !layer.is_empty() {
            let mut moves = Vec::new();
            for (text, mut places) in layer {
                let enter = |place| !std::mem::replace(&mut met[self.number(place)], true);
                follow(&mut places, |place| self.free_moves(place), enter);
                if places.contains(&end) {
                    return texts.spell(text);
                }
                let by_byte = places.iter().filter_map(|&place| self.byte_move(place));
                moves.extend(by_byte.map(|(byte, to)| (text, byte, to)));
            }
            moves.sort_by_key(|&(text, byte, _)| (text, byte));
            let alike = moves.chunk_by(|(text, byte, _), (next, further, _)| (text, byte) == (next, further));
            layer = alike
                .map(|moves| (texts.longer(moves[0].0, moves[0].1), moves.iter().map(|&(.., to)| to).collect()))
                .collect();
        }
        unreachable!("only rules that some text breaks are shown")
    }
}

/// Texts, each but the empty one as another and a byte behind it. Their numbers
/// are in the order in which they are made.
#[derive(Default)]
struct Texts {
    steps: Vec<(usize, u8)>,
}

impl Texts {
    const EMPTY: usize = 0;

    fn longer(&mut self, text: usize, byte: u8) -> usize {
        self.steps.push((text, byte));
        self.steps.len()
    }

    fn spell(&self, mut text: usize) -> Vec<u8> {
        let mut bytes = Vec::new();
        while text != Texts::EMPTY {
            let (before, byte) = self.steps[text - 1];
            bytes.push(byte);
            text = before;
        }
        bytes.reverse();
        bytes
    }
}

/// The places to which one of the runs goes by a free move of its own.
fn beside<'s>(place: Place, early: &'s [State], late: &'s [State]) -> impl Iterator<Item = Place> + 's {
    let by_early = early[place.early].free.iter().map(move |&early| Place { early, ..place });
    let by_late = late[place.late].free.iter().map(move |&late| Place { late, ..place });
    by_early.chain(by_late)
}

/// Keeps the places that `enter` lets in, and adds those it lets in of all that
/// moves lead to from them. The list grows while it is walked, so the moves of
/// added places are followed too.
fn follow<Moves: Iterator<Item = Place>>(
    places: &mut Vec<Place>,
    moves: impl Fn(Place) -> Moves,
    mut enter: impl FnMut(Place) -> bool,
) {
    places.retain(|&place| enter(place));
    let mut next = 0;
    while next < places.len() {
        places.extend(moves(places[next]).filter(|&place| enter(place)));
        next += 1;
    }
}
