//! Sets (kind 5) in a table: what their pairs are like, and for what they are
//! refused.

use super::Kind;
use crate::answer::{Refusal, BAD_OPERAND, SHEET_REPEAT_AMBIGUOUS, SOURCE_JOIN_AMBIGUOUS};
use crate::class::{Class, Pair};
use crate::program::Program;
use crate::table::{kind, Layout, Node, MAX_PAIRS, MAX_POOL};

/// So many sets of one pool part are many.
const MANY: usize = 30;

/// A set that the root is made of.
struct Set {
    record: [u8; 3],
    pairs: Vec<Pair>,
}

impl Set {
    fn end(&self) -> usize {
        usize::from(self.record[0]) * 256 + usize::from(self.record[1]) + 2 * self.pairs.len()
    }

    fn overlaps(&self) -> bool {
        let classes: Vec<Class> = self.pairs.iter().map(|&pair| Class::of_pairs([pair])).collect();
        classes.iter().enumerate().any(|(place, class)| classes[..place].iter().any(|before| before.meets(class)))
    }
}

/// The kinds of an accepted program, of whose nodes these are reached.
pub(super) fn program_kinds(table: &[u8], program: &Program, reached: &[usize]) -> Vec<Kind> {
    let Some(layout) = Layout::of(table) else { return Vec::new() };
    let of_kind_5 = reached.iter().filter(|&&node| layout.kinds[node] == kind::SET);
    let records = of_kind_5.map(|&node| layout.record(node));
    let sets: Vec<Set> = records.filter_map(|record| layout.pairs(record).map(|pairs| Set { record, pairs })).collect();
    let any = |holds: &dyn Fn(&Set) -> bool| sets.iter().any(holds);
    let of_one_part = |set: &Set| sets.iter().filter(|other| other.record == set.record).count();
    let facts = [
        (!sets.is_empty(), Kind::Sets),
        (any(&|set| set.pairs.len() == 1), Kind::SetOfOnePair),
        (any(&|set| set.pairs.len() == MAX_PAIRS), Kind::SetOf32Pairs),
        (any(&|set| set.pairs.windows(2).any(|two| two[1] < two[0])), Kind::SetOutOfOrder),
        (any(&Set::overlaps), Kind::SetOverlapping),
        (any(&|set| set.pairs.contains(&(0, 255))), Kind::SetOfEveryByte),
        (any(&|set| set.end() == layout.pool.len()), Kind::SetAtThePoolsEnd),
        (any(&|set| set.end() == MAX_POOL && set.pairs.len() == MAX_PAIRS), Kind::SetAt448),
        (any(&|set| of_one_part(set) >= MANY), Kind::ManySetsOfOnePart),
        (!sets.is_empty() && hulls_meet_only(program, reached), Kind::HullsMeetOnly),
    ];
    facts.into_iter().filter(|(holds, _)| *holds).map(|(_, kind)| kind).collect()
}

/// Whether two classes share no byte, though each has one between bytes of the
/// other or on both sides of them.
fn hulls_meet_only(program: &Program, reached: &[usize]) -> bool {
    let class_of = |&node: &usize| match *program.node(node) {
        Node::Class(class) => Some(class),
        _ => None,
    };
    let hull = |class: &Class| {
        let runs = class.runs();
        runs.first().zip(runs.last()).map_or(Class::default(), |(low, high)| Class::of_pairs([(low.0, high.1)]))
    };
    let mut classes: Vec<Class> = reached.iter().filter_map(class_of).collect();
    classes.dedup();
    let meet_only = |one: &Class, other: &Class| hull(one).meets(&hull(other)) && !one.meets(other);
    classes.iter().enumerate().any(|(place, class)| classes[..place].iter().any(|before| meet_only(before, class)))
}

/// The kinds of a refusal that sets have to do with.
pub(super) fn refusal_kinds(table: &[u8], refusal: Refusal) -> Vec<Kind> {
    let Some(layout) = Layout::of(table) else { return Vec::new() };
    let node = usize::from(refusal.node);
    let kind = match (refusal.number, layout.kinds[node]) {
        // The root is named when it is a pattern, also when all of it is right.
        (BAD_OPERAND, kind::SET) => operand_kind(&layout, node),
        (BAD_OPERAND, kind::CONST) if has_set_for_word(&layout, node) => Some(Kind::SetForAWord),
        (SOURCE_JOIN_AMBIGUOUS..=SHEET_REPEAT_AMBIGUOUS, _) if layout.kinds[..node].contains(&kind::SET) => {
            Some(Kind::SetsAndAClash)
        }
        _ => None,
    };
    kind.into_iter().collect()
}

fn operand_kind(layout: &Layout, node: usize) -> Option<Kind> {
    let record = layout.record(node);
    let is_reversed = |&(first, last): &Pair| first > last;
    match layout.pairs(record) {
        None if (1..=MAX_PAIRS).contains(&usize::from(record[2])) => Some(Kind::SetOutsideThePool),
        None => Some(Kind::SetOfNoneOrTooMany),
        Some(pairs) if is_reversed(&pairs[0]) => Some(Kind::SetReversed),
        Some(pairs) => pairs.iter().any(is_reversed).then_some(Kind::SetReversedLater),
    }
}

fn has_set_for_word(layout: &Layout, constant: usize) -> bool {
    let words = &layout.record(constant)[1..];
    words.iter().any(|&word| usize::from(word) < constant && layout.kinds[usize::from(word)] == kind::SET)
}
