//! What a call of clash shows.

use super::Kind;
use crate::answer::*;
use crate::calls::{Reads, Remembering, MAX_TEXT};
use crate::clash::{breaks, cuts, Clash};
use crate::class::Class;
use crate::program::Program;
use crate::table::{Node, Side};

/// The kinds of a call that was answered so.
pub(super) fn clash_kinds(table: &[u8], answer: &Answer) -> Vec<Kind> {
    let (rule, clash) = match Remembering.find(table) {
        Ok(None) => return vec![Kind::NoClash],
        Ok(Some(found)) => found,
        Err(_) => return Vec::new(),
    };
    let length = clash.text.len();
    if answer.is_err() {
        let huge = (length > MAX_TEXT).then_some(Kind::ClashTooLongAndHuge);
        return [Kind::ClashTooLong].into_iter().chain(huge).collect();
    }
    let Ok(program) = Program::after_first_round(table) else { return Vec::new() };
    let shown = match rule.number {
        SOURCE_JOIN_AMBIGUOUS => Kind::SourceJoinShown,
        SHEET_JOIN_AMBIGUOUS => Kind::SheetJoinShown,
        UNION_OVERLAPS => Kind::UnionShown,
        SOURCE_REPEAT_AMBIGUOUS => Kind::SourceRepeatShown,
        _ => Kind::SheetRepeatShown,
    };
    let (is_union, [first, second]) = (shown == Kind::UnionShown, clash.numbers);
    let node = usize::from(rule.node);
    let facts = [
        (true, shown),
        (length == 0, Kind::EmptyClash),
        (length > 64, Kind::ClashOver64),
        (length > MAX_TEXT, Kind::ClashOver4096),
        (cuts(&program, node, clash.side, &clash.text).len() > 2, Kind::ThreeCuts),
        (!is_union && length > 0 && second == length, Kind::EndAtTheEnd),
        (is_union && first == second, Kind::UnionOfOneChild),
        (is_union && first > second, Kind::UnionTurned),
        (shares_later(&program, node, &clash), Kind::SharedInALaterRun),
        (has_higher(&program, node, &clash), Kind::HigherTextToo),
    ];
    facts.into_iter().filter(|(holds, _)| *holds).map(|(_, kind)| kind).collect()
}

/// Whether two classes below the node share a byte of the text first, behind the first
/// run of one of them.
fn shares_later(program: &Program, node: usize, clash: &Clash) -> bool {
    let mut classes = Vec::new();
    classes_of(program, node, clash.side, &mut classes);
    let behind_first = |class: &Class, byte: u8| class.runs()[0].1 < byte;
    let is_later = |one: &Class, other: &Class| {
        let lowest = one.shared(other).lowest();
        lowest.is_some_and(|byte| clash.text.contains(&byte) && (behind_first(one, byte) || behind_first(other, byte)))
    };
    classes.iter().enumerate().any(|(place, class)| classes[..place].iter().any(|before| is_later(before, class)))
}

/// The different classes of several runs below the node.
fn classes_of(program: &Program, node: usize, side: Side, classes: &mut Vec<Class>) {
    match *program.node(node) {
        Node::Class(class) if class.runs().len() > 1 && !classes.contains(&class) => classes.push(class),
        Node::Const { pattern, sheet, .. } => {
            classes_of(program, if side == Side::Source { pattern } else { sheet }, side, classes);
        }
        ref other => other.children().into_iter().for_each(|child| classes_of(program, child, side, classes)),
    }
}

/// Whether the text breaks the rule too if one of its first bytes is raised to another
/// that stands in the text, or by one.
fn has_higher(program: &Program, node: usize, clash: &Clash) -> bool {
    const TRIED: usize = 8;
    let bytes: Vec<u8> = clash.text.iter().copied().take(TRIED).collect();
    (0..bytes.len()).any(|place| {
        let higher = bytes.iter().copied().chain(bytes[place].checked_add(1)).filter(|&byte| byte > bytes[place]);
        higher.into_iter().any(|byte| {
            let mut text = clash.text.clone();
            text[place] = byte;
            breaks(program, node, clash.side, &text)
        })
    })
}
