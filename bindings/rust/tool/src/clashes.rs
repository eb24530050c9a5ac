//! Why a program is refused with 7 to 11: the text that shows it, and the two ways to
//! read it, in words. Text, ends and arms are the engine's.

use noontrough::{Clash, Ways, MAX_CLASH};
use noontrough_reference::clash::parts_from;
use noontrough_reference::table::Side;

use crate::program::Program;
use crate::words::{grouped, quote_shortened};

/// What is told of a program that is refused so.
pub fn behind_refusal(program: &Program) -> Option<String> {
    let mut out = vec![0; MAX_CLASH];
    noontrough::clash(&program.table, &mut out).clash().map(|clash| told(program, &clash))
}

/// The place, the rule by the names of its nodes, the text and the two ways to read it.
pub fn told(program: &Program, clash: &Clash) -> String {
    let node = clash.node as usize;
    let side = if clash.is_in_source() { "source" } else { "sheet" };
    let (rule, shown) = match (clash.ways, clash.number) {
        (Ways::Arms(a, b), _) => ("is a union".to_string(), both_arms(program, node, clash.text, [a, b])),
        (Ways::Ends(early, late), 7 | 8) => (joins(program, node), both_cuts(clash.text, [early, late])),
        (Ways::Ends(early, late), _) => (repeats(program, node), both_lists(program, clash, [early, late])),
    };
    format!("{}: {} {rule}; in the {side}, {shown}", program.place_of(node), program.name_of(node))
}

/// A child by its name, and by its line if it is another than its parent's.
fn child_of(program: &Program, parent: usize, child: usize) -> String {
    let line_elsewhere = program.line_of(child).filter(|&line| program.line_of(parent) != Some(line));
    let line = line_elsewhere.map_or_else(String::new, |line| format!(" (line {line})"));
    format!("{}{line}", program.name_of(child))
}

fn children(program: &Program, node: usize) -> [String; 3] {
    program.record(node).map_or([0; 3], |(_, operands)| operands).map(|child| child_of(program, node, child))
}

fn joins(program: &Program, node: usize) -> String {
    let [first, second, _] = children(program, node);
    format!("joins {first} and {second}")
}

fn repeats(program: &Program, node: usize) -> String {
    let [part, ..] = children(program, node);
    format!("repeats {part}")
}

fn both_arms(program: &Program, union: usize, text: &[u8], arms: [u64; 2]) -> String {
    let [a, b] = arms.map(|arm| child_of(program, union, arm as usize));
    format!("{} belongs to both arms: {a} and {b}", quote_shortened(text))
}

fn both_cuts(text: &[u8], ends: [usize; 2]) -> String {
    let cut = |end: usize| {
        let (first, second) = text.split_at(end);
        format!("{} + {}", quote_shortened(first), quote_shortened(second))
    };
    cut_both_ways(text, ends.map(cut))
}

fn cut_both_ways(text: &[u8], [early, late]: [String; 2]) -> String {
    format!("{} can be cut as {early} and as {late}", quote_shortened(text))
}

/// How many parts of a list are shown.
const PARTS: usize = 16;

/// The engine gives the end of the first part; how the rest is cut is worked out by
/// the reference.
fn both_lists(program: &Program, clash: &Clash, ends: [usize; 2]) -> String {
    if clash.text.is_empty() {
        return "the empty text is a part, so nobody could count the parts".to_string();
    }
    let side = if clash.is_in_source() { Side::Source } else { Side::Sheet };
    let parts = |end: usize| {
        let cuts = parts_from(&program.table, clash.node as usize, side, clash.text, end).unwrap_or_default();
        let shown = cuts.iter().take(PARTS).map(|cut| quote_shortened(&clash.text[cut.clone()]));
        let more = (cuts.len() > PARTS).then(|| format!("{} more", grouped(cuts.len() - PARTS)));
        shown.chain(more).collect::<Vec<String>>().join(" + ")
    };
    cut_both_ways(clash.text, ends.map(parts))
}
