//! Where in a program a refusal from 2 to 11 comes from, and what shows it. (Of 7 to
//! 11 that is told by [`crate::clashes`].)

use noontrough_assembler::assembly::MAX_PAIRS;
use noontrough_assembler::kinds::{by_byte, is_lens, Kind, Sort, MATCH, RANGE, SET, WORD};
use noontrough_assembler::line::quote_byte;
use noontrough_assembler::too_large;

use crate::clashes;
use crate::program::Program;
use crate::words::quote_shortened;

const MAX_WORD: usize = 64;

/// The place, the node's name and what is wrong there.
pub fn told(program: &Program, number: u64, node: usize) -> Option<String> {
    if number >= 7 {
        return clashes::behind_refusal(program);
    }
    let what = match number {
        2 => unknown_kind(program, node),
        3 => wrong_operand(program, node),
        4 => inner_match(program, node),
        5 => program.assembled.as_ref().and_then(|assembled| too_large(assembled, node)),
        _ => wrong_default(program, node),
    };
    let what = what.unwrap_or_else(|| program.name_of(node));
    Some(format!("{}: {what}", program.place_of(node)))
}

fn unknown_kind(program: &Program, node: usize) -> Option<String> {
    let (kind, _) = program.record(node)?;
    Some(format!("{} is of kind {kind}", program.name_of(node)))
}

/// The first operand that breaks a rule.
fn wrong_operand(program: &Program, node: usize) -> Option<String> {
    let (kind, operands) = program.record(node)?;
    let kind = by_byte(kind)?;
    let children = kind.sorts().iter().zip(operands);
    let wrong_child = || children.clone().find_map(|(&sort, child)| wrong_child(program, node, kind, sort, child));
    let unused = || operands[kind.operands()..].iter().any(|&operand| operand != 0);
    let wrong = wrong_leaf(program, node, kind.byte, operands)
        .or_else(wrong_child)
        .or_else(|| unused().then(|| "an operand that is not used is not 0".to_string()))
        .unwrap_or_else(|| "the last line is the whole program, and this is a pattern and no lens".to_string());
    Some(format!("{}: {wrong}", program.name_of(node)))
}

/// What can be wrong with a word, a range or a set.
fn wrong_leaf(program: &Program, node: usize, kind: u8, [a, b, c]: [usize; 3]) -> Option<String> {
    match kind {
        WORD if c > MAX_WORD => Some(format!("a word of {c} bytes, and {MAX_WORD} are the most")),
        WORD if program.word(node).is_none() => Some("a word that lies outside the pool".to_string()),
        RANGE if a > b => Some(reversed(a as u8, b as u8)),
        SET if c == 0 || c > MAX_PAIRS => Some(format!("a set of {c} pairs, and 1 to {MAX_PAIRS} are possible")),
        SET => wrong_pairs(program, node),
        _ => None,
    }
}

/// What can be wrong with the pairs of a set.
fn wrong_pairs(program: &Program, node: usize) -> Option<String> {
    let Some(pairs) = program.pairs(node) else {
        return Some("a set whose pairs leave the pool".to_string());
    };
    let place = pairs.iter().position(|(first, last)| first > last)?;
    let (first, last) = pairs[place];
    Some(format!("pair {} of the set is reversed: {}", place + 1, reversed(first, last)))
}

fn reversed(first: u8, last: u8) -> String {
    format!("{} comes behind {}, so no byte lies between", quote_byte(first), quote_byte(last))
}

fn wrong_child(program: &Program, node: usize, kind: &Kind, sort: Sort, child: usize) -> Option<String> {
    if child >= node {
        return Some(format!("its child {child} is no node above it"));
    }
    let (found, _) = program.record(child)?;
    let fits = match sort {
        Sort::Word => found == WORD,
        Sort::Pattern => !is_lens(found),
        Sort::Lens => is_lens(found),
    };
    let found = if is_lens(found) { "a lens" } else { "a pattern" };
    let wanted = match sort {
        Sort::Word => "a word",
        Sort::Pattern => "a pattern",
        Sort::Lens => "a lens",
    };
    let advice = match (sort, found) {
        (Sort::Lens, _) => ": put 'copy' or 'key' over it",
        (Sort::Pattern, "a lens") if !is_lens(kind.byte) => ": 'lens join', 'lens union' and 'lens repeat' take lenses",
        _ => "",
    };
    let name = program.name_of(child);
    (!fits).then(|| format!("{name} is {found}, and '{}' takes {wanted} there{advice}", kind.words))
}

fn inner_match(program: &Program, node: usize) -> Option<String> {
    let (_, [child, ..]) = program.record(node)?;
    let inner = first_match(program, child)?;
    Some(format!("{} is a match, and holds the match {}", program.name_of(node), program.name_of(inner)))
}

/// The first match at or below a lens.
fn first_match(program: &Program, node: usize) -> Option<usize> {
    let (kind, operands) = program.record(node)?;
    if kind == MATCH {
        return Some(node);
    }
    let children = by_byte(kind)?.sorts().iter().zip(operands);
    children.filter(|(&sort, _)| sort == Sort::Lens).find_map(|(_, child)| first_match(program, child))
}

fn wrong_default(program: &Program, node: usize) -> Option<String> {
    let (_, [pattern, _, default]) = program.record(node)?;
    let text = quote_shortened(program.word(default)?);
    Some(format!("{}: the default {text} is no text of {}", program.name_of(node), program.name_of(pattern)))
}
