//! The automata and the ambiguity checks against lists of all short texts,
//! worked out from the patterns with no automaton at all.

mod common;

use std::collections::BTreeSet;

use common::with_new_root;
use noontrough_reference::generator::programs::{grown, Room};
use noontrough_reference::generator::random::Random;
use noontrough_reference::table::{Node, Side, Table, SIDES};
use noontrough_reference::{Calls, Program, Reference, Refusal};

/// The length up to which texts are listed.
const SHORT: usize = 7;
/// The most texts that are listed; languages with more are left out.
const LISTED: usize = 150;

type Language = BTreeSet<Vec<u8>>;

/// All texts of a node up to the length, or nothing if they are too many.
fn short_texts(table: &Table, node: usize, side: Side) -> Option<Language> {
    let of = |node| short_texts(table, node, side);
    match table.nodes[node] {
        Node::Word(ref text) => listed([text.clone()]),
        Node::Class(class) => listed(class.bytes().map(|byte| vec![byte])),
        Node::PatternJoin(a, b) | Node::LensJoin(a, b) => joined(&of(a)?, &of(b)?),
        Node::PatternUnion(a, b) | Node::LensUnion(a, b) => listed(of(a)?.into_iter().chain(of(b)?)),
        Node::PatternRepeat(a) | Node::LensRepeat(a) => repeated(&of(a)?),
        Node::Copy(a) | Node::Key(a) | Node::Match(a) => of(a),
        Node::Const { pattern, sheet, .. } => of(if side == Side::Source { pattern } else { sheet }),
    }
}

fn listed(texts: impl IntoIterator<Item = Vec<u8>>) -> Option<Language> {
    let mut language = Language::new();
    for text in texts.into_iter().filter(|text| text.len() <= SHORT) {
        language.insert(text);
        if language.len() > LISTED {
            return None;
        }
    }
    Some(language)
}

fn joined(a: &Language, b: &Language) -> Option<Language> {
    listed(a.iter().flat_map(|u| b.iter().map(move |v| [&u[..], v].concat())))
}

fn repeated(a: &Language) -> Option<Language> {
    let mut all = Language::from([Vec::new()]);
    loop {
        let more = listed(all.iter().cloned().chain(joined(&all, a)?))?;
        if more == all {
            return Some(all);
        }
        all = more;
    }
}

/// Whether a short text has two cuts into one of `a` and one of `b`.
fn two_cuts(a: &Language, b: &Language) -> bool {
    let mut met = BTreeSet::new();
    let texts = a.iter().flat_map(|u| b.iter().map(move |v| [&u[..], v].concat()));
    texts.filter(|text| text.len() <= SHORT).any(|text| !met.insert(text))
}

/// The typing fault of a table's root that short texts show; nothing if the
/// texts are too many to list.
fn shown_fault(table: &Table) -> Option<Option<u8>> {
    let of = |node, side| short_texts(table, node, side);
    let fails = |side| {
        Some(match table.nodes[table.root()] {
            Node::LensJoin(a, b) => two_cuts(&of(a, side)?, &of(b, side)?),
            Node::LensUnion(a, b) => side == Side::Source && !of(a, side)?.is_disjoint(&of(b, side)?),
            Node::LensRepeat(a) => {
                let part = of(a, side)?;
                part.contains(&Vec::new()) || two_cuts(&part, &of(table.root(), side)?)
            }
            _ => false,
        })
    };
    let numbers = match table.nodes[table.root()] {
        Node::LensJoin(..) => [7, 8],
        Node::LensUnion(..) => [9, 9],
        _ => [10, 11],
    };
    let (in_source, in_sheet) = (fails(Side::Source)?, fails(Side::Sheet)?);
    let fault = if in_source { Some(numbers[0]) } else { in_sheet.then_some(numbers[1]) };
    Some(fault)
}

#[test]
fn faults_are_those_that_short_texts_show() {
    let mut random = Random::new(11);
    let (mut agreed, mut shown, mut only_long) = (0, [0usize; 12], 0);
    while agreed < 12_000 {
        let table = with_new_root(&mut random).table();
        let Ok(nodes) = Table::read(&table) else { continue };
        let Some(fault) = shown_fault(&nodes) else { continue };
        let found = Reference.check(&table).err().map(|Refusal { number, .. }| number);
        if fault.is_none() && found.is_some() {
            // The text that breaks the rule is longer than those listed.
            only_long += 1;
            continue;
        }
        // A fault in the source may need a longer text than one in the sheet.
        let source_is_longer = matches!((fault, found), (Some(8), Some(7)) | (Some(11), Some(10)));
        assert!(fault == found || source_is_longer, "short texts show {fault:?}, found {found:?}: {table:?}");
        agreed += 1;
        shown[fault.map_or(0, usize::from)] += 1;
    }
    println!("accepted, then 1 to 11: {shown:?}; {only_long} with long texts only");
    assert!(only_long < 60);
    assert!((7..=11).all(|number| shown[number] > 20));
}

#[test]
fn texts_belong_as_listed() {
    let mut random = Random::new(12);
    let mut tried = 0;
    for _ in 0..1500 {
        let draft = grown(&mut random, Room::SMALL);
        let program = Program::read(&draft.table()).expect("accepted");
        for (node, side) in (0..draft.len()).flat_map(|node| SIDES.map(|side| (node, side))) {
            let Some(language) = short_texts(program.table(), node, side) else { continue };
            let bytes: BTreeSet<u8> = language.iter().flatten().copied().chain(*b"a").collect();
            for _ in 0..10 {
                let bytes: Vec<u8> = bytes.iter().copied().collect();
                let text: Vec<u8> = (0..random.below(SHORT + 1)).map(|_| *random.pick(&bytes)).collect();
                assert_eq!(program.fits(node, side, &text), language.contains(&text));
                tried += 1;
            }
            assert!(language.iter().take(20).all(|text| program.fits(node, side, text)));
        }
    }
    println!("{tried} texts");
}
