//! Assembling what was shown gives the same bytes, for every table whose sizes
//! are right, whether the engine takes it or not.

mod common;

use common::*;
use noontrough_assembler::{assemble, show, too_large};
use noontrough_reference::generator::faults::{mutated, refused, PROGRAM_REFUSALS};
use noontrough_reference::generator::programs::accepted;
use noontrough_reference::generator::random::Random;
use noontrough_reference::generator::sets::sets;
use noontrough_reference::Program;

fn comes_back(table: &[u8]) {
    let text = show(table).unwrap_or_else(|wrong| panic!("{table:?}: {wrong}"));
    match assemble(text.as_bytes()) {
        Ok(assembled) => assert_eq!(assembled.table, table, "shown as\n{text}"),
        Err(mistake) => panic!("{table:?} shown as\n{text}{mistake}"),
    }
}

fn sizes_are_right(table: &[u8]) -> bool {
    !matches!(Program::read(table), Err(refusal) if refusal.number == 1)
}

/// A table of right sizes with any bytes; small operands look more like nodes.
fn any_table(random: &mut Random) -> Vec<u8> {
    let count = if random.once_in(4) { *random.pick(&[1, 2, 95, 96]) } else { random.between(1, 20) };
    let pool = match random.below(4) {
        0 => 0,
        1 => *random.pick(&[1, 255, 256, 257, 511, 512]),
        _ => random.between(0, 40),
    };
    let mut table = vec![count as u8, (pool / 256) as u8, (pool % 256) as u8];
    let kinds = [0, 0, 1, 2, 3, 4, 5, 5, 6, 16, 17, 18, 19, 20, 21, 22, 23, 255];
    table.extend((0..count).map(|_| *random.pick(&kinds)));
    let largest = *random.pick(&[1, 3, 24, 256]);
    table.extend((0..3 * count).map(|_| random.below(largest) as u8));
    let (first, last) = *random.pick(&[(0, 255), (b'a', b'b'), (b' ', b'~'), (b'"', b'\\')]);
    table.extend((0..pool).map(|_| random.between(first.into(), last.into()) as u8));
    table
}

#[test]
fn tables_of_any_bytes() {
    let mut random = Random::new(1);
    for _ in 0..20_000 {
        comes_back(&any_table(&mut random));
    }
}

#[test]
fn accepted_programs_and_changed_ones() {
    let mut random = Random::new(2);
    for _ in 0..300 {
        let table = accepted(&mut random).table();
        comes_back(&table);
        for _ in 0..10 {
            let changed = mutated(&mut random, &table);
            if sizes_are_right(&changed) {
                comes_back(&changed);
            } else {
                assert!(show(&changed).is_err(), "{changed:?}");
            }
        }
    }
}

#[test]
fn programs_refused_with_each_number() {
    let mut random = Random::new(3);
    for number in PROGRAM_REFUSALS {
        for _ in 0..20 {
            let table = refused(&mut random, number, &mut accepted);
            if number == 1 {
                assert!(show(&table).is_err(), "{table:?}");
            } else {
                comes_back(&table);
            }
        }
    }
}

#[test]
fn programs_of_sets_and_changed_ones() {
    let mut random = Random::new(9);
    for _ in 0..300 {
        let table = sets(&mut random).table();
        comes_back(&table);
        for _ in 0..5 {
            let changed = mutated(&mut random, &table);
            if sizes_are_right(&changed) {
                comes_back(&changed);
            }
        }
    }
}

/// Pairs in the order of the pool: in any order, overlapping, equal, single bytes; and
/// what has no brackets.
#[test]
fn sets_as_they_are_shown() {
    let shown = |pool: &[u8], record: [u8; 3]| {
        let table = [&[1, 0, pool.len() as u8, 5][..], &record, pool].concat();
        comes_back(&table);
        show(&table).expect("the sizes are right").lines().last().map(str::to_string)
    };
    let is = |line: &str| Some(format!("n0 = {line}"));
    assert_eq!(shown(b"\xD8\xDE\xC0\xD6", [0, 0, 2]), is("set [\\xD8-\\xDE\\xC0-\\xD6]"));
    assert_eq!(shown(b"xzayaaaa", [0, 0, 4]), is("set [x-za-yaa]"));
    assert_eq!(shown(b"--]][[^^\\\\''##  ", [0, 0, 8]), is("set [\\-\\]\\[\\^\\\\\\'# ]"));
    assert_eq!(shown(b"xxaz", [0, 2, 1]), is("set [a-z]"), "behind a pool line");
    assert_eq!(shown(b"azaz", [0, 2, 1]), is("set [a-z] at 2"));
    assert_eq!(shown(b"azza", [0, 0, 2]), is("raw 5 0 0 2  # a set with a reversed pair"));
    assert_eq!(shown(b"azza", [0, 0, 0]), is("raw 5 0 0 0  # a set of no pairs"));
    assert_eq!(shown(b"azza", [0, 1, 2]), is("raw 5 0 1 2  # a set outside the pool"));
    assert_eq!(shown(b"", [255, 255, 255]), is("raw 5 255 255 255  # a set outside the pool"));
    assert_eq!(shown(&b"a".repeat(66), [0, 0, 33]), is(&format!("set [{}]", "a".repeat(33))));
}

#[test]
fn every_byte_in_brackets() {
    let singles = (0..=255u8).flat_map(|byte| [byte, byte]);
    let ranges = (0..=255u8).flat_map(|byte| [byte, 255]);
    for pool in [singles.collect::<Vec<u8>>(), ranges.collect()] {
        let mut table = vec![8, 2, 0];
        table.extend([5; 8]);
        table.extend((0..8u8).flat_map(|set| [set / 4, set % 4 * 64, 32]));
        table.extend(pool);
        comes_back(&table);
    }
}

#[test]
fn every_byte_in_quotes() {
    let pool: Vec<u8> = (0..=255).chain(0..=255).collect();
    let mut table = vec![5, 2, 0, 0, 0, 0, 0, 0];
    for start in [0u8, 60, 120, 180, 200] {
        table.extend([1, start, 55]);
    }
    table.extend(pool);
    comes_back(&table);
}

/// A text with some bytes changed, cut out or put in.
fn garbled(random: &mut Random, mut text: Vec<u8>) -> Vec<u8> {
    for _ in 0..random.between(1, 4) {
        let place = random.below(text.len());
        match random.below(5) {
            0 => text[place] = random.byte(),
            1 => text[place] = *random.pick(b"\"'\\#= \n0n()[]{}*+?,-^"),
            2 => text.insert(place, *random.pick(b"()[]{}*+?,-^\"\n12")),
            3 => text.truncate(place + 1),
            _ => {
                let end = random.between(place, text.len());
                text.drain(place..end.min(text.len() - 1));
            }
        }
    }
    text
}

/// Whatever the text is, it is told what is wrong, at a place inside of it, or it
/// makes a table whose sizes are right. Whether it made one.
fn makes_a_table(text: &[u8]) -> bool {
    match assemble(text) {
        Ok(assembled) => {
            comes_back(&assembled.table);
            assert_eq!(assembled.origins.len(), usize::from(assembled.table[0]));
            for node in 0..=assembled.origins.len() {
                too_large(&assembled, node);
            }
            true
        }
        Err(mistake) => {
            let line = text.split(|&byte| byte == b'\n').nth(mistake.line - 1);
            let line = line.unwrap_or_else(|| panic!("there is no such line: {mistake}"));
            assert!((1..=line.len() + 1).contains(&mistake.column) && !mistake.message.is_empty(), "{mistake}");
            false
        }
    }
}

#[test]
fn garbled_texts() {
    let mut random = Random::new(5);
    let (mut made, mut turned_down) = (0, 0);
    for _ in 0..3000 {
        let text = show(&any_table(&mut random)).expect("the sizes are right").into_bytes();
        let is_made = makes_a_table(&garbled(&mut random, text));
        *(if is_made { &mut made } else { &mut turned_down }) += 1;
    }
    assert!(made > 100 && turned_down > 100, "{made} made, {turned_down} turned down");
}

#[test]
fn garbled_short_forms() {
    let programs: Vec<Vec<u8>> = ["composers.lens", "kerning.lens"]
        .iter()
        .map(|name| read(&in_repository("bindings/rust/assembler/tests/data").join(name)))
        .chain([b"a = copy ([^a-z\\]-]{2,4}+? | \"x\")\nb = (lens union (match a) (key [-0]))*".to_vec()])
        .collect();
    let mut random = Random::new(6);
    let (mut made, mut turned_down) = (0, 0);
    for _ in 0..20_000 {
        let text = random.pick(&programs).clone();
        let is_made = makes_a_table(&garbled(&mut random, text));
        *(if is_made { &mut made } else { &mut turned_down }) += 1;
    }
    assert!(made > 1000 && turned_down > 1000, "{made} made, {turned_down} turned down");
}

/// Texts of nothing but the form's own tokens.
#[test]
fn tokens_at_random() {
    let tokens = "a|b| = |\n|(|)|(|)|*|+|?|{|}|{2}|{1,3}|{2,}|{0}|,|1|200|\"x\"|\"\"|'x'|[a-z]|[^x]|[|]|#| |\
        join |lens |copy |match |key |const |raw |word |range |set |pool |at |\nc = |\nd = copy |\ne = lens join ";
    let tokens: Vec<&str> = tokens.split('|').collect();
    let mut random = Random::new(7);
    let mut made = 0;
    for _ in 0..40_000 {
        let mut text = String::from("a = [a-z]\nb = copy a\nf = ");
        for _ in 0..random.between(1, 12) {
            text += *random.pick(&tokens);
        }
        made += usize::from(makes_a_table(text.as_bytes()));
    }
    assert!(made > 500, "{made} made");
}

/// A text is not changed by a second turn.
#[test]
fn shown_text_stays() {
    let mut random = Random::new(4);
    for _ in 0..1000 {
        let text = show(&any_table(&mut random)).expect("the sizes are right");
        let again = assemble(text.as_bytes()).expect("it comes back").table;
        assert_eq!(show(&again).expect("the sizes are right"), text);
    }
}
