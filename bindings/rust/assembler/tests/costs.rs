//! What a program costs in nodes, and a node in size and positions.

use noontrough_assembler::{assemble, show, too_large, Assembled};
use noontrough_reference::generator::faults::refused;
use noontrough_reference::generator::programs::accepted;
use noontrough_reference::generator::random::Random;
use noontrough_reference::{Calls, Reference};

fn assembled(text: &str) -> Assembled {
    assemble(text.as_bytes()).unwrap_or_else(|mistake| panic!("{text}\n{mistake}"))
}

/// The program is turned down for its nodes, with these words.
fn has_too_many(text: &str, wanted: &str) {
    let mistake = assemble(text.as_bytes()).expect_err("it has too many nodes").to_string();
    assert_eq!(mistake, wanted);
}

fn lines(count: usize) -> String {
    (0..count).map(|number| format!("n{number} = word \"\"\n")).collect()
}

#[test]
fn ninety_six_nodes_are_not_too_many() {
    assert_eq!(assembled(&lines(96)).table[0], 96);
    assert_eq!(assembled("x = \"x\"{96}").table[0], 96);
}

#[test]
fn which_lines_make_too_many_nodes() {
    has_too_many(&lines(97), "97:7: the program has 97 nodes, and 96 are the most: 97 lines make 1 each");
    has_too_many(
        "name = copy [a-z]{98}",
        "1:13: the program has 99 nodes, and 96 are the most: line 1 (name) makes 99",
    );
    has_too_many(
        &format!("{}row = [A-Z]{{8}}\nname = [a-z]+\nall = copy (join row name)", lines(90)),
        "91:7: the program has 103 nodes, and 96 are the most: line 91 (row) makes 8, line 92 (name) 3, \
            line 93 (all) 2 and 90 lines 1 each",
    );
    has_too_many(
        "x = \"x\"\ny = x{98}",
        "2:5: the program has 98 nodes, and 96 are the most: line 2 (y) makes 97, line 1 (x) 1",
    );
}

/// The first node too many is made in the middle of a definition.
#[test]
fn the_place_is_that_of_node_97() {
    let text = format!("{}a = copy (join\n  \"x\" \"y\"\n  \"z\")", lines(94));
    has_too_many(
        &text,
        "97:3: the program has 100 nodes, and 96 are the most: line 95 (a) makes 6 and 94 lines 1 each",
    );
}

#[test]
fn ten_lines_are_named() {
    let rows: String =
        (0..14).map(|row| format!("r{row} = \"{}\"{{{}}}\n", char::from(b'a' + row), 14 - row)).collect();
    has_too_many(
        &rows,
        "11:7: the program has 105 nodes, and 96 are the most: line 1 (r0) makes 14, line 2 (r1) 13, line 3 (r2) 12, \
            line 4 (r3) 11, line 5 (r4) 10, line 6 (r5) 9, line 7 (r6) 8, line 8 (r7) 7, line 9 (r8) 6, \
            line 10 (r9) 5 and 4 lines 10 together",
    );
}

/// A mistake behind the node 97 is told first, and a text without end is not
/// read to its end.
#[test]
fn texts_with_far_too_many_nodes() {
    let mistake = assemble(format!("{}a = copie \"x\"", lines(120)).as_bytes()).expect_err("copie is no kind");
    assert_eq!(mistake.line, 121);
    has_too_many(
        &format!("x = \"x\"{}", "{128}".repeat(100_000)),
        "1:5: the program has more than 10,000 nodes, and 96 are the most: line 1 (x) makes 10001",
    );
}

const LONG: &str = "long = word \"0123456789012345678901234567890123456789012345678901234567890123\"\n";

/// The program is refused with 5, and the refused node is told of in these words.
fn is_too_large(text: &str, wanted: &str) {
    let assembled = assembled(text);
    let refusal = Reference.check(&assembled.table).expect_err("a node is too large");
    assert_eq!(refusal.number, 5, "{text}");
    assert_eq!(too_large(&assembled, usize::from(refusal.node)).as_deref(), Some(wanted), "{text}");
}

#[test]
fn rows_are_told_by_their_operands() {
    is_too_large(
        &format!("{LONG}lines = join long long long\ntext = copy lines"),
        "'lines' has 192 positions in the source and 192 in the sheet, and 128 are the most: \
            3 times 'long' (line 1), 64 each",
    );
    // The refused node is an inner one; the whole row is told of.
    is_too_large(
        &format!("{LONG}x = [a-z]+\nlines = join x long \"ab\" long x long\ntext = copy lines"),
        "'lines' has 198 positions in the source and 198 in the sheet, and 128 are the most: \
            3 times 'long' (line 1), 64 each; 2 times 'x' (line 2), 2 each; '\"ab\"' (line 3) 2",
    );
    is_too_large(
        &format!("{LONG}text = lens join (copy long) (copy (join long long long long))"),
        "'join long long long long' has 256 positions in the source and 256 in the sheet, and 128 are the most: \
            4 times 'long' (line 1), 64 each",
    );
}

#[test]
fn suffixes_are_told_by_their_operand() {
    for (suffix, times) in [("{3}", 3), ("{2,4}", 4), ("{0,5}", 5), ("{2,}", 3)] {
        is_too_large(
            &format!("{LONG}lines = long{suffix}\ntext = copy lines"),
            &format!(
                "'lines' has {0} positions in the source and {0} in the sheet, and 128 are the most: \
                    {times} times 'long' (line 1), 64 each",
                64 * times
            ),
        );
    }
    is_too_large(
        "text = copy [A-Za-z0-9]{12}{11}",
        "'[A-Za-z0-9]{12}{11}' has 132 positions in the source and 132 in the sheet, and 128 are the most: \
            11 times '[A-Za-z0-9]{12}' (line 1), 12 each",
    );
    // A set of 33 ranges is two nodes, and each has a position.
    let every_other: String = (0..33).map(|number| format!("\\x{:02X}", 2 * number)).collect();
    is_too_large(
        &format!("set33 = [{every_other}]\ntext = copy set33{{8}}{{9}}"),
        "'set33{8}{9}' has 144 positions in the source and 144 in the sheet, and 128 are the most: \
            9 times 'set33{8}' (line 2), 16 each",
    );
    is_too_large(
        &format!("{LONG}part = lens join (copy long) (copy \";\")\nparts = part{{1,2}}"),
        "'parts' has 130 positions in the source and 130 in the sheet, and 128 are the most: \
            2 times 'part' (line 2), 65 each",
    );
}

/// A const has its pattern in the source and its word in the sheet.
#[test]
fn sides_are_told_apart() {
    is_too_large(
        &format!("{LONG}shown = copy long\nhidden = const long \"\" long\nall = lens join shown hidden shown"),
        "'all' has 192 positions in the source, and 128 are the most: \
            2 times 'shown' (line 2), 64 each; 'hidden' (line 3) 64",
    );
    is_too_large(
        &format!("{LONG}added = const \"a\" long \"a\"\nall = lens join added added added"),
        "'all' has 192 positions in the sheet, and 128 are the most: 3 times 'added' (line 2), 64 each",
    );
    is_too_large(
        &format!(
            "{LONG}x = copy long\nhidden = const (join long \"a\") \"\" long\nadded = const \"\" (word \"bc\") \"\"\n\
                all = lens join x x hidden added"
        ),
        "'all' has 193 positions in the source, and 128 are the most: \
            2 times 'x' (line 2), 64 each; 'hidden' (line 3) 65\n\
            'all' has 130 positions in the sheet, and 128 are the most: \
            2 times 'x' (line 2), 64 each; 'added' (line 4) 2",
    );
}

#[test]
fn size_is_told_with_the_nodes_over_the_operands() {
    // Empty words have a size and no positions.
    is_too_large(
        "x = union \"\" \"\"\ny = join x{8} x{8}\nz = join y{5} y{5} (join \"\" y)\nc = copy z",
        "'z' has the size 705, and 512 is the most: 2 times 'y{5}' (line 3), 319 each; \
            'join \"\" y' (line 3) 65; the nodes over them 2",
    );
    is_too_large(
        "x = union \"\" \"\"\ny = join x{8} x{8}\nw = y{8}\nz = repeat w*\nc = copy z",
        "'z' has the size 513, and 512 is the most: 'w*' (line 4) 512; the nodes over them 1",
    );
}

#[test]
fn ten_operands_are_named() {
    let words: String = (0..12).map(|row| format!("w{row} = \"{}\"\n", "x".repeat(18 - row))).collect();
    let names: Vec<String> = (0..12).map(|row| format!("w{row}")).collect();
    is_too_large(
        &format!("{words}all = join {}\nc = copy all", names.join(" ")),
        "'all' has 150 positions in the source and 150 in the sheet, and 128 are the most: 'w0' (line 1) 18; \
            'w1' (line 2) 17; 'w2' (line 3) 16; 'w3' (line 4) 15; 'w4' (line 5) 14; 'w5' (line 6) 13; \
            'w6' (line 7) 12; 'w7' (line 8) 11; 'w8' (line 9) 10; 'w9' (line 10) 9; 2 others 15 together",
    );
}

#[test]
fn nodes_within_the_limits_are_not_too_large() {
    let assembled = assembled("entries = (match (lens join (key [A-Z]+) (copy \";\")))*");
    for node in 0..assembled.origins.len() + 2 {
        assert_eq!(too_large(&assembled, node), None);
    }
    assert_eq!(too_large(&assembled, usize::MAX), None);
}

/// Doubled 90 times: no number is large enough, and nothing is counted one by
/// one.
#[test]
fn costs_beyond_all_numbers() {
    let mut text = String::from("n0 = join \"a\" \"b\" \"c\"\n");
    for row in 1..88 {
        text += &format!("n{row} = join n{} n{}\n", row - 1, row - 1);
    }
    let doubled = assembled(&text);
    assert!(too_large(&doubled, doubled.origins.len() - 1).is_some_and(|told| told.contains("2 times 'n86'")));

    let mut inner = String::from("x = \"x\"\nn0 = join \"a\" x x\n");
    for row in 1..40 {
        let doubled = format!("(join x x){}", "{2}".repeat(row - 1));
        inner += &format!("n{row} = join \"a\" {doubled} {doubled}\n");
    }
    let inner = assembled(&inner);
    assert!(too_large(&inner, inner.origins.len() - 1).is_some());
}

/// The engine's account and this one agree on which nodes are too large.
#[test]
fn agrees_with_the_reference() {
    let mut random = Random::new(8);
    for _ in 0..300 {
        let table = refused(&mut random, 5, &mut accepted);
        let refusal = Reference.check(&table).expect_err("it is refused");
        assert_eq!(refusal.number, 5);
        let assembled = assembled(&show(&table).expect("the sizes are right"));
        for node in 0..usize::from(refusal.node) {
            assert_eq!(too_large(&assembled, node), None, "{table:?}");
        }
        assert!(too_large(&assembled, usize::from(refusal.node)).is_some(), "{table:?}");
    }
}
