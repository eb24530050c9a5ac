//! The texts behind the refusals 7 to 11, against all texts tried one by one
//! with all their cuts, and by hand.

mod common;

use std::collections::BTreeSet;
use std::ops::{Range, RangeFrom};
use std::time::{Duration, Instant};

use common::*;
use noontrough_reference::clash::{clash, parts_from, Clash};
use noontrough_reference::generator::draft::{Draft, NodeNumber};
use noontrough_reference::generator::faults::refused as refused_table;
use noontrough_reference::generator::programs::accepted;
use noontrough_reference::generator::random::Random;
use noontrough_reference::generator::small::small_check;
use noontrough_reference::table::{Node, Side, Table};
use noontrough_reference::trial::lent_buffer;
use noontrough_reference::{Calls, ClashAnswer, Reference, Refusal, Shown};

/// The most texts that are tried for one program, and their greatest length.
const TRIED: usize = 5000;
const SHORT: usize = 14;

/// The longest that a search may take, also on a busy machine.
const PATIENCE: Duration = Duration::from_secs(5);

/// A table's languages on one side, asked about by trying every cut.
struct Languages<'a> {
    table: &'a Table,
    side: Side,
}

impl Languages<'_> {
    fn fits(&self, node: usize, text: &[u8]) -> bool {
        match self.table.nodes[node] {
            Node::Word(ref word) => word == text,
            Node::Class(class) => text.len() == 1 && class.has(text[0]),
            Node::PatternJoin(a, b) | Node::LensJoin(a, b) => (0..=text.len()).any(|end| self.is_cut(a, b, text, end)),
            Node::PatternUnion(a, b) | Node::LensUnion(a, b) => self.fits(a, text) || self.fits(b, text),
            Node::PatternRepeat(a) | Node::LensRepeat(a) => {
                text.is_empty() || (1..=text.len()).any(|end| self.is_cut(a, node, text, end))
            }
            Node::Copy(a) | Node::Key(a) | Node::Match(a) => self.fits(a, text),
            Node::Const { .. } => self.fits(self.shown(node), text),
        }
    }

    /// The pattern or word of a const that stands on this side.
    fn shown(&self, constant: usize) -> usize {
        match (&self.table.nodes[constant], self.side) {
            (&Node::Const { pattern, .. }, Side::Source) => pattern,
            (&Node::Const { sheet, .. }, Side::Sheet) => sheet,
            (other, _) => unreachable!("{other:?} is no const"),
        }
    }

    fn is_cut(&self, a: usize, b: usize, text: &[u8], end: usize) -> bool {
        self.fits(a, &text[..end]) && self.fits(b, &text[end..])
    }

    /// All lists of parts, none of them empty, that join to the text, each part
    /// by its length.
    fn lists(&self, part: usize, text: &[u8]) -> Vec<Vec<usize>> {
        if text.is_empty() {
            return vec![Vec::new()];
        }
        let ends = (1..=text.len()).filter(|&end| self.fits(part, &text[..end]));
        let lists = ends.flat_map(|end| self.lists(part, &text[end..]).into_iter().map(move |list| (end, list)));
        lists.map(|(end, list)| [&[end][..], &list].concat()).collect()
    }

    /// The two numbers of a clash if the text breaks the rule at the node.
    fn broken_by(&self, node: usize, text: &[u8]) -> Option<[usize; 2]> {
        match self.table.nodes[node] {
            Node::LensJoin(a, b) => two_smallest((0..=text.len()).filter(|&end| self.is_cut(a, b, text, end))),
            Node::LensUnion(a, b) => (self.fits(a, text) && self.fits(b, text)).then_some([a, b]),
            Node::LensRepeat(part) if text.is_empty() => self.fits(part, text).then_some([0, 0]),
            Node::LensRepeat(part) => {
                let lists = self.lists(part, text);
                let ends = two_smallest(lists.iter().map(|list| list[0]));
                assert!(lists.len() < 2 || ends.is_some(), "the lists of the first such text begin differently");
                ends
            }
            ref other => unreachable!("{other:?} has no rule of its own"),
        }
    }

    /// The bytes that some position below the node takes, as runs of bytes.
    fn classes(&self, node: usize) -> Vec<(u8, u8)> {
        match self.table.nodes[node] {
            Node::Word(ref word) => word.iter().map(|&byte| (byte, byte)).collect(),
            Node::Class(class) => class.runs(),
            Node::Const { .. } => self.classes(self.shown(node)),
            ref other => other.children().into_iter().flat_map(|child| self.classes(child)).collect(),
        }
    }

    /// The lowest byte of each stretch whose bytes stand in the same classes. No
    /// other byte is in a lowest text: the lowest of its stretch would do.
    fn letters(&self, node: usize) -> Vec<u8> {
        let classes = self.classes(node);
        let is_taken = |byte: &u8| classes.iter().any(|&(first, last)| (first..=last).contains(byte));
        let ends = classes.iter().flat_map(|&(first, last)| [Some(first), last.checked_add(1)]);
        ends.flatten().filter(is_taken).collect::<BTreeSet<u8>>().into_iter().collect()
    }
}

fn two_smallest(numbers: impl Iterator<Item = usize>) -> Option<[usize; 2]> {
    let mut different = numbers.collect::<BTreeSet<usize>>().into_iter();
    Some([different.next()?, different.next()?])
}

/// The short texts of these letters: shorter ones first, equal lengths in byte
/// order.
fn texts_in_order(letters: &[u8]) -> impl Iterator<Item = Vec<u8>> + '_ {
    let count = letters.len();
    let of_length = move |length: usize| {
        let digits = move |number: usize| (0..length).rev().map(move |place| number / count.pow(place as u32) % count);
        (0..count.pow(length as u32)).map(move |number| digits(number).map(|digit| letters[digit]).collect())
    };
    (0..=SHORT).flat_map(of_length)
}

fn side_of(number: u8) -> Side {
    match number {
        7 | 9 | 10 => Side::Source,
        _ => Side::Sheet,
    }
}

/// The clash found by trying, or the last text that was tried.
fn clash_by_trying(table: &Table, Refusal { number, node }: Refusal) -> Result<Clash, Vec<u8>> {
    let (side, node) = (side_of(number), usize::from(node));
    let languages = Languages { table, side };
    let letters = languages.letters(node);
    let mut last = Vec::new();
    for text in texts_in_order(&letters).take(TRIED) {
        if let Some(numbers) = languages.broken_by(node, &text) {
            return Ok(Clash { side, text, numbers });
        }
        last = text;
    }
    Err(last)
}

/// Words and ranges over a few letters that often have texts in common, or cuts.
fn loose_pattern(random: &mut Random, draft: &mut Draft) -> NodeNumber {
    const LETTERS: [&[u8]; 4] = [b"ab", b"ab", b"abc", b"a"];
    let letters = *random.pick(&LETTERS);
    let text = |random: &mut Random| -> Vec<u8> { (0..random.between(1, 4)).map(|_| *random.pick(letters)).collect() };
    let mut pattern = draft.word(&text(random));
    for _ in 0..random.between(1, 4) {
        let word = draft.word(&text(random));
        let other = match random.below(5) {
            0 => draft.range(*random.pick(b"`ab"), *random.pick(b"bcd")),
            1 => draft.pattern_some(word),
            _ => word,
        };
        pattern =
            if random.once_in(5) { draft.pattern_join(pattern, other) } else { draft.pattern_union(pattern, other) };
    }
    pattern
}

/// A lens whose sources are single bytes and whose sheets are any words.
fn loose_sheets(random: &mut Random, draft: &mut Draft, sources: &mut RangeFrom<u8>) -> NodeNumber {
    let mut lens = None;
    for _ in 0..random.between(2, 5) {
        let sheet: Vec<u8> = (0..random.between(1, 4)).map(|_| *random.pick(b"ab")).collect();
        let arm = draft.replace(&[sources.next().expect("few arms")], &sheet);
        lens = Some(lens.map_or(arm, |lens| draft.lens_union(lens, arm)));
    }
    lens.expect("two arms or more")
}

/// A join, union or repeat of loose lenses. It may be accepted too.
fn loose_root(random: &mut Random, number: u8) -> Vec<u8> {
    let (mut draft, mut sources) = (Draft::new(), b'0'..);
    let [a, b] = [(); 2].map(|()| match side_of(number) {
        Side::Source => {
            let pattern = loose_pattern(random, &mut draft);
            // Several words in a row meet later than one.
            let pattern = if number == 9 { draft.pattern_some(pattern) } else { pattern };
            draft.copy(pattern)
        }
        Side::Sheet => loose_sheets(random, &mut draft, &mut sources),
    });
    match number {
        7 | 8 => draft.lens_join(a, b),
        9 => draft.lens_union(a, b),
        _ => draft.lens_repeat(a),
    };
    draft.table()
}

/// A table refused with the number: a fault planted on a small program, a small
/// program with one node more, or loose words.
fn refused_with(random: &mut Random, number: u8) -> Vec<u8> {
    loop {
        let table = match random.below(8) {
            0 => small_check(random, Some(number)).table,
            1..=2 => with_new_root(random).table(),
            _ => loose_root(random, number),
        };
        if matches!(check(&table), Err(refusal) if refusal.number == number) {
            return table;
        }
    }
}

/// Tries programs refused with the number; answers how many clashes there were
/// of each length, and how many that were too far to be tried.
fn try_clashes(number: u8, programs: usize) -> (Vec<usize>, usize) {
    let mut random = Random::new(30 + u64::from(number));
    let (mut lengths, mut far) = (vec![0; SHORT + 1], 0);
    for _ in 0..programs {
        let bytes = refused_with(&mut random, number);
        let (refusal, found) = clash(&bytes).expect("refused with 7 to 11");
        assert_eq!(check(&bytes), Err(refusal));
        let table = Table::read(&bytes).expect("refused in the second round");
        match clash_by_trying(&table, refusal) {
            Ok(tried) => {
                assert_eq!(found, tried, "{bytes:?}");
                lengths[found.text.len()] += 1;
            }
            Err(last) => {
                assert!((found.text.len(), &found.text) > (last.len(), &last), "{bytes:?}");
                far += 1;
            }
        }
    }
    (lengths, far)
}

#[test]
fn clashes_are_the_first_texts_that_break_the_rule() {
    for number in 7..=11 {
        let (lengths, far) = try_clashes(number, 1000);
        println!("{number}: by length {lengths:?}, {far} too far");
        assert!(far < 100);
        assert!(lengths[4..].iter().sum::<usize>() > 40, "few long ones for {number}: {lengths:?}");
    }
}

fn shows(number: u8, node: NodeNumber, side: Side, text: &[u8], numbers: [usize; 2]) -> Option<(Refusal, Clash)> {
    Some((Refusal { number, node }, Clash { side, text: text.to_vec(), numbers }))
}

/// Parts of a text by their ends.
fn by_ends(ends: &[usize]) -> Option<Vec<Range<usize>>> {
    let starts = std::iter::once(&0).chain(ends);
    Some(starts.zip(ends).map(|(&start, &end)| start..end).collect())
}

/// A copy of any of the words.
fn any_of(draft: &mut Draft, words: &[&str]) -> NodeNumber {
    let nodes: Vec<NodeNumber> = words.iter().map(|word| draft.word(word.as_bytes())).collect();
    let any = nodes.into_iter().reduce(|any, word| draft.pattern_union(any, word)).expect("some words");
    draft.copy(any)
}

/// Sources 0, 1, 2 .. with these words as their sheets.
fn shown_as(draft: &mut Draft, sheets: &[&str]) -> NodeNumber {
    let arms: Vec<NodeNumber> =
        (b'0'..).zip(sheets).map(|(source, sheet)| draft.replace(&[source], sheet.as_bytes())).collect();
    arms.into_iter().reduce(|any, arm| draft.lens_union(any, arm)).expect("some sheets")
}

fn joined_words(first: &[&str], second: &[&str]) -> (Vec<u8>, NodeNumber) {
    let mut draft = Draft::new();
    let (first, second) = (any_of(&mut draft, first), any_of(&mut draft, second));
    let join = draft.lens_join(first, second);
    (draft.table(), join)
}

fn repeated_words(words: &[&str]) -> (Vec<u8>, NodeNumber) {
    let mut draft = Draft::new();
    let part = any_of(&mut draft, words);
    let repeat = draft.lens_repeat(part);
    (draft.table(), repeat)
}

#[test]
fn ends_are_the_smallest_of_all_cuts() {
    let (table, join) = joined_words(&["a", "ab", "abc"], &["bcd", "cd", "d"]);
    assert_eq!(clash(&table), shows(7, join, Side::Source, b"abcd", [1, 2]));
    let (table, join) = joined_words(&["abc", "", "ab"], &["d", "abcd", "cd"]);
    assert_eq!(clash(&table), shows(7, join, Side::Source, b"abcd", [0, 2]));
    let (table, join) = joined_words(&["ab", "a"], &["", "b"]);
    assert_eq!(clash(&table), shows(7, join, Side::Source, b"ab", [1, 2]), "an end may be the whole text");
}

#[test]
fn the_lowest_of_the_shortest_is_shown() {
    for words in [["ac", "ab"], ["ab", "ac"]] {
        let mut draft = Draft::new();
        let (a, b) = (any_of(&mut draft, &words), any_of(&mut draft, &["ac", "ab", "a"]));
        let union = draft.lens_union(a, b);
        assert_eq!(clash(&draft.table()), shows(9, union, Side::Source, b"ab", [usize::from(a), usize::from(b)]));
    }
    // An a in front would be lower, but longer.
    let mut draft = Draft::new();
    let [a, b] = [b"a", b"b"].map(|word| draft.word(word));
    let many = draft.pattern_repeat(a);
    let line = draft.pattern_join(many, b);
    let copy = draft.copy(line);
    let union = draft.lens_union(copy, copy);
    assert_eq!(clash(&draft.table()), shows(9, union, Side::Source, b"b", [usize::from(copy); 2]));
    // Ranges meet from the higher of their first bytes on.
    let mut draft = Draft::new();
    let (low, high) = (draft.range(0, 200), draft.range(150, 255));
    let (low, high) = (draft.copy(low), draft.copy(high));
    let union = draft.lens_union(low, high);
    assert_eq!(clash(&draft.table()), shows(9, union, Side::Source, &[150], [2, 3]));
}

#[test]
fn a_part_that_can_be_empty() {
    let mut draft = Draft::new();
    let byte = draft.word(b"a");
    let many = draft.pattern_repeat(byte);
    let copy = draft.copy(many);
    let repeat = draft.lens_repeat(copy);
    let table = draft.table();
    assert_eq!(clash(&table), shows(10, repeat, Side::Source, b"", [0, 0]));
    assert_eq!(parts_from(&table, usize::from(repeat), Side::Source, b"", 0), by_ends(&[0]));

    let mut draft = Draft::new();
    let nothing = draft.replace(b"a", b"");
    let repeat = draft.lens_repeat(nothing);
    assert_eq!(clash(&draft.table()), shows(11, repeat, Side::Sheet, b"", [0, 0]));
}

#[test]
fn unions_show_their_children_in_order() {
    let mut draft = Draft::new();
    let lower = any_of(&mut draft, &["m", "b", "ax"]);
    let higher = any_of(&mut draft, &["ax", "m"]);
    let union = draft.lens_union(higher, lower);
    let numbers = [usize::from(higher), usize::from(lower)];
    assert_eq!(clash(&draft.table()), shows(9, union, Side::Source, b"m", numbers));

    let mut draft = Draft::new();
    let child = any_of(&mut draft, &["bb", "ba", "aaa"]);
    let union = draft.lens_union(child, child);
    assert_eq!(clash(&draft.table()), shows(9, union, Side::Source, b"ba", [usize::from(child); 2]));

    let mut draft = Draft::new();
    let (a, b) = (any_of(&mut draft, &["a", ""]), any_of(&mut draft, &["", "b"]));
    let union = draft.lens_union(a, b);
    let numbers = [usize::from(a), usize::from(b)];
    assert_eq!(clash(&draft.table()), shows(9, union, Side::Source, b"", numbers), "the empty text is one too");
}

#[test]
fn sheets_clash_where_sources_do_not() {
    let mut draft = Draft::new();
    let lens = shown_as(&mut draft, &["x", "xx"]);
    let join = draft.lens_join(lens, lens);
    assert_eq!(clash(&draft.table()), shows(8, join, Side::Sheet, b"xxx", [1, 2]));

    let mut draft = Draft::new();
    let lens = shown_as(&mut draft, &["ab", "c", "abc"]);
    let repeat = draft.lens_repeat(lens);
    let table = draft.table();
    assert_eq!(clash(&table), shows(11, repeat, Side::Sheet, b"abc", [2, 3]));
    let parts = |end| parts_from(&table, usize::from(repeat), Side::Sheet, b"abc", end);
    assert_eq!([parts(2), parts(3)], [by_ends(&[2, 3]), by_ends(&[3])]);
    assert_eq!(parts_from(&table, usize::from(repeat), Side::Source, b"abc", 2), None);
}

#[test]
fn the_source_is_shown_where_both_sides_clash() {
    // The sheet would show the shorter text xx.
    let mut draft = Draft::new();
    let (x, xx) = (draft.replace(b"abc", b"x"), draft.replace(b"abcabc", b"xx"));
    let part = draft.lens_union(x, xx);
    let repeat = draft.lens_repeat(part);
    assert_eq!(clash(&draft.table()), shows(10, repeat, Side::Source, b"abcabc", [3, 6]));
}

#[test]
fn a_repeat_and_its_parts() {
    let (table, repeat) = repeated_words(&["a", "ab", "b"]);
    assert_eq!(clash(&table), shows(10, repeat, Side::Source, b"ab", [1, 2]));
    let parts = |text: &[u8], end| parts_from(&table, usize::from(repeat), Side::Source, text, end);
    assert_eq!(parts(b"ab", 1), by_ends(&[1, 2]));
    assert_eq!(parts(b"ab", 2), by_ends(&[2]));
    assert_eq!(parts(b"ababb", 2), by_ends(&[2, 3, 4, 5]), "the shortest parts follow");
    for (text, end) in [(b"ab".as_slice(), 0), (b"ab", 3), (b"bab", 2), (b"ac", 1)] {
        assert_eq!(parts(text, end), None);
    }
    assert_eq!(parts_from(&table, usize::from(repeat) - 1, Side::Source, b"ab", 1), None, "no repeat");
    assert_eq!(parts_from(&table, 200, Side::Source, b"ab", 1), None);
    assert_eq!(parts_from(&table[1..], usize::from(repeat), Side::Source, b"ab", 1), None);

    // The shortest part that follows would leave a single b.
    let (table, repeat) = repeated_words(&["a", "ab", "bb"]);
    assert_eq!(clash(&table), None);
    let parts = |end| parts_from(&table, usize::from(repeat), Side::Source, b"aabbb", end);
    assert_eq!([parts(1), parts(2)], [by_ends(&[1, 3, 5]), None]);
}

#[test]
fn only_the_first_refusal_is_shown() {
    let mut draft = Draft::new();
    let (a, b) = (any_of(&mut draft, &["a", "ab"]), any_of(&mut draft, &["b", ""]));
    let join = draft.lens_join(a, b);
    let mut both = draft.clone();
    both.lens_union(a, a);
    let word = both.word(b"x");
    let other = both.word(b"y");
    both.constant(word, other, other);
    assert_eq!(clash(&both.table()), shows(7, join, Side::Source, b"ab", [1, 2]));

    // A default outside its pattern in front of it comes through.
    let mut draft = Draft::new();
    let (word, other) = (draft.word(b"x"), draft.word(b"y"));
    let bad = draft.constant(word, other, other);
    let a = any_of(&mut draft, &["a"]);
    draft.lens_union(a, a);
    assert_eq!(check(&draft.table()), refuses(6, bad));
    assert_eq!(clash(&draft.table()), None);
}

#[test]
fn other_tables_show_nothing() {
    let mut random = Random::new(41);
    assert_eq!(clash(&program_k()), None);
    assert_eq!(clash(b""), None);
    for _ in 0..200 {
        assert_eq!(clash(&accepted(&mut random).table()), None);
        for number in 1..=6 {
            assert_eq!(clash(&small_check(&mut random, Some(number)).table), None);
        }
    }
}

/// The text, and that it was found in time.
fn found_in_time(table: &[u8]) -> (Refusal, Clash) {
    let began = Instant::now();
    let found = clash(table).expect("refused with 7 to 11");
    let took = began.elapsed();
    println!("{} bytes in {took:?}", found.1.text.len());
    assert!(took < PATIENCE);
    found
}

/// The least number that is 0 modulo p and 1 modulo q, if there is one.
fn zero_and_one(p: usize, q: usize) -> Option<usize> {
    (0..q).map(|times| times * p).find(|number| number % q == 1)
}

#[test]
fn clashes_of_two_moduli() {
    // The run of a, n long, is read as c (a^p)* and then d, or as c a (a^q)* d.
    for (p, q) in [(2, 3), (3, 2), (5, 7), (7, 12), (13, 11), (61, 62)] {
        let table = two_moduli(p, q);
        let run = zero_and_one(p, q).expect("no common divisor");
        let text = [b"c", &b"a".repeat(run)[..], b"d"].concat();
        let (refusal, found) = found_in_time(&table);
        assert_eq!(Some((refusal, found)), shows(10, table[0] - 1, Side::Source, &text, [run + 1, run + 2]));
    }
    assert_eq!(clash(&two_moduli(60, 62)), None);
}

#[test]
fn clashes_of_two_powers() {
    for (p, q) in [(2, 3), (4, 7), (63, 65)] {
        let table = joined_powers(p, q);
        let found = found_in_time(&table);
        let text = b"a".repeat(p * q);
        assert_eq!(Some(found), shows(7, table[0] - 1, Side::Source, &text, [0, p * q]));
    }
}

/// The padding with which a search has the most places.
const DEEPEST: usize = 58;

/// A pattern of the empty text alone, written as repeats in repeats.
fn padding(draft: &mut Draft, depth: usize) -> NodeNumber {
    let nothing = draft.word(b"");
    let deep = (0..depth).fold(nothing, |inner, _| draft.pattern_repeat(inner));
    let twice = draft.pattern_join(deep, deep);
    draft.pattern_join(twice, twice)
}

/// Parts `{c, e} (a^p)* {nothing, f}` and `{c, de} a (a^q)* {d, f}`, with
/// padding in the repeats.
///
/// Two lists of parts first differ in a text that begins with c, where one part
/// ends before a d and the other behind it; then n times a stand between c and
/// d, n being 0 modulo p and 1 modulo q. Behind the d an e must follow, since a
/// part that begins with d goes on so. There the lists change their roles, and
/// the next run of a again has such a number before both can end, at an f.
fn moduli_twice(p: usize, q: usize, depth: usize) -> Vec<u8> {
    let mut draft = Draft::new();
    let padding = padding(&mut draft, depth);
    let mut row = |begins: [&str; 2], middle: &str, count: usize, ends: [&str; 2]| {
        let [begin, end] = [begins, ends].map(|words| {
            let [one, other] = words.map(|word| draft.word(word.as_bytes()));
            draft.pattern_union(one, other)
        });
        let (middle, word) = (draft.word(middle.as_bytes()), draft.word(&b"a".repeat(count)));
        let power = draft.pattern_join(word, padding);
        let rest = [middle, draft.pattern_repeat(power), end];
        rest.into_iter().fold(begin, |row, next| draft.pattern_join(row, next))
    };
    let rows = [row(["c", "e"], "", p, ["", "f"]), row(["c", "de"], "a", q, ["d", "f"])];
    let either = draft.pattern_union(rows[0], rows[1]);
    let part = draft.copy(either);
    draft.lens_repeat(part);
    draft.table()
}

#[test]
fn clashes_longer_than_any_text_of_a_call() {
    for (p, q, depth) in [(2, 3, 0), (5, 4, 3), (59, 60, 0), (59, 60, DEEPEST)] {
        let table = moduli_twice(p, q, depth);
        let run = zero_and_one(p, q).expect("no common divisor");
        let a = b"a".repeat(run);
        let text = [b"c", &a[..], b"de", &a, b"f"].concat();
        let (refusal, found) = found_in_time(&table);
        assert_eq!(Some((refusal, found)), shows(10, table[0] - 1, Side::Source, &text, [run + 1, run + 2]));
        let parts = |end| parts_from(&table, usize::from(refusal.node), Side::Source, &text, end);
        assert_eq!(parts(run + 1), by_ends(&[run + 1, text.len()]));
        assert_eq!(parts(run + 2), by_ends(&[run + 2, text.len()]));
    }
}

#[test]
fn the_deepest_padding_comes_near_the_limits() {
    let table = Table::read(&moduli_twice(59, 60, DEEPEST)).expect("within the limits");
    let root = table.measures[table.root()];
    assert_eq!((root.size, root.source_positions), (507, 128));
}

#[test]
fn clashes_of_all_sorts_of_programs_are_found_in_time() {
    let mut random = Random::new(42);
    let mut longest = Duration::ZERO;
    for number in (7..=11).cycle().take(400) {
        let table = refused_table(&mut random, number, &mut accepted);
        let began = Instant::now();
        let (refusal, _) = clash(&table).expect("refused with 7 to 11");
        longest = longest.max(began.elapsed());
        assert_eq!(check(&table), Err(refusal));
    }
    println!("the longest took {longest:?}");
    assert!(longest < PATIENCE);
}

/// What the call answers with a buffer of this length, and the buffer afterwards.
fn called(table: &[u8], lent: usize) -> (ClashAnswer, Vec<u8>) {
    let mut buffer = lent_buffer(lent);
    (Reference.clash(table, &mut buffer), buffer)
}

/// The call with buffers one byte too short, long enough, and longer: 17 leaves the buffer
/// as it was, and a text the bytes behind it.
fn assert_fills(table: &[u8]) {
    let (rule, Clash { text, numbers, .. }) = clash(table).expect("refused with 7 to 11");
    let shown = Shown { rule, length: text.len(), numbers };
    for lent in [text.len(), text.len() + 1, 4096, 16_512, 20_000].into_iter().filter(|&lent| lent >= text.len()) {
        let filled = [&text[..], &lent_buffer(lent)[text.len()..]].concat();
        assert_eq!(called(table, lent), (Ok(Some(shown)), filled));
    }
    for lent in [0, 4096, text.len().saturating_sub(1)].into_iter().filter(|&lent| lent < text.len()) {
        assert_eq!(called(table, lent), (Err(Refusal { number: 17, node: 0 }), lent_buffer(lent)));
    }
}

#[test]
fn the_call_needs_a_buffer_of_the_texts_length() {
    let (abcd, join) = joined_words(&["a", "ab", "abc"], &["bcd", "cd", "d"]);
    assert_fills(&abcd);
    assert_eq!(called(&abcd, 3).0, Err(Refusal { number: 17, node: 0 }));
    let rule = Refusal { number: 7, node: join };
    assert_eq!(called(&abcd, 4), (Ok(Some(Shown { rule, length: 4, numbers: [1, 2] })), b"abcd".to_vec()));

    let (empty, repeat) = repeated_words(&["a", ""]);
    let rule = Refusal { number: 10, node: repeat };
    assert_eq!(called(&empty, 0), (Ok(Some(Shown { rule, length: 0, numbers: [0, 0] })), Vec::new()));
    assert_fills(&empty);
}

#[test]
fn the_call_tells_what_is_no_clash() {
    assert_eq!(called(&program_k(), 5), (Ok(None), lent_buffer(5)));
    let mut random = Random::new(43);
    for number in 1..=6 {
        let table = small_check(&mut random, Some(number)).table;
        let refusal = check(&table).expect_err("refused");
        for lent in [0, 5] {
            assert_eq!(called(&table, lent), (Err(refusal), lent_buffer(lent)));
        }
    }
}

/// The tables with the longest texts that are known, with the text of each.
fn longest() -> [(&'static [u8], u8, Vec<u8>); 3] {
    let a = |count: usize| b"a".repeat(count);
    [
        (include_bytes!("../../examples/tables/longest.table"), 10, [b"b", &a(8001)[..], b"b", &a(8001)].concat()),
        (include_bytes!("../../examples/tables/longest_join.table"), 7, [&a(7875)[..], b"b", &a(62), b"b"].concat()),
        (include_bytes!("../../examples/tables/longest_union.table"), 9, a(3969)),
    ]
}

#[test]
fn the_longest_texts_known() {
    for (table, number, text) in longest() {
        let (refusal, found) = found_in_time(table);
        assert_eq!((refusal.number, found.text), (number, text));
        assert_fills(table);
    }
}
