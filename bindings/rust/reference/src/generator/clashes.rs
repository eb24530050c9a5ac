//! Programs that mostly clash: texts with two cuts or of both arms, of no byte up
//! to several thousand, on either side.
//!
//! The languages are described first and written on one side then. In the source
//! they are patterns under a copy or a key. In the sheet every word is the sheet of a
//! const whose source is a byte of its own, so that nothing can clash in the source.

use super::draft::{Draft, NodeNumber};
use super::programs::{accepted, grown, Room};
use super::random::Random;
use super::sets::{apart, clash as clash_of_sets, pairs};
use crate::answer::*;
use crate::class::{Class, Pair};
use crate::program::Program;
use crate::table::MAX_WORD;

const RULES: [u8; 5] =
    [SOURCE_JOIN_AMBIGUOUS, SHEET_JOIN_AMBIGUOUS, UNION_OVERLAPS, SOURCE_REPEAT_AMBIGUOUS, SHEET_REPEAT_AMBIGUOUS];

/// The longest of two powers that fit a side's positions, with some letters beside
/// them.
const LONGEST_POWER: usize = 59;

/// A table that is refused with 7 to 11, and rarely one that nearly is.
pub fn clashing(random: &mut Random) -> Vec<u8> {
    loop {
        // Something before it, of which nothing is used.
        let mut draft = if random.once_in(4) { grown(random, Room::SMALL) } else { Draft::new() };
        let rule = *random.pick(&RULES);
        match random.below(15) {
            0..=3 => of_words(random, &mut draft, rule),
            4..=5 => of_powers(random, &mut draft, rule),
            6 => drop(two_runs(random, &mut draft, rule)),
            7..=8 => of_sets(random, &mut draft, rule),
            9 => of_one_child(random, &mut draft),
            10 => of_one_word(random, &mut draft, rule),
            11..=12 => of_a_program(random, &mut draft, rule),
            _ => of_nothing(random, &mut draft, rule),
        }
        add_above(random, &mut draft);
        let table = draft.table();
        match Program::read(&table) {
            Err(refusal) if RULES.contains(&refusal.number) => return table,
            Ok(_) if random.once_in(4) => return table,
            _ => {}
        }
    }
}

/// A language, to be written on one side.
enum Language {
    Word(Vec<u8>),
    Class(Vec<Pair>),
    Any(Vec<Language>),
    Row(Vec<Language>),
    Many(Box<Language>),
}

impl Language {
    fn word(text: &[u8]) -> Language {
        Language::Word(text.to_vec())
    }

    /// So many times a letter; long ones are several words.
    fn letters(count: usize) -> Language {
        let lengths = (0..count).step_by(MAX_WORD).map(|start| MAX_WORD.min(count - start));
        Language::Row(lengths.map(|length| Language::Word(vec![b'a'; length])).collect())
    }

    fn many(self) -> Language {
        Language::Many(Box::new(self))
    }

    fn pattern(&self, draft: &mut Draft) -> NodeNumber {
        let several =
            |draft: &mut Draft, all: &[Language], over: fn(&mut Draft, NodeNumber, NodeNumber) -> NodeNumber| {
                let nodes: Vec<NodeNumber> = all.iter().map(|language| language.pattern(draft)).collect();
                nodes.into_iter().reduce(|a, b| over(draft, a, b)).expect("several have at least one")
            };
        match self {
            Language::Word(text) => draft.word(text),
            Language::Class(pairs) => draft.set(pairs),
            Language::Any(all) => several(draft, all, Draft::pattern_union),
            Language::Row(all) => several(draft, all, Draft::pattern_join),
            Language::Many(part) => {
                let part = part.pattern(draft);
                draft.pattern_repeat(part)
            }
        }
    }

    /// A lens that has the language in its sheets. Its sources are rows of marks, and
    /// the next mark is one that no other part has.
    fn shown(&self, draft: &mut Draft, marks: &mut std::ops::RangeFrom<u8>) -> NodeNumber {
        let mut several = |all: &[Language], over: fn(&mut Draft, NodeNumber, NodeNumber) -> NodeNumber| {
            let nodes: Vec<NodeNumber> = all.iter().map(|language| language.shown(draft, marks)).collect();
            nodes.into_iter().reduce(|a, b| over(draft, a, b)).expect("several have at least one")
        };
        match self {
            Language::Word(text) => {
                let mark = marks.next().expect("few words");
                draft.replace(&[mark], text)
            }
            // Only a copy has a class in its sheets, and then in its sources too.
            Language::Class(pairs) => {
                let set = draft.set(pairs);
                draft.copy(set)
            }
            Language::Any(all) => several(all, Draft::lens_union),
            Language::Row(all) => several(all, Draft::lens_join),
            Language::Many(part) => {
                let part = part.shown(draft, marks);
                draft.lens_repeat(part)
            }
        }
    }
}

fn is_of_sheet(rule: u8) -> bool {
    rule == SHEET_JOIN_AMBIGUOUS || rule == SHEET_REPEAT_AMBIGUOUS
}

/// Lenses with these languages on the rule's side.
fn lenses(random: &mut Random, draft: &mut Draft, rule: u8, languages: &[Language]) -> Vec<NodeNumber> {
    let mut marks = b'0'..;
    let mut lens = |language: &Language| {
        if is_of_sheet(rule) {
            return language.shown(draft, &mut marks);
        }
        let pattern = language.pattern(draft);
        if random.once_in(2) {
            draft.copy(pattern)
        } else {
            draft.key(pattern)
        }
    };
    languages.iter().map(&mut lens).collect()
}

/// The node of the rule over one or two languages. They may be written in the other
/// order, so that a join's or union's first child has the higher number.
fn over(random: &mut Random, draft: &mut Draft, rule: u8, mut languages: [Language; 2]) -> NodeNumber {
    if rule == SOURCE_REPEAT_AMBIGUOUS || rule == SHEET_REPEAT_AMBIGUOUS {
        let [one, other] = languages;
        let part = lenses(random, draft, rule, &[Language::Any(vec![one, other])])[0];
        return draft.lens_repeat(part);
    }
    let is_turned = random.once_in(2);
    if is_turned {
        languages.reverse();
    }
    let mut lenses = lenses(random, draft, rule, &languages);
    if is_turned {
        lenses.reverse();
    }
    match rule {
        UNION_OVERLAPS => draft.lens_union(lenses[0], lenses[1]),
        _ => draft.lens_join(lenses[0], lenses[1]),
    }
}

fn any_word(random: &mut Random, letters: &[u8], longest: usize) -> Vec<u8> {
    (0..random.between(1, longest)).map(|_| *random.pick(letters)).collect()
}

/// A few words over a few letters; some of them repeated, in rows, or with a class.
fn loose(random: &mut Random, letters: &[u8], depth: usize) -> Language {
    let word = |random: &mut Random| Language::Word(any_word(random, letters, 4));
    if depth == 0 {
        return if random.once_in(8) { Language::Class(vec![(b'`', b'b')]) } else { word(random) };
    }
    let below = |random: &mut Random, count| (0..count).map(|_| loose(random, letters, depth - 1)).collect();
    match random.below(6) {
        0 => word(random),
        1 => Language::Row(vec![word(random), loose(random, letters, depth - 1).many()]),
        2 => Language::Row(below(random, 2)),
        _ => {
            let count = random.between(2, 4);
            Language::Any(below(random, count))
        }
    }
}

fn of_words(random: &mut Random, draft: &mut Draft, rule: u8) {
    let letters = *random.pick(&[&b"ab"[..], b"ab", b"abc", b"a", b"\x00\xff"]);
    let depth = random.between(1, 3);
    let mut languages = [(); 2].map(|()| loose(random, letters, depth));
    if rule == UNION_OVERLAPS {
        // Several words in a row meet later than one.
        languages = languages.map(|language| {
            let more = loose(random, letters, 1).many();
            Language::Row(vec![language, more])
        });
    }
    over(random, draft, rule, languages);
}

/// Lenses of an accepted program, under a rule that it may break.
fn of_a_program(random: &mut Random, draft: &mut Draft, rule: u8) {
    *draft = accepted(random);
    let lenses = draft.lenses();
    let [a, b] = [(); 2].map(|()| *random.pick(&lenses));
    match rule {
        SOURCE_JOIN_AMBIGUOUS | SHEET_JOIN_AMBIGUOUS => draft.lens_join(a, b),
        UNION_OVERLAPS => draft.lens_union(a, b),
        _ => draft.lens_repeat(a),
    };
}

/// Beginnings of a word and what is left of it, so that it has several cuts. Some are
/// left out, and the others stand in any order.
fn of_one_word(random: &mut Random, draft: &mut Draft, rule: u8) {
    let word: Vec<u8> = (0..random.between(3, 9)).map(|_| *random.pick(b"abcdef")).collect();
    let mut ends: Vec<usize> = (1..word.len()).filter(|_| !random.once_in(4)).collect();
    ends.extend([word.len() / 2, 1]);
    let mut halves = |half: fn(&[u8], usize) -> &[u8]| {
        random.shuffle(&mut ends);
        Language::Any(ends.iter().map(|&end| Language::word(half(&word, end))).collect())
    };
    let languages = [halves(|word, end| &word[..end]), halves(|word, end| &word[end..])];
    over(random, draft, rule, languages);
}

/// Two numbers with a sum within the positions, in most draws without a common
/// divisor.
fn two_numbers(random: &mut Random) -> [usize; 2] {
    let largest = *random.pick(&[4, 9, 20, LONGEST_POWER, LONGEST_POWER]);
    let one = random.between(1.max(largest / 2), largest);
    let other = if random.once_in(3) { random.between(1, largest) } else { one + 1 };
    if random.once_in(2) {
        [one, other]
    } else {
        [other, one]
    }
}

/// Words of p and of q letters, each repeated: the first text of both has their
/// least common multiple of letters.
fn of_powers(random: &mut Random, draft: &mut Draft, rule: u8) {
    let [p, q] = two_numbers(random);
    let begin = |random: &mut Random| Language::letters(random.between(1, 3));
    // A union's arms must not both be empty, or nothing longer is shown.
    let languages = [p, q].map(|count| match rule {
        UNION_OVERLAPS => Language::Row(vec![begin(random), Language::letters(count).many()]),
        SOURCE_REPEAT_AMBIGUOUS | SHEET_REPEAT_AMBIGUOUS => {
            Language::Row(vec![Language::word(b"c"), Language::letters(count).many(), Language::letters(1)])
        }
        _ => Language::letters(count).many(),
    });
    over(random, draft, rule, languages);
}

/// A repeat of `{c, e} (a^p)* {nothing, f}` and `{c, de} a (a^q)* {d, f}`. Two lists of
/// parts differ only in texts of two runs of the letter, each of a number that is 0
/// modulo p and 1 modulo q.
fn two_runs(random: &mut Random, draft: &mut Draft, rule: u8) -> NodeNumber {
    let longest = random.between(46, LONGEST_POWER);
    let [p, q] = if random.once_in(3) { two_numbers(random) } else { [longest, longest + 1] };
    let row = |begins: [&[u8]; 2], middle: &[u8], count: usize, ends: [&[u8]; 2]| {
        let [begin, end] = [begins, ends].map(|words| Language::Any(words.map(Language::word).into()));
        Language::Row(vec![begin, Language::word(middle), Language::letters(count).many(), end])
    };
    let rows = [row([b"c", b"e"], b"", p, [b"", b"f"]), row([b"c", b"de"], b"a", q, [b"d", b"f"])];
    let rule = if is_of_sheet(rule) { SHEET_REPEAT_AMBIGUOUS } else { SOURCE_REPEAT_AMBIGUOUS };
    over(random, draft, rule, rows)
}

/// Two classes that share a few bytes, mostly not in the first run of either.
fn sharing(random: &mut Random) -> [Vec<Pair>; 2] {
    if random.once_in(4) {
        return [pairs(random), pairs(random)];
    }
    let [one, mut other] = <[_; 2]>::try_from(apart(random, 2)).expect("two classes");
    let bytes: Vec<u8> = Class::of_pairs(one.iter().copied()).bytes().collect();
    for _ in 0..random.between(1, 3) {
        let shared = bytes[random.between(bytes.len() / 2, bytes.len() - 1)];
        other.insert(random.below(other.len() + 1), (shared, shared));
    }
    [one, other]
}

/// Rows of classes beside each other, or two classes under the rule itself.
fn of_sets(random: &mut Random, draft: &mut Draft, rule: u8) {
    let [one, other] = sharing(random);
    if is_of_sheet(rule) || random.once_in(2) {
        let sets = [draft.set(&one), draft.set(&other)];
        clash_of_sets(draft, rule, sets);
        return;
    }
    let [third, fourth] = sharing(random);
    let row = |classes: [&Vec<Pair>; 2]| classes.map(|pairs| Language::Class(pairs.clone()));
    let languages = match rule {
        SOURCE_JOIN_AMBIGUOUS => {
            let [a, b] = row([&one, &third]);
            [Language::Row(vec![a, b.many()]), Language::Row(row([&fourth, &other]).map(Language::many).into())]
        }
        _ => [Language::Row(row([&one, &third]).into()), Language::Row(row([&other, &fourth]).into())],
    };
    over(random, draft, rule, languages);
}

/// A union of a child with itself, or a join of it if that can be cut twice.
fn of_one_child(random: &mut Random, draft: &mut Draft) {
    let language = loose(random, b"ab", 2);
    let child = lenses(random, draft, UNION_OVERLAPS, &[language])[0];
    match random.below(4) {
        0 => draft.lens_join(child, child),
        _ => draft.lens_union(child, child),
    };
}

/// Repeats of what can be empty, and unions of which both arms can.
fn of_nothing(random: &mut Random, draft: &mut Draft, rule: u8) {
    let nothing = || Language::word(b"");
    let language = |random: &mut Random| match random.below(3) {
        0 => Language::Any(vec![loose(random, b"ab", 1), nothing()]),
        1 => Language::Any(vec![nothing(), loose(random, b"ab", 1)]),
        _ => nothing(),
    };
    let languages = match rule {
        UNION_OVERLAPS => [(); 2].map(|()| language(random)),
        _ if random.once_in(2) => [language(random), loose(random, b"ab", 1)],
        _ => [loose(random, b"ab", 1), language(random)],
    };
    over(random, draft, rule, languages);
}

/// Sometimes what stands above a clash and is not looked at any more: a join, a match,
/// a further clash, a wrong default.
fn add_above(random: &mut Random, draft: &mut Draft) {
    let root = (draft.len() - 1) as NodeNumber;
    match random.below(10) {
        0 => {
            let end = draft.copy_word(b";");
            draft.lens_join(root, end);
        }
        1 => drop(draft.matched(root)),
        2 => drop(draft.lens_union(root, root)),
        3 => {
            let (word, other) = (draft.word(b"x"), draft.word(b"yz"));
            draft.constant(word, other, other);
        }
        _ => {}
    }
}
