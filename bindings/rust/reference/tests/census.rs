//! The census finds the kinds that fixed programs and calls are of.

mod common;

use common::program_k;
use noontrough_reference::census::{Census, Kind};
use noontrough_reference::generator::cases::{Call, Case};
use noontrough_reference::generator::draft::Draft;
use noontrough_reference::trial::run;
use noontrough_reference::{Calls, Reference};

/// The kinds of one put and its program, save those of its tally.
fn kinds(table: &[u8], sheet: &[u8], source: &[u8]) -> Vec<Kind> {
    all_kinds(table, sheet, source).into_iter().filter(|kind| !kind.is_of_tally()).collect()
}

/// What became of the entries in one put.
fn tally_kinds(table: &[u8], sheet: &[u8], source: &[u8]) -> Vec<Kind> {
    all_kinds(table, sheet, source).into_iter().filter(|kind| kind.is_of_tally()).collect()
}

fn all_kinds(table: &[u8], sheet: &[u8], source: &[u8]) -> Vec<Kind> {
    let case =
        Case { call: Call::Put, table: table.to_vec(), sheet: sheet.to_vec(), source: source.to_vec(), lent: 4096 };
    let answer = run(&Reference, &case).answer;
    assert!(answer.is_ok(), "{answer:?}");
    let mut census = Census::default();
    census.note(&[(case, answer)]);
    let met = Kind::ALL.into_iter().filter(|&kind| census.calls(kind) == 1);
    met.inspect(|&kind| assert_eq!(census.programs(kind), 1)).collect()
}

#[test]
fn program_k_repeats_a_match_and_has_a_leaf_with_an_empty_sheet() {
    let of_program = [Kind::EmptySheetLeaf, Kind::RepeatOfAMatch];
    let and = |more: &[Kind]| [&of_program, more].concat();
    assert_eq!(kinds(&program_k(), b"D;E;", b"AB1;C22;"), of_program);
    assert_eq!(kinds(&program_k(), b"C;AB;", b"AB1;C22;"), and(&[Kind::FoundWithoutUnion]));
    assert_eq!(kinds(&program_k(), b"D;E;F;", b"AB1;C22;"), and(&[Kind::MorePartsThanOld]));
    assert_eq!(kinds(&program_k(), b"D;", b"AB1;C22;"), and(&[Kind::FewerPartsThanOld]));
    assert_eq!(kinds(&program_k(), b"D;E;", b"AB1;AB2;"), and(&[Kind::EqualKeys]));
}

#[test]
fn keys_that_differ_at_the_end() {
    let apart = |sources: [&[u8]; 2]| {
        let old = sources.map(|name| [name, b"1;"].concat()).concat();
        kinds(&program_k(), b"D;E;", &old).contains(&Kind::KeysApartAtTheEnd)
    };
    assert!(apart([b"ABCDEFGH", b"ABCDEFGI"]));
    assert!(apart([b"ABCDEFGH", b"ABCDEFG"]));
    assert!(!apart([b"ABCDEFGH", b"ABCDEFGH"]), "these are equal");
    assert!(!apart([b"ABCDEFGH", b"BBCDEFGH"]), "these differ at the beginning");
    assert!(!apart([b"ABC", b"ABD"]), "these are short");
}

#[test]
fn places_of_matches() {
    let mut draft = Draft::new();
    let names = [(b'a', b'b'), (b'c', b'd')].map(|(first, last)| draft.range(first, last));
    let [one, other] = names.map(|name| draft.key(name)).map(|key| draft.matched(key));
    let remark = draft.copy_word(b"#");
    let plain = draft.clone();

    draft.lens_join(one, other);
    assert_eq!(kinds(&draft.table(), b"ac", b"bd"), [Kind::JoinOfMatches]);
    let mut draft = plain.clone();
    let pair = draft.lens_join(one, one);
    draft.lens_repeat(pair);
    let found = [Kind::JoinOfMatches, Kind::JoinOfOneChild, Kind::RepeatOfTwoMatches];
    assert_eq!(kinds(&draft.table(), b"aa", b"bb"), [&found[..], &[Kind::EqualKeys]].concat());
    let mut draft = plain.clone();
    draft.lens_union(one, other);
    assert_eq!(kinds(&draft.table(), b"a", b"b"), [Kind::UnionOfMatches]);
    let mut draft = plain.clone();
    let either = draft.lens_union(remark, one);
    draft.lens_repeat(either);
    assert_eq!(kinds(&draft.table(), b"a", b"b"), [Kind::RepeatOfMatchOrRemark]);
    assert_eq!(kinds(&draft.table(), b"a", b"#"), [Kind::RepeatOfMatchOrRemark, Kind::CrossedOverAMatch]);
}

/// Parts of so many empty matches and a letter; names of another child follow.
fn empty_matches(count: usize) -> Vec<u8> {
    let mut draft = Draft::new();
    let nothing = draft.copy_word(b"");
    let empty = draft.matched(nothing);
    let (letter, name) = (draft.copy_word(b"a"), draft.range(b'A', b'Z'));
    let pair = draft.lens_join(empty, empty);
    let part = (0..count / 2).fold(letter, |part, _| draft.lens_join(pair, part));
    let part = (0..count % 2).fold(part, |part, _| draft.lens_join(empty, part));
    let (list, key) = (draft.lens_repeat(part), draft.key(name));
    let entry = draft.matched(key);
    let names = draft.lens_repeat(entry);
    draft.lens_join(list, names);
    draft.table()
}

#[test]
fn many_empty_matches() {
    let met = |count: usize, sheet: &[u8], source: &[u8]| {
        let mut kinds = kinds(&empty_matches(count), sheet, source);
        let of_calls =
            [Kind::EmptyMatches30, Kind::EmptyMatches100, Kind::EmptyMatchesWithOld, Kind::EmptyMatchesOldOfOtherChild];
        kinds.retain(|kind| of_calls.contains(kind));
        kinds
    };
    assert_eq!(met(29, b"aaaa", b"a"), [], "a part has 29");
    assert_eq!(met(30, b"a", b""), [Kind::EmptyMatches30]);
    assert_eq!(met(30, b"a", b"aA"), [Kind::EmptyMatches30, Kind::EmptyMatchesWithOld]);
    assert_eq!(met(30, b"a", b"A"), [Kind::EmptyMatches30, Kind::EmptyMatchesOldOfOtherChild]);
    assert_eq!(met(99, b"a", b""), [Kind::EmptyMatches30]);
    assert_eq!(met(100, b"a", b""), [Kind::EmptyMatches30, Kind::EmptyMatches100]);
    assert_eq!(met(30, b"B", b"aA"), [], "the sheet has no such part");
}

#[test]
fn what_became_of_the_entries() {
    let of_k = |sheet: &[u8], source: &[u8]| tally_kinds(&program_k(), sheet, source);
    assert_eq!(of_k(b"C;D;", b"AB1;C22;"), [Kind::EntryMade, Kind::EntryDropped, Kind::KeptMadeAndDropped]);
    assert_eq!(of_k(b"AB;C;", b"AB1;C22;"), []);
    assert_eq!(of_k(b"A;A;A;", b"A1;"), [Kind::EntryMade]);
    assert_eq!(of_k(b"", b"A1;"), [Kind::EntryDropped, Kind::DroppedUnasked]);
    assert_eq!(of_k(&b"A;".repeat(255), b""), [Kind::EntryMade]);
    assert_eq!(of_k(&b"A;".repeat(256), b""), [Kind::EntryMade, Kind::MadeOver255]);

    let of_empty = |sheet: &[u8], source: &[u8]| tally_kinds(&empty_matches(100), sheet, source);
    let made = [Kind::EntryMade, Kind::EmptyEntryMade];
    assert_eq!(of_empty(b"a", b"a"), [Kind::EmptyEntryKept]);
    assert_eq!(of_empty(b"a", b""), made);
    assert_eq!(of_empty(b"aA", b""), [&made[..], &[Kind::EntriesOfSeveralChildren]].concat());
    let unasked = [Kind::EntryMade, Kind::EntryDropped, Kind::EmptyEntryMade, Kind::DroppedUnasked];
    assert_eq!(of_empty(b"a", b"A"), unasked);
    let many = [&made[..], &[Kind::MadeOver255]].concat();
    assert_eq!(of_empty(&b"a".repeat(655), b""), many, "65,500 entries");
    assert_eq!(of_empty(&b"a".repeat(656), b""), [&many[..], &[Kind::MadeOver65535]].concat(), "65,600 entries");
}

/// One arm reads two letters as one entry, the other as two.
#[test]
fn entries_by_other_arms() {
    let mut draft = Draft::new();
    let letter = draft.range(b'a', b'z');
    let two = draft.pattern_join(letter, letter);
    let (pair, single) = (draft.copy(two), draft.copy(letter));
    let (pair, single) = (draft.matched(pair), draft.matched(single));
    let mark = draft.replace(b"=", b"");
    let (whole, halves) = (draft.lens_join(pair, mark), draft.lens_join(single, single));
    draft.lens_union(whole, halves);
    let table = draft.table();
    assert_eq!(tally_kinds(&table, b"cd", b"ab="), []);
    assert_eq!(tally_kinds(&table, b"cd", b"ab"), [Kind::EntriesByOtherArms]);
}

/// Nested unions of marks and entries: all arms can read the sheet of any.
fn marked_entries() -> Vec<u8> {
    let mut draft = Draft::new();
    let name = draft.range(b'a', b'z');
    let key = draft.key(name);
    let entry = draft.matched(key);
    let arms = [b"0", b"1", b"2"].map(|mark| draft.replace(mark, b"")).map(|mark| draft.lens_join(mark, entry));
    let pair = draft.lens_union(arms[1], arms[2]);
    let either = draft.lens_union(arms[0], pair);
    draft.lens_repeat(either);
    draft.table()
}

#[test]
fn right_arms_that_are_kept() {
    let kept = |source: &[u8]| {
        let mut kinds = kinds(&marked_entries(), b"x", source);
        let is_kept = |kind: &Kind| format!("{kind:?}").starts_with("KeptRightArm");
        kinds.retain(is_kept);
        kinds
    };
    let once = [Kind::KeptRightArm, Kind::KeptRightArmInARepeat, Kind::KeptRightArmOverAMatch];
    let twice = [Kind::KeptRightArmTwice, Kind::KeptRightArmTwiceOverAMatch];
    assert_eq!(kept(b"0a"), []);
    assert_eq!(kept(b"1a"), once);
    assert_eq!(kept(b"2a"), [once[0], twice[0], twice[1], once[1], once[2]]);
}

/// Entries of two arms with the same sheets: the left arm's is all key, the
/// right arm shows each `n` as 64 letters.
fn keys_of_two_arms() -> Vec<u8> {
    let mut draft = Draft::new();
    let letter = draft.word(b"x");
    let many = draft.pattern_repeat(letter);
    let (key, wide) = (draft.key(many), draft.replace(b"n", &[b'x'; 64]));
    let wides = draft.lens_repeat(wide);
    let [left, right] = [b"<", b">"].map(|mark| draft.replace(mark, b""));
    let [left, right] = [draft.lens_join(left, key), draft.lens_join(right, wides)];
    let (either, end) = (draft.lens_union(left, right), draft.copy_word(b";"));
    let line = draft.lens_join(either, end);
    let entry = draft.matched(line);
    draft.lens_repeat(entry);
    draft.table()
}

#[test]
fn entries_found_by_the_arm_that_they_are_of() {
    let asked = b"x".repeat(64);
    let sheet = [&asked[..], b";"].concat();
    let left = [b"<", &asked[..], b";"].concat();
    let table = keys_of_two_arms();
    assert!(kinds(&table, &sheet, &left).contains(&Kind::FoundOfLeftArm));
    assert!(kinds(&table, &sheet, b">n;").contains(&Kind::FoundOfRightArm));
    let none = kinds(&table, b"x;", b">n;");
    assert!(!none.contains(&Kind::FoundOfRightArm) && !none.contains(&Kind::FoundOfLeftArm));
}

#[test]
fn long_keys() {
    let table = keys_of_two_arms();
    let met = |sheet: &[u8], source: &[u8]| {
        let mut kinds = kinds(&table, sheet, source);
        let of_keys = [Kind::LongKey, Kind::LongKeys, Kind::LongKeysFound, Kind::KeyAt4095To4097];
        kinds.retain(|kind| of_keys.contains(kind));
        kinds
    };
    let old = |count: usize, each: usize| [b">", &b"n".repeat(each)[..], b";"].concat().repeat(count);
    assert_eq!(met(b"x;", &old(256, 1)), [], "16,384 bytes");
    assert_eq!(met(b"x;", &old(129, 2)), [Kind::LongKeys]);
    let asked = [&b"x".repeat(128)[..], b";"].concat();
    assert_eq!(met(&asked, &old(129, 2)), [Kind::LongKeys, Kind::LongKeysFound]);
    assert_eq!(met(b"x;", &old(1, 64)), [Kind::KeyAt4095To4097]);
    assert_eq!(met(b"x;", &old(1, 65)), [Kind::LongKey]);
}

/// K with names of capitals, spaces and tabs, perhaps in two parts.
fn padded_names(parts: usize) -> Vec<u8> {
    let mut draft = Draft::new();
    let (class, digit) = (draft.set(&[(b'A', b'Z'), (b' ', b' '), (b'\t', b'\t')]), draft.range(b'0', b'9'));
    let name = draft.pattern_repeat(class);
    let (label, end) = (draft.key(name), draft.copy_word(b";"));
    let mut row = [label, end].repeat(parts);
    row.insert(1, draft.delete(digit, b"0"));
    let line = draft.lens_row(&row);
    let entry = draft.matched(line);
    draft.lens_repeat(entry);
    draft.table()
}

/// Those of the kinds of one put that tell of spaces and tabs.
fn padding_kinds(table: &[u8], sheet: &[u8], source: &[u8]) -> Vec<Kind> {
    let mut kinds = kinds(table, sheet, source);
    kinds.retain(|kind| (Kind::KeysApartBySpaces..=Kind::SpaceAtTheSeam).contains(kind));
    kinds
}

#[test]
fn keys_with_spaces_at_their_end() {
    let met = |sheet: &[u8], source: &[u8]| padding_kinds(&padded_names(1), sheet, source);
    assert_eq!(met(b"A;B ;", b"A1;B 2;"), []);
    assert_eq!(met(b"A ;", b"A1;"), [Kind::FoundByTrimmedKey, Kind::KeyGainsSpaces]);
    assert_eq!(met(b"A ;", b"A  1;"), [Kind::FoundByTrimmedKey, Kind::KeyLosesSpaces]);
    let first = [Kind::KeysApartBySpaces, Kind::PaddedOneBeforeTheSame, Kind::KeyGainsSpaces];
    assert_eq!(met(b"A ;", b"A1;A 2;"), first);
    assert_eq!(met(b"A ;", b"A 1;A2;"), [Kind::KeysApartBySpaces], "the first has the same bytes");
    let of_spaces = [Kind::FoundByTrimmedKey, Kind::KeyGainsSpaces, Kind::SpacesMeetTheEmptyKey];
    assert_eq!(met(b" ;", b"1;"), of_spaces);
    for (sheet, source) in [(b" A;", b"A1;"), (b"A\t;", b"A1;")] {
        assert_eq!(met(sheet, source), [Kind::ApartByOtherBlanks]);
    }
    assert_eq!(met(b"A B;", b"A  B1;"), [Kind::ApartByOtherBlanks]);
    assert_eq!(met(b"B ;", b"A 1;"), [], "the names differ");
}

#[test]
fn a_space_where_two_key_parts_meet() {
    let met = |sheet: &[u8]| padding_kinds(&padded_names(2), sheet, b"A1;B;");
    assert_eq!(met(b"A;B;"), []);
    assert_eq!(met(b"A;B ;"), [Kind::FoundByTrimmedKey, Kind::KeyGainsSpaces]);
    assert_eq!(met(b"A ;B;"), [Kind::ApartByOtherBlanks, Kind::SpaceAtTheSeam]);
    assert_eq!(met(b"A ; ;"), [], "no key text follows");
}

/// An entry of two arms with the same sheets: the left arm's is all key, the right arm
/// shows `>` as a letter, and then each word for its byte, any number of times.
fn blanks_of_two_arms(words: [(&[u8], &[u8]); 2]) -> Vec<u8> {
    let mut draft = Draft::new();
    let class = draft.set(&[(b'x', b'x'), (b' ', b' ')]);
    let many = draft.pattern_repeat(class);
    let (left, mark) = (draft.key(many), draft.replace(b">", b"x"));
    let [first, second] = words.map(|(source, sheet)| {
        let word = draft.replace(source, sheet);
        draft.lens_repeat(word)
    });
    let right = draft.lens_row(&[mark, first, second]);
    let either = draft.lens_union(left, right);
    draft.matched(either);
    draft.table()
}

#[test]
fn long_keys_with_spaces() {
    let table = blanks_of_two_arms([(b"n", &[b' '; 64]), (b"o", b"x")]);
    let old = |spaces: usize, end: &[u8]| [b">", &b"n".repeat(spaces)[..], end].concat();
    let found = [Kind::FoundByTrimmedKey, Kind::KeyLosesSpaces];
    assert_eq!(padding_kinds(&table, b"x", &old(63, b"")), found, "4,033 bytes");
    let long = [&found[..], &[Kind::LongPaddedKeyFound]].concat();
    assert_eq!(padding_kinds(&table, b"x", &old(64, b"")), long, "4,097 bytes");
    assert_eq!(padding_kinds(&table, b"x", &old(64, b"o")), [Kind::LongKeyCutAsked]);
    assert_eq!(padding_kinds(&table, b"xx", &old(64, b"o")), [Kind::ApartByOtherBlanks]);
}

#[test]
fn keys_of_4095_to_4097_bytes_before_their_spaces() {
    let table = blanks_of_two_arms([(b"m", &[b'x'; 64]), (b"n", &[b' '; 50])]);
    let old = |letters: usize, end: &[u8]| [b">", &b"m".repeat(letters)[..], end].concat();
    assert_eq!(padding_kinds(&table, b"", &old(64, b"n")), [Kind::TrimmedAt4095To4097], "4,097 bytes");
    assert_eq!(padding_kinds(&table, b"", &old(64, b"")), [], "no spaces follow");
    assert_eq!(padding_kinds(&table, b"", &old(63, b"n")), [], "4,033 bytes");
}

#[test]
fn nested_unions() {
    let mut draft = Draft::new();
    let [zero, one, two] = [b"0", b"1", b"2"].map(|source| draft.replace(source, b"a"));
    let pair = draft.lens_union(zero, one);
    draft.lens_union(pair, two);
    let of_program = [Kind::UnionsTwoDeep, Kind::UnionsOnTheLeft, Kind::SheetOfBothArms];
    assert_eq!(kinds(&draft.table(), b"a", b"0"), of_program);
    let of_right = [Kind::OldRightArmLikeLeft, Kind::KeptRightArm];
    assert_eq!(kinds(&draft.table(), b"a", b"1"), [&of_program[..], &of_right].concat());

    let mut draft = Draft::new();
    let [zero, one, two] =
        [(b"0", b"a"), (b"1", b"b"), (b"2", b"c")].map(|(source, sheet)| draft.replace(source, sheet));
    let pair = draft.lens_union(zero, one);
    draft.lens_union(pair, two);
    assert_eq!(kinds(&draft.table(), b"a", b"1"), [], "these sheets don't overlap");
}

#[test]
fn deep_rows() {
    for (joins, found) in [(19, vec![]), (20, vec![Kind::Deep20, Kind::DeepOnTheLeft20, Kind::DeepLongText])] {
        let mut draft = Draft::new();
        let leaf = draft.copy_word(b"abcdef");
        let row = (0..joins).fold(leaf, |row, _| draft.lens_join(row, leaf));
        assert_eq!(usize::from(row), draft.len() - 1);
        let text = b"abcdef".repeat(joins + 1);
        assert_eq!(kinds(&draft.table(), &text, &text), found);
    }
}

#[test]
fn choices() {
    for (first, found) in [(b'a', vec![Kind::ChoicesAt63To65]), (b'b', vec![])] {
        let mut draft = Draft::new();
        let (one, other) = (draft.range(b'a', b'a'), draft.range(first, b'b'));
        let either = draft.pattern_union(one, other);
        let many = draft.pattern_repeat(either);
        draft.copy(many);
        assert_eq!(kinds(&draft.table(), b"a", &b"a".repeat(64)), found);
        assert_eq!(kinds(&draft.table(), b"a", &b"a".repeat(62)), []);
    }
}

#[test]
fn long_entries() {
    let mut draft = Draft::new();
    let name = draft.range(b'A', b'Z');
    let key = draft.key(name);
    let wide = draft.replace(b"a", &[b'w'; 64]);
    let list = draft.lens_repeat(wide);
    let entry = draft.lens_join(key, list);
    let entry = draft.matched(entry);
    draft.lens_repeat(entry);
    let table = draft.table();
    let long = |name: &str| format!("{name}{}", "a".repeat(64)).into_bytes();
    let met = |sheet: &[u8], source: &[u8]| {
        let mut kinds = kinds(&table, sheet, source);
        kinds.retain(|kind| format!("{kind:?}").starts_with("LongEntry"));
        kinds
    };
    assert_eq!(met(b"B", &long("A")), [Kind::LongEntry]);
    assert_eq!(met(b"A", &long("A")), [Kind::LongEntry, Kind::LongEntryFound]);
    assert_eq!(met(b"A", &long("A")[..64]), [], "a sheet of 4,033 bytes");
    assert_eq!(met(b"B", &long("ABCDEFGH")), [Kind::LongEntry, Kind::LongEntryOfEight]);
    assert_eq!(met(b"B", &long("ABCDEFGHI")), [Kind::LongEntry, Kind::LongEntryOfNineOrMore]);
}

/// The kinds of a copy of a set with so many pairs, at this place of the pool.
fn kinds_of_sets(pool: &[u8], start: usize, count: usize) -> Vec<Kind> {
    let mut draft = Draft { pool: pool.to_vec(), ..Draft::new() };
    let set = draft.set_at(start, count);
    draft.copy(set);
    kinds(&draft.table(), b"a", b"a")
}

#[test]
fn sets() {
    assert_eq!(kinds_of_sets(b"az\0", 0, 1), [Kind::Sets, Kind::SetOfOnePair]);
    assert_eq!(kinds_of_sets(b"az", 0, 1), [Kind::Sets, Kind::SetOfOnePair, Kind::SetAtThePoolsEnd]);
    assert_eq!(kinds_of_sets(b"abxz\0", 0, 2), [Kind::Sets]);
    assert_eq!(kinds_of_sets(b"xzab\0", 0, 2), [Kind::Sets, Kind::SetOutOfOrder]);
    assert_eq!(kinds_of_sets(b"abbc\0", 0, 2), [Kind::Sets, Kind::SetOverlapping]);
    assert_eq!(kinds_of_sets(b"\0\xFF\0", 0, 1), [Kind::Sets, Kind::SetOfOnePair, Kind::SetOfEveryByte]);
    let full = b"ab".repeat(256);
    let at_448 = [Kind::Sets, Kind::SetOf32Pairs, Kind::SetOverlapping, Kind::SetAtThePoolsEnd, Kind::SetAt448];
    assert_eq!(kinds_of_sets(&full, 448, 32), at_448);
    assert_eq!(kinds_of_sets(&full, 446, 32), at_448[..3]);
}

#[test]
fn several_sets() {
    let of_two = |one: &[(u8, u8)], other: &[(u8, u8)]| {
        let mut draft = Draft::new();
        let either = [draft.set(one), draft.set(other)];
        draft.word(b"\0");
        let either = draft.pattern_union(either[0], either[1]);
        draft.copy(either);
        kinds(&draft.table(), b"a", b"a").contains(&Kind::HullsMeetOnly)
    };
    assert!(of_two(&[(b'a', b'a'), (b'z', b'z')], &[(b'm', b'm')]));
    assert!(!of_two(&[(b'a', b'a'), (b'z', b'z')], &[(b'm', b'm'), (b'z', b'z')]), "these share a byte");
    assert!(!of_two(&[(b'a', b'a'), (b'c', b'c')], &[(b'm', b'm')]), "these are far apart");

    for (count, found) in [(29, false), (30, true)] {
        let mut draft = Draft::new();
        let sets: Vec<_> = (0..count).map(|_| draft.set(&[(b'a', b'b')])).collect();
        let any = sets.into_iter().reduce(|any, set| draft.pattern_union(any, set)).expect("not none");
        draft.copy(any);
        assert_eq!(kinds(&draft.table(), b"a", b"a").contains(&Kind::ManySetsOfOnePart), found);
    }
}

/// The kinds of a program that is refused.
fn refused_kinds(draft: &Draft) -> Vec<Kind> {
    let case = Case { call: Call::Check, table: draft.table(), sheet: Vec::new(), source: Vec::new(), lent: 0 };
    let answer = Reference.check(&case.table);
    assert!(answer.is_err());
    let mut census = Census::default();
    census.note(&[(case, answer)]);
    Kind::ALL.into_iter().filter(|&kind| census.programs(kind) == 1).collect()
}

#[test]
fn sets_that_are_refused() {
    let of = |pool: &[u8], start: usize, count: usize| {
        let mut draft = Draft { pool: pool.to_vec(), ..Draft::new() };
        draft.set_at(start, count);
        draft.copy_word(b"");
        refused_kinds(&draft)
    };
    assert_eq!(of(b"azaz", 0, 0), [Kind::SetOfNoneOrTooMany]);
    assert_eq!(of(&b"az".repeat(33), 0, 33), [Kind::SetOfNoneOrTooMany]);
    assert_eq!(of(b"azaz", 1, 2), [Kind::SetOutsideThePool]);
    assert_eq!(of(b"zaaz", 0, 2), [Kind::SetReversed]);
    assert_eq!(of(b"azza", 0, 2), [Kind::SetReversedLater]);

    let mut draft = Draft::new();
    let nodes = [draft.word(b"a"), draft.set(&[(b'a', b'a')])];
    let mut sheet = draft.clone();
    sheet.constant(nodes[0], nodes[1], nodes[0]);
    assert_eq!(refused_kinds(&sheet), [Kind::SetForAWord]);
    draft.constant(nodes[0], nodes[0], nodes[1]);
    assert_eq!(refused_kinds(&draft), [Kind::SetForAWord]);

    let mut draft = Draft::new();
    let set = draft.set(&[(b'a', b'b')]);
    let copy = draft.copy(set);
    draft.lens_union(copy, copy);
    assert_eq!(refused_kinds(&draft), [Kind::SetsAndAClash]);
    let mut draft = Draft::new();
    let copy = draft.copy_word(b"a");
    draft.lens_union(copy, copy);
    assert_eq!(refused_kinds(&draft), []);
}

/// The kinds of one clash with a buffer of this length.
fn clash_kinds(table: &[u8], lent: usize) -> Vec<Kind> {
    let case = Case { call: Call::Clash, table: table.to_vec(), sheet: Vec::new(), source: Vec::new(), lent };
    let answer = run(&Reference, &case).answer;
    let mut census = Census::default();
    census.note(&[(case, answer)]);
    let met = Kind::ALL.into_iter().filter(|&kind| census.calls(kind) == 1);
    met.filter(|&kind| (Kind::NoClash..Kind::EntryMade).contains(&kind)).collect()
}

#[test]
fn what_a_clash_shows() {
    assert_eq!(clash_kinds(&program_k(), 0), [Kind::NoClash]);
    assert_eq!(clash_kinds(b"", 0), []);

    let any_of = |draft: &mut Draft, words: &[&str]| {
        let words: Vec<_> = words.iter().map(|word| draft.word(word.as_bytes())).collect();
        let any = words.into_iter().reduce(|any, word| draft.pattern_union(any, word)).expect("some words");
        draft.copy(any)
    };
    let mut draft = Draft::new();
    let halves = [any_of(&mut draft, &["a", "ab", "abc"]), any_of(&mut draft, &["bcd", "cd", "d"])];
    draft.lens_join(halves[0], halves[1]);
    assert_eq!(clash_kinds(&draft.table(), 4), [Kind::SourceJoinShown, Kind::ThreeCuts]);
    assert_eq!(clash_kinds(&draft.table(), 3), [Kind::ClashTooLong]);

    let mut draft = Draft::new();
    let arms = [any_of(&mut draft, &["ba", "ab"]), any_of(&mut draft, &["ba", "ab"])];
    draft.lens_union(arms[1], arms[0]);
    assert_eq!(clash_kinds(&draft.table(), 9), [Kind::UnionShown, Kind::UnionTurned]);
    let mut draft = Draft::new();
    let (class, end) = (draft.range(b'a', b'c'), draft.word(b"x"));
    let line = draft.pattern_join(class, end);
    let copy = draft.copy(line);
    draft.lens_union(copy, copy);
    assert_eq!(clash_kinds(&draft.table(), 2), [Kind::UnionShown, Kind::UnionOfOneChild, Kind::HigherTextToo]);

    let mut draft = Draft::new();
    let nothing = draft.replace(b"a", b"");
    draft.lens_repeat(nothing);
    assert_eq!(clash_kinds(&draft.table(), 0), [Kind::SheetRepeatShown, Kind::EmptyClash]);

    let mut draft = Draft::new();
    let sets = [draft.set(&[(1, 3), (9, 9), (20, 20)]), draft.set(&[(20, 20), (9, 9), (4, 5)])];
    let arms = sets.map(|set| draft.copy(set));
    draft.lens_union(arms[0], arms[1]);
    assert_eq!(clash_kinds(&draft.table(), 1), [Kind::UnionShown, Kind::SharedInALaterRun]);

    let longest = include_bytes!("../../examples/tables/longest.table");
    let shown = [Kind::SourceRepeatShown, Kind::ClashOver64, Kind::ClashOver4096, Kind::EndAtTheEnd];
    assert_eq!(clash_kinds(longest, 16_004), shown);
    assert_eq!(clash_kinds(longest, 16_003), [Kind::ClashTooLong, Kind::ClashTooLongAndHuge]);
}
