//! The linked engine against the reference, call by call, and demand 3 on the
//! linked engine.
//!
//! `NOONTROUGH_PROGRAMS` sets how many random programs each seed compares.

mod common;

use common::{with_stack, Engine};
use noontrough_reference::census::{Census, Kind};
use noontrough_reference::demand3;
use noontrough_reference::generator::cases::clash_cases;
use noontrough_reference::generator::clashes::clashing;
use noontrough_reference::generator::faults::mutated;
use noontrough_reference::generator::random::Random;
use noontrough_reference::trial::{compare, run};
use noontrough_reference::Remembering;

/// Each seed is compared on a thread of its own.
const SEEDS: [u64; 4] = [101, 102, 103, 104];
/// About ten calls a program.
const PROGRAMS: usize = 900;
/// Programs for each clause of demand 3.
const CLAUSE_PROGRAMS: usize = 300;

/// How many programs and how many calls of each kind there must be with
/// [`PROGRAMS`] for each seed: about half of what there is. Longer comparisons
/// must have more in proportion.
const LEAST: [(Kind, usize, usize); 106] = [
    (Kind::UnionsTwoDeep, 150, 1000),
    (Kind::UnionsThreeDeep, 100, 680),
    (Kind::UnionsOnTheLeft, 65, 440),
    (Kind::UnionsOnTheRight, 75, 520),
    (Kind::UnionsInAMatch, 45, 310),
    (Kind::UnionsInARepeat, 80, 550),
    (Kind::EmptyLeaf, 170, 1100),
    (Kind::EmptySourceLeaf, 100, 670),
    (Kind::EmptySheetLeaf, 860, 5700),
    (Kind::Deep20, 90, 600),
    (Kind::Deep60, 13, 80),
    (Kind::DeepOnTheLeft20, 35, 220),
    (Kind::DeepOnTheRight20, 45, 320),
    (Kind::SheetOfBothArms, 140, 650),
    (Kind::OldRightArmLikeLeft, 130, 350),
    (Kind::DeepShortText, 60, 245),
    (Kind::DeepLongText, 55, 245),
    (Kind::ChoicesAt63To65, 60, 65),
    (Kind::ChoicesAt127To129, 50, 60),
    (Kind::ChoicesAt4095To4096, 70, 100),
    (Kind::LongEntry, 140, 540),
    (Kind::LongEntryOfEight, 55, 70),
    (Kind::LongEntryOfNineOrMore, 95, 205),
    (Kind::HugeEntry, 9, 10),
    (Kind::LongKey, 30, 65),
    (Kind::LongEntryFound, 105, 300),
    (Kind::JoinOfMatches, 290, 1700),
    (Kind::JoinOfOneChild, 280, 1600),
    (Kind::UnionOfMatches, 170, 1100),
    (Kind::RepeatOfAMatch, 540, 3600),
    (Kind::RepeatOfMatchOrRemark, 25, 170),
    (Kind::RepeatOfTwoMatches, 170, 920),
    (Kind::Sets, 140, 1000),
    (Kind::SetOfOnePair, 10, 70),
    (Kind::SetOf32Pairs, 19, 140),
    (Kind::SetOutOfOrder, 120, 840),
    (Kind::SetOverlapping, 85, 590),
    (Kind::SetOfEveryByte, 7, 50),
    (Kind::SetAtThePoolsEnd, 80, 570),
    (Kind::SetAt448, 7, 50),
    (Kind::ManySetsOfOnePart, 7, 50),
    (Kind::HullsMeetOnly, 60, 420),
    (Kind::SetOfNoneOrTooMany, 12, 45),
    (Kind::SetOutsideThePool, 16, 65),
    (Kind::SetReversed, 4, 24),
    (Kind::SetReversedLater, 13, 75),
    (Kind::SetForAWord, 10, 60),
    (Kind::SetsAndAClash, 170, 1700),
    (Kind::EmptyMatches30, 100, 340),
    (Kind::EmptyMatches100, 20, 70),
    (Kind::EmptyMatchesWithOld, 90, 180),
    (Kind::EmptyMatchesOldOfOtherChild, 35, 60),
    (Kind::KeptRightArm, 290, 780),
    (Kind::KeptRightArmTwice, 45, 85),
    (Kind::KeptRightArmTwiceOverAMatch, 25, 45),
    (Kind::KeptRightArmInARepeat, 220, 610),
    (Kind::KeptRightArmOverAMatch, 85, 210),
    (Kind::CrossedOverAMatch, 105, 195),
    (Kind::MorePartsThanOld, 560, 870),
    (Kind::FewerPartsThanOld, 500, 1000),
    (Kind::FoundWithoutUnion, 420, 1100),
    (Kind::FoundOfLeftArm, 75, 210),
    (Kind::FoundOfRightArm, 145, 460),
    (Kind::EqualKeys, 520, 1300),
    (Kind::KeysApartAtTheEnd, 30, 90),
    (Kind::LongKeys, 15, 25),
    (Kind::LongKeysFound, 15, 20),
    (Kind::KeyAt4095To4097, 12, 19),
    (Kind::KeysApartBySpaces, 110, 230),
    (Kind::TrimmedAt4095To4097, 10, 10),
    (Kind::FoundByTrimmedKey, 125, 270),
    (Kind::PaddedOneBeforeTheSame, 55, 70),
    (Kind::KeyGainsSpaces, 95, 140),
    (Kind::KeyLosesSpaces, 105, 215),
    (Kind::SpacesMeetTheEmptyKey, 60, 85),
    (Kind::LongPaddedKeyFound, 25, 45),
    (Kind::ApartByOtherBlanks, 85, 135),
    (Kind::LongKeyCutAsked, 18, 26),
    (Kind::SpaceAtTheSeam, 11, 30),
    (Kind::NoClash, 1050, 2100),
    (Kind::SourceJoinShown, 45, 180),
    (Kind::SheetJoinShown, 40, 165),
    (Kind::UnionShown, 80, 340),
    (Kind::SourceRepeatShown, 55, 220),
    (Kind::SheetRepeatShown, 50, 210),
    (Kind::ClashTooLong, 250, 500),
    (Kind::ClashTooLongAndHuge, 8, 24),
    (Kind::EmptyClash, 32, 160),
    (Kind::ClashOver64, 24, 84),
    (Kind::ClashOver4096, 8, 24),
    (Kind::ThreeCuts, 3, 12),
    (Kind::EndAtTheEnd, 130, 540),
    (Kind::UnionOfOneChild, 28, 116),
    (Kind::UnionTurned, 12, 50),
    (Kind::SharedInALaterRun, 65, 260),
    (Kind::HigherTextToo, 60, 240),
    (Kind::EntryMade, 620, 1160),
    (Kind::EntryDropped, 680, 1450),
    (Kind::KeptMadeAndDropped, 325, 520),
    (Kind::EmptyEntryKept, 145, 255),
    (Kind::EmptyEntryMade, 110, 210),
    (Kind::MadeOver255, 55, 75),
    (Kind::MadeOver65535, 5, 5),
    (Kind::EntriesOfSeveralChildren, 200, 420),
    (Kind::EntriesByOtherArms, 30, 55),
    (Kind::DroppedUnasked, 270, 325),
];

fn programs() -> usize {
    match std::env::var("NOONTROUGH_PROGRAMS") {
        Ok(text) => text.parse().expect("NOONTROUGH_PROGRAMS is a number"),
        Err(_) => PROGRAMS,
    }
}

fn require_all_kinds(census: &Census, count: usize) {
    assert!(Kind::ALL.iter().all(|kind| LEAST.iter().any(|(named, ..)| named == kind)), "a kind has no bound");
    for (kind, programs, calls) in LEAST {
        let enough = |found: usize, least: usize| found * PROGRAMS >= least * count;
        let (found, called) = (census.programs(kind), census.calls(kind));
        assert!(enough(found, programs) && enough(called, calls), "{kind:?}: {found} programs, {called} calls");
    }
}

#[test]
fn the_engine_answers_as_the_reference_does() {
    let count = programs();
    let threads: Vec<_> = SEEDS
        .into_iter()
        .map(|seed| std::thread::spawn(move || (seed, with_stack(move || compare(&Engine, seed, count)))))
        .collect();
    let (mut total, mut numbers, mut census) = (0, [0; 18], Census::default());
    for thread in threads {
        let (seed, compared) = thread.join().expect("the comparison ends");
        let compared = compared.unwrap_or_else(|difference| panic!("seed {seed}: {difference:?}"));
        let counts = compared.counts;
        census.add(&compared.census);
        println!("seed {seed}: {} calls, all alike\n{counts}", counts.total());
        total += counts.total();
        for (number, count) in numbers.iter_mut().enumerate() {
            *count += counts.of_number(number as u8);
        }
    }
    println!("{total} calls in all, {} with a result", numbers[0]);
    println!("{census}");
    for (number, count) in numbers.iter().enumerate().skip(1) {
        println!("refusal {number:>2}: {count}");
    }
    for (number, count) in numbers.iter().enumerate() {
        assert!(*count > 0, "{number} never came up");
    }
    // A few programs are not enough to have everything among them.
    if count >= PROGRAMS {
        assert!(total >= 20_000, "only {total} calls");
        require_all_kinds(&census, count);
    }
}

#[test]
fn clashes_of_all_sorts_are_alike() {
    let count = programs();
    let calls = with_stack(move || {
        let mut random = Random::new(14);
        let mut calls = 0;
        for _ in 0..count {
            let mut table = clashing(&mut random);
            if random.once_in(3) {
                table = mutated(&mut random, &table);
            }
            for case in clash_cases(&mut random, &table) {
                assert_eq!(run(&Engine, &case), run(&Remembering, &case), "{case:?}");
                calls += 1;
            }
        }
        calls
    });
    println!("{calls} clashes, all alike");
}

/// Tables with the longest clashes and with those that take longest to find.
const FAR: [&[u8]; 4] = [
    include_bytes!("../examples/tables/longest.table"),
    include_bytes!("../examples/tables/longest_join.table"),
    include_bytes!("../examples/tables/longest_union.table"),
    include_bytes!("../examples/tables/slow_clash.table"),
];

#[test]
fn the_longest_clashes_are_alike() {
    with_stack(|| {
        for case in FAR.iter().flat_map(|table| clash_cases(&mut Random::new(1), table)) {
            let (expected, found) = (run(&Remembering, &case), run(&Engine, &case));
            assert!(expected.shown.is_some() || expected.answer.is_err());
            assert_eq!(found, expected);
        }
    });
}

#[test]
fn an_unedited_sheet_gives_the_old_source_back() {
    let tried = with_stack(|| demand3::unedited(&Engine, 11, CLAUSE_PROGRAMS));
    println!("clause 1: {tried:?}");
    assert!(tried.sheets > 4 * CLAUSE_PROGRAMS && tried.padded_apart > CLAUSE_PROGRAMS / 30);
}

#[test]
fn a_new_source_gives_its_sheet() {
    let (by_put, by_create) = with_stack(|| demand3::read_back(&Engine, 12, CLAUSE_PROGRAMS));
    println!("clause 2: {by_put} sources by put, {by_create} by create");
    assert!(by_put > 4 * CLAUSE_PROGRAMS && by_create > 4 * CLAUSE_PROGRAMS);
}

#[test]
fn entries_with_different_keys_are_put_in_any_order() {
    let tried = with_stack(|| demand3::reordered(&Engine, 13, CLAUSE_PROGRAMS));
    println!("clause 3: {tried:?}");
    assert!(tried.lists > 4 * CLAUSE_PROGRAMS && tried.moved > CLAUSE_PROGRAMS);
    assert!(tried.padded > CLAUSE_PROGRAMS / 20);
}
