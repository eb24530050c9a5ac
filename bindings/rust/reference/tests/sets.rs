//! Classes that are not one run: the cases by hand, and classes at random against
//! their pairs, asked one by one.

mod common;
#[path = "common/set_cases.rs"]
mod set_cases;

use common::*;
use noontrough_reference::clash::clash;
use noontrough_reference::class::{Class, Pair};
use noontrough_reference::generator::draft::Draft;
use noontrough_reference::generator::random::Random;
use noontrough_reference::generator::sets::{self, pairs};
use noontrough_reference::{Program, Reference};

#[test]
fn cases_by_hand() {
    set_cases::all().iter().for_each(|case| case.make(&Reference));
}

fn is_in(pairs: &[Pair], byte: u8) -> bool {
    pairs.iter().any(|&(first, last)| first <= byte && byte <= last)
}

#[test]
fn a_set_has_the_bytes_of_its_pairs() {
    let mut random = Random::new(31);
    for _ in 0..300 {
        let pairs = pairs(&mut random);
        let class = Class::of_pairs(pairs.iter().copied());
        let mut draft = Draft::new();
        let set = draft.set(&pairs);
        draft.copy(set);
        let table = draft.table();
        for byte in 0..=255 {
            assert_eq!(class.has(byte), is_in(&pairs, byte), "{byte} in {pairs:?}");
            assert_eq!(get(&table, &[byte]).is_ok(), is_in(&pairs, byte), "{byte} in {pairs:?}");
        }
        assert_eq!(class.lowest(), (0..=255).find(|&byte| is_in(&pairs, byte)));
        assert_eq!(Class::of_pairs(class.runs()), class);
        assert!(class.runs().windows(2).all(|runs| runs[0].1 < runs[1].0 - 1), "runs that touch: {class:?}");
    }
}

#[test]
fn a_class_is_that_of_its_bytes() {
    assert_eq!(Class::of_pairs([(b'c', b'e'), (b'a', b'c'), (b'x', b'x')]).runs(), [(b'a', b'e'), (b'x', b'x')]);
    assert_eq!(
        Class::of_pairs([(63, 64), (127, 128), (191, 192)]).bytes().collect::<Vec<_>>(),
        [63, 64, 127, 128, 191, 192]
    );
    assert_eq!(Class::of_pairs([(0, 255)]).runs(), [(0, 255)]);
    assert_eq!((Class::default().lowest(), Class::default().runs()), (None, vec![]));
    let (one, other) = (Class::of_pairs([(1, 9)]), Class::of_pairs([(9, 12), (0, 0)]));
    assert_eq!(one.shared(&other), Class::of_byte(9));
    assert_eq!(one.joined(&other), Class::of_pairs([(0, 12)]));
    assert!(one.meets(&other) && !one.meets(&Class::of_byte(0)));
}

/// Two classes that any byte but 255 may be in.
fn two_classes(random: &mut Random) -> [Vec<Pair>; 2] {
    let small = |pairs: Vec<Pair>| pairs.into_iter().map(|(first, last)| (first / 2, last / 2)).collect();
    match random.below(3) {
        0 => {
            let classes = sets::apart(random, 2);
            [classes[0].clone(), classes[1].clone()]
        }
        _ => [(); 2].map(|()| small(pairs(random))),
    }
}

#[test]
fn classes_clash_if_a_byte_is_in_both() {
    let mut random = Random::new(32);
    let mut clashing = [0; 2];
    for _ in 0..400 {
        let classes = two_classes(&mut random);
        let shared = (0..=255).find(|&byte| classes.iter().all(|pairs| is_in(pairs, byte)));
        clashing[usize::from(shared.is_some())] += 1;
        for number in 7..=11 {
            let mut draft = Draft::new();
            let sets = [draft.set(&classes[0]), draft.set(&classes[1])];
            let root = sets::clash(&mut draft, number, sets);
            let expected = shared.map_or(Ok(draft.len()), |_| refuses(number, root));
            assert_eq!(check(&draft.table()), expected, "{number} for {classes:?}");
            let text = clash(&draft.table()).map(|(_, clash)| clash.text);
            if number == 9 {
                assert_eq!(text, shared.map(|byte| vec![byte]), "the lowest byte of both, for {classes:?}");
            }
        }
    }
    assert!(clashing.iter().all(|&count| count > 50), "{clashing:?} apart and meeting");
}

/// The lowest byte of two sets need not be of the first pairs that meet.
#[test]
fn the_lowest_common_byte_is_shown() {
    let shown = |classes: [&[Pair]; 2]| {
        let mut draft = Draft::new();
        let sets = classes.map(|pairs| draft.set(pairs));
        sets::clash(&mut draft, 9, sets);
        clash(&draft.table()).expect("they meet").1.text
    };
    assert_eq!(shown([&[(b'x', b'z'), (b'b', b'd')], &[(b'y', b'y'), (b'd', b'f')]]), b"d");
    assert_eq!(shown([&[(b'a', b'z')], &[(b'q', b'r'), (b'c', b'e')]]), b"c");
    assert_eq!(shown([&[(0, 255)], &[(255, 255)]]), b"\xFF");
}

/// What could have followed is told as the fewest runs.
#[test]
fn what_could_follow_a_text_of_sets() {
    let mut draft = Draft::new();
    let set = draft.set(&[(0xD8, 0xDE), (0xC0, 0xD6)]);
    let overlapping = draft.set(&[(0xD5, 0xD6), (0xDE, 0xDF)]);
    let many = draft.pattern_union(set, overlapping);
    draft.copy(many);
    let program = Program::read(&draft.table()).expect("accepted");
    let reach = program.reach(noontrough_reference::table::Side::Source, b"\xD7").expect("not a source");
    assert_eq!((reach.place, reach.could_follow, reach.could_end), (0, vec![(0xC0, 0xD6), (0xD8, 0xDF)], false));
}
