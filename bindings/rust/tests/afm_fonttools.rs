//! What import takes from a section is what fontTools takes from it, for names that
//! fontTools knows: letters, digits, full stops and underscores. Skipped where
//! fontTools is not installed.
//!
//! `NOONTROUGH_AFM_SECTIONS` sets how many sections are compared.

mod fonttools;

use fonttools::FontTools;
use noontrough::afm::import;
use noontrough_reference::afm_trial::shown;
use noontrough_reference::generator::afm::texts::{few_pairs, Names};
use noontrough_reference::generator::afm::{good_section, section_of_pairs};
use noontrough_reference::generator::random::Random;

const SECTIONS: usize = 4000;

fn sections() -> usize {
    match std::env::var("NOONTROUGH_AFM_SECTIONS") {
        Ok(text) => text.parse().expect("NOONTROUGH_AFM_SECTIONS is a number"),
        Err(_) => SECTIONS,
    }
}

/// A section with fontTools' names. Every fourth has pairs that stand twice.
fn section(random: &mut Random) -> Vec<u8> {
    if !random.once_in(4) {
        return good_section(random, Names::Plain);
    }
    let mut pairs = few_pairs(random, Names::Plain, 8);
    let others = few_pairs(random, Names::Plain, 3);
    let again = pairs.iter().zip(&others).map(|(pair, other)| {
        let mut again = pair.clone();
        again.value = other.value;
        again
    });
    pairs.extend(again.collect::<Vec<_>>());
    random.shuffle(&mut pairs);
    section_of_pairs(random, &pairs)
}

/// A sheet's lines as fontTools keeps them: a pair that stands twice is where it stood
/// first, with its last value. And how many lines were left out so.
fn kept_once(sheet: &[u8]) -> (Vec<u8>, usize) {
    let text = std::str::from_utf8(sheet).expect("the names are ASCII");
    let (mut rows, mut twice) = (Vec::<(&str, &str)>::new(), 0);
    for line in text.lines() {
        let (pair, value) = line.rsplit_once(';').expect("a line has three fields");
        match rows.iter_mut().find(|(before, _)| *before == pair) {
            Some(row) => {
                row.1 = value;
                twice += 1;
            }
            None => rows.push((pair, value)),
        }
    }
    (rows.iter().map(|(pair, value)| format!("{pair};{value}\n")).collect::<String>().into_bytes(), twice)
}

#[test]
fn pairs_that_stand_twice_are_kept_once() {
    assert_eq!(kept_once(b"A;V;1\nA;T;2\nA;V;3\nA;V;-4\n"), (b"A;V;-4\nA;T;2\n".to_vec(), 2));
    assert_eq!(kept_once(b"A;V;1\nV;A;2\n"), (b"A;V;1\nV;A;2\n".to_vec(), 0));
}

#[test]
fn import_takes_what_fonttools_takes() {
    let mut fonttools = match FontTools::start() {
        Ok(fonttools) => fonttools,
        Err(reason) => return println!("SKIPPED: import is not compared with fontTools: {reason}"),
    };
    let count = sections();
    let (mut random, mut pairs, mut twice) = (Random::new(61), 0, 0);
    for _ in 0..count {
        let section = section(&mut random);
        let sheet = import(&section).expect("the section is of its form");
        let (expected, left_out) = kept_once(&sheet);
        fonttools.load(&section);
        fonttools.read();
        let found = fonttools.sheet();
        assert!(found == expected, "fontTools gives {} for {}", shown(&found), shown(&section));
        pairs += sheet.iter().filter(|&&byte| byte == b'\n').count();
        twice += left_out;
    }
    println!("{count} sections, {pairs} pairs, {twice} of them again: as fontTools {} reads them", fonttools.version);
    assert!(pairs > 10 * count && twice > count / 20, "too few pairs");
}
