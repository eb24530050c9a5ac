//! The sentences for refusals stand in three languages, and are the same in all.
//! (`bindings/python/tests` compares those of Python.)

use std::path::Path;

/// The sentences of the program `sheet`, with their numbers, which are their places in the table of its source.
fn of_sheet() -> Vec<(u64, String)> {
    let file = Path::new(env!("CARGO_MANIFEST_DIR")).join("../../crates/meanings/src/lib.rt");
    let source = std::fs::read_to_string(file).expect("the crate is there");
    let behind = source.split("const SENTENCES: [&str; 19] = [\n").nth(1).expect("the table is there");
    let table = behind.split("\n];").next().unwrap_or_default();
    let quoted = table.lines().map(|line| {
        let text = line.trim().strip_prefix('"').and_then(|text| text.strip_suffix("\\n\","));
        text.expect("a line has a sentence").to_string()
    });
    (1..).zip(quoted).collect()
}

#[test]
fn are_those_of_sheet() {
    let sentences = of_sheet();
    assert_eq!(sentences.iter().map(|(number, _)| *number).collect::<Vec<u64>>(), (1..=19).collect::<Vec<u64>>());
    for (number, sentence) in sentences {
        assert_eq!(noontrough::sentence(number), Some(sentence.as_str()), "{number}");
    }
    assert_eq!((noontrough::sentence(0), noontrough::sentence(20)), (None, None));
}

/// The calls for Adobe's metrics have the same words for their own numbers, and others
/// for 12 and 16, where a program's texts are meant.
#[test]
fn those_of_the_calls_without_a_program() {
    use noontrough::{afm, sentence};

    let numbers: Vec<u64> = (0..30).filter(|&number| afm::sentence(number).is_some()).collect();
    assert_eq!(numbers, [12, 16, 18, 19]);
    assert_eq!([18, 19].map(afm::sentence), [18, 19].map(sentence));
    for number in [12, 16] {
        let [with, without] = [sentence(number), afm::sentence(number)].map(Option::unwrap_or_default);
        assert!(with.contains("4,096 bytes") && !with.contains("65,535"), "{with}");
        assert!(without.contains("65,535 bytes") && !without.contains("4,096"), "{without}");
    }
    assert_eq!(
        afm::Refusal { number: 18, node: 7 }.to_string(),
        "refused 18 7: The line of this number is not of its form: see what lines a section and a sheet have, and end each \
         with a newline."
    );
}
