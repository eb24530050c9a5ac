//! Random programs and texts through the tool: it ends with one of its exit
//! statuses, writes nothing to standard output beside a refusal, tells the engine's
//! number and node of it, and otherwise gives what the linked engine gives, and
//! tells a put's tally. A clash is written as the engine gives it.

mod common;

use common::*;
use noontrough::{Answer, ClashAnswer, Tally, MAX_CLASH, MAX_TEXT};
use noontrough_assembler::{assemble, show};
use noontrough_reference::generator::cases::{cases_without_clash, Call, Case};
use noontrough_reference::generator::faults::mutated;
use noontrough_reference::generator::programs::accepted;
use noontrough_reference::generator::random::Random;
use noontrough_reference::generator::texts::garbage;

const PROGRAMS: usize = 100;
const TEXTS: usize = 400;

/// The engine's answer, the bytes that it gave, and a put's tally.
fn answer(case: &Case) -> (Answer, Vec<u8>, Option<Tally>) {
    let (mut out, mut tally) = (vec![0; MAX_TEXT], None);
    let answer = match case.call {
        Call::Check => noontrough::check(&case.table),
        Call::Get => noontrough::get(&case.table, &case.source, &mut out),
        Call::Put => {
            let answer = noontrough::put(&case.table, &case.sheet, &case.source, &mut out);
            tally = answer.tally();
            answer.into()
        }
        Call::Create => noontrough::create(&case.table, &case.sheet, &mut out),
        Call::Clash => unreachable!("none is drawn"),
    };
    if let Answer::Result { length } = answer {
        out.truncate(length);
    }
    (answer, out, tally)
}

/// Makes the same call in a shell. True for a refusal.
fn agrees(folder: &Folder, case: &Case) -> bool {
    let files = [("table", &case.table), ("sheet", &case.sheet), ("source", &case.source)];
    for (name, bytes) in files {
        folder.write(name, bytes);
    }
    let line = match case.call {
        Call::Check => "noontrough check table > result",
        Call::Get => "noontrough get table source > result",
        Call::Put => "noontrough put table sheet source > result",
        Call::Create => "noontrough create table sheet > result",
        Call::Clash => unreachable!("none is drawn"),
    };
    let done = folder.sh(line);
    let result = folder.read("result");
    match answer(case) {
        (Answer::Result { length }, out, tally) => {
            let told = tally.map_or(String::new(), |tally| format!("{tally}\n"));
            assert_eq!((done.status, done.stderr), (0, told), "{case:?}");
            if case.call == Call::Check {
                assert!(result.starts_with(format!("ok {length} ").as_bytes()), "{case:?}");
            } else {
                assert!(result == out, "{case:?}");
            }
            false
        }
        (Answer::Refusal { number, node }, ..) => {
            assert_eq!((done.status, result.len()), (1, 0), "{case:?}: {}", done.stderr);
            let told = done.stderr.contains(&format!("refused {number} {node}: "));
            // What looks like a text is read as one, and told in the assembler's words.
            assert!(told || number == 1 && done.stderr.starts_with("table:"), "{case:?}: {}", done.stderr);
            true
        }
    }
}

#[test]
fn calls() {
    let folder = Folder::new();
    let mut random = Random::new(1);
    let cases: Vec<Case> = (0..PROGRAMS).flat_map(|_| cases_without_clash(&mut random)).collect();
    let refused = cases.iter().filter(|case| agrees(&folder, case)).count();
    assert!(refused > 100 && cases.len() - refused > 100, "{refused} of {} calls were refused", cases.len());
}

/// The status of a clash, and what is written: the engine's text, if there is one.
fn clash_of(table: &[u8]) -> (i32, Vec<u8>, &'static str) {
    match noontrough::clash(table, &mut [0; MAX_CLASH]) {
        ClashAnswer::Clash(clash) => (0, clash.text.to_vec(), "table: node "),
        ClashAnswer::NoClash => (1, Vec::new(), "table: there is no clash"),
        ClashAnswer::Refusal { number: 1, .. } => (1, Vec::new(), ""),
        ClashAnswer::Refusal { .. } => (1, Vec::new(), "noontrough: refused "),
    }
}

#[test]
fn clashes() {
    let folder = Folder::new();
    let mut random = Random::new(3);
    let mut shown = 0;
    for _ in 0..2 * PROGRAMS {
        let table = ambiguous(&mut random);
        folder.write("table", &table);
        let done = folder.sh("noontrough clash table > result");
        let (status, text, told) = clash_of(&table);
        assert_eq!((done.status, folder.read("result")), (status, text), "{table:?}: {}", done.stderr);
        assert!(done.stderr.starts_with(told), "{table:?}: {}", done.stderr);
        shown += usize::from(status == 0);
    }
    assert!(shown > PROGRAMS / 2, "{shown} clashes were shown");
}

/// A program with two of its lenses joined, united or repeated once more, which
/// often makes it ambiguous.
fn ambiguous(random: &mut Random) -> Vec<u8> {
    let mut draft = accepted(random);
    let (root, other) = (draft.len() as u8 - 1, random.below(draft.len()) as u8);
    match random.below(4) {
        0 => draft.lens_join(root, root),
        1 => draft.lens_union(root, root),
        2 => draft.lens_join(root, other),
        _ => draft.lens_repeat(root),
    };
    draft.table()
}

/// A program's text as it is shown, often with some bytes changed, or that of a
/// table with some bytes changed.
fn any_text(random: &mut Random) -> Vec<u8> {
    let table = accepted(random).table();
    let text = show(&table).expect("the sizes are right").into_bytes();
    match random.below(4) {
        0 => mutated(random, &text),
        1 => garbage(random, &text),
        2 => show(&mutated(random, &table)).map_or(text, String::into_bytes),
        _ => text,
    }
}

/// The exit status of a check: 0 if it is the text of a right program. With a
/// control byte in it, it is no text.
fn status_of(text: &[u8]) -> i32 {
    let is_text = text.iter().all(|&byte| byte >= b' ' || b"\t\n\r".contains(&byte));
    let table = assemble(text).map(|assembled| assembled.table);
    let is_right = table.is_ok_and(|table| matches!(noontrough::check(&table), Answer::Result { .. }));
    i32::from(!(is_text && is_right))
}

#[test]
fn texts_of_programs() {
    let folder = Folder::new();
    let mut random = Random::new(2);
    let mut met = [0, 0];
    for _ in 0..TEXTS {
        let text = any_text(&mut random);
        folder.write("p.lens", &text);
        let done = folder.sh("noontrough check p.lens");
        let shown = String::from_utf8_lossy(&text);
        assert_eq!(done.status, status_of(&text), "{}\n{shown}", done.stderr);
        assert_eq!(done.stdout.is_empty(), done.status == 1, "{}\n{shown}", done.stdout);
        assert_eq!(done.stderr.is_empty(), done.status == 0, "{}\n{shown}", done.stderr);
        met[done.status as usize] += 1;
    }
    assert!(met.iter().all(|&count| count > TEXTS / 10), "results and refusals: {met:?}");
}
