//! The comparison finds engines that show a clash a little wrong. Each one here is the
//! reference with one thing changed in its answer or its buffer.

use noontrough_reference::calls::MAX_TEXT;
use noontrough_reference::clash::{clash, ends};
use noontrough_reference::table::Side;
use noontrough_reference::trial::compare;
use noontrough_reference::{Answer, Calls, ClashAnswer, PutAnswer, Reference, Refusal, Shown};

/// The reference with another clash.
struct OtherClash<F: Fn(&[u8], &mut [u8]) -> ClashAnswer> {
    clash: F,
}

impl<F: Fn(&[u8], &mut [u8]) -> ClashAnswer> Calls for OtherClash<F> {
    fn check(&self, table: &[u8]) -> Answer {
        Reference.check(table)
    }
    fn get(&self, table: &[u8], source: &[u8], out: &mut [u8]) -> Answer {
        Reference.get(table, source, out)
    }
    fn put(&self, table: &[u8], sheet: &[u8], source: &[u8], out: &mut [u8]) -> PutAnswer {
        Reference.put(table, sheet, source, out)
    }
    fn create(&self, table: &[u8], sheet: &[u8], out: &mut [u8]) -> Answer {
        Reference.create(table, sheet, out)
    }
    fn clash(&self, table: &[u8], out: &mut [u8]) -> ClashAnswer {
        (self.clash)(table, out)
    }
}

fn is_found(clash: impl Fn(&[u8], &mut [u8]) -> ClashAnswer) -> bool {
    is_found_among(300, clash)
}

fn is_found_among(programs: usize, clash: impl Fn(&[u8], &mut [u8]) -> ClashAnswer) -> bool {
    compare(&OtherClash { clash }, 22, programs).is_err()
}

/// Whether an engine is found whose answers are changed so once the call is done.
fn is_found_after(change: impl Fn(ClashAnswer, &mut [u8]) -> ClashAnswer) -> bool {
    is_found(|table, out| {
        let answer = Reference.clash(table, out);
        change(answer, out)
    })
}

/// Whether an engine is found that shows something else.
fn is_found_showing(change: impl Fn(Shown) -> Shown) -> bool {
    is_found_after(|answer, _| answer.map(|shown| shown.map(&change)))
}

#[test]
fn the_reference_itself_is_not_found() {
    assert!(!is_found_after(|answer, _| answer));
}

#[test]
fn a_refusal_in_place_of_the_clash_is_found() {
    assert!(is_found_after(|answer, _| answer.and_then(|shown| shown.map_or(Ok(None), |shown| Err(shown.rule)))));
}

#[test]
fn no_clash_in_place_of_other_refusals_is_found() {
    assert!(is_found_after(|answer, _| answer.or(Ok(None))));
}

#[test]
fn another_node_or_number_is_found() {
    assert!(is_found_showing(|shown| Shown { rule: Refusal { node: 0, ..shown.rule }, ..shown }));
    assert!(is_found_showing(|shown| Shown {
        rule: Refusal { number: shown.rule.number.min(10), ..shown.rule },
        ..shown
    }));
}

#[test]
fn a_node_with_17_is_found() {
    let with_node = |refusal: Refusal| Refusal { node: refusal.node + u8::from(refusal.number == 17), ..refusal };
    assert!(is_found_after(|answer, _| answer.map_err(with_node)));
}

#[test]
fn other_ends_are_found() {
    assert!(is_found_showing(|shown| Shown { numbers: [shown.numbers[1], shown.numbers[0]], ..shown }));
    assert!(
        is_found_showing(|shown| {
            let [first, second] = shown.numbers;
            Shown { numbers: [first.min(second), first.max(second)], ..shown }
        }),
        "a union's children in the order of their numbers"
    );
    assert!(is_found_showing(|shown| {
        let is_empty = shown.length == 0 && shown.numbers == [0, 0];
        Shown { numbers: if is_empty { [0, 1] } else { shown.numbers }, ..shown }
    }));
}

#[test]
fn ends_that_are_not_the_smallest_are_found() {
    let cuts_of = |table: &[u8]| {
        let (refusal, found) = clash(table)?;
        ends(table, usize::from(refusal.node), found.side, &found.text)
    };
    assert!(is_found_among(4000, |table, out| {
        let answer = Reference.clash(table, out);
        let cuts = cuts_of(table).filter(|cuts| cuts.len() > 2);
        let outermost = |cuts: Vec<usize>| [cuts[0], cuts[cuts.len() - 1]];
        answer.map(|shown| shown.map(|shown| Shown { numbers: cuts.map_or(shown.numbers, outermost), ..shown }))
    }));
}

/// The answer of an engine that takes its buffer to be as long as `room` says.
fn with_room(table: &[u8], out: &mut [u8], room: impl Fn(usize) -> usize) -> ClashAnswer {
    let mut whole = vec![0; 1 << 15];
    let answer = Reference.clash(table, &mut whole)?;
    let Some(shown) = answer else { return Ok(None) };
    if shown.length > room(out.len()) {
        return Err(Refusal { number: 17, node: 0 });
    }
    let length = shown.length.min(out.len());
    out[..length].copy_from_slice(&whole[..length]);
    Ok(Some(shown))
}

#[test]
fn other_limits_are_found() {
    assert!(!is_found(|table, out| with_room(table, out, |lent| lent)));
    assert!(is_found_among(1500, |table, out| with_room(table, out, |lent| lent.min(MAX_TEXT))));
    assert!(is_found(|table, out| with_room(table, out, |lent| lent.saturating_sub(1))));
    assert!(is_found(|table, out| with_room(table, out, |lent| lent + 1)));
}

#[test]
fn bytes_out_of_place_are_found() {
    assert!(is_found_after(|answer, out| {
        if answer == Err(Refusal { number: 17, node: 0 }) && !out.is_empty() {
            out[0] = out[0].wrapping_add(1);
        }
        answer
    }));
    assert!(is_found_after(|answer, out| {
        if let Ok(Some(shown)) = answer {
            if let Some(behind) = out.get_mut(shown.length) {
                *behind = 0;
            }
        }
        answer
    }));
    assert!(is_found_after(|answer, out| {
        if answer == Ok(None) {
            out.fill(0);
        }
        answer
    }));
}

/// A higher text with two cuts, by one byte raised by one or to another of the text's.
fn higher(table: &[u8], rule: Refusal, text: &[u8]) -> Option<Vec<u8>> {
    let side = if rule.number == 8 || rule.number == 11 { Side::Sheet } else { Side::Source };
    let raised = (0..text.len()).flat_map(|place| {
        let next = text[place].checked_add(1);
        let bytes = text.iter().copied().chain(next).filter(move |&byte| byte > text[place]);
        bytes.map(move |byte| [&text[..place], &[byte], &text[place + 1..]].concat())
    });
    raised.take(50).find(|text| ends(table, rule.node.into(), side, text).is_some_and(|ends| ends.len() > 1))
}

#[test]
fn another_text_of_the_same_length_is_found() {
    assert!(is_found(|table, out| {
        let answer = Reference.clash(table, out);
        if let Ok(Some(Shown { rule, length, .. })) = answer {
            if let Some(text) = higher(table, rule, &out[..length]) {
                out[..length].copy_from_slice(&text);
            }
        }
        answer
    }));
}
