//! The comparison finds engines that do too little or a little wrong. Each one
//! here is the reference with one thing changed.

use noontrough_reference::calls::MAX_TEXT;
use noontrough_reference::table::{kind, Node, Side, HEADER};
use noontrough_reference::trial::compare;
use noontrough_reference::{Answer, Calls, ClashAnswer, Program, Put, PutAnswer, Reference, Refusal, Tally};

/// The reference, with its answers changed by `after` once a call is done.
struct Changed<F: Fn(Answer, &mut [u8]) -> Answer> {
    after: F,
}

impl<F: Fn(Answer, &mut [u8]) -> Answer> Calls for Changed<F> {
    fn check(&self, table: &[u8]) -> Answer {
        (self.after)(Reference.check(table), &mut [])
    }
    fn get(&self, table: &[u8], source: &[u8], out: &mut [u8]) -> Answer {
        let answer = Reference.get(table, source, out);
        (self.after)(answer, out)
    }
    fn put(&self, table: &[u8], sheet: &[u8], source: &[u8], out: &mut [u8]) -> PutAnswer {
        let answer = Reference.put(table, sheet, source, out);
        let tally = answer.map_or(Tally::default(), |put| put.tally);
        (self.after)(answer.map(|put| put.length), out).map(|length| Put { length, tally })
    }
    fn create(&self, table: &[u8], sheet: &[u8], out: &mut [u8]) -> Answer {
        let answer = Reference.create(table, sheet, out);
        (self.after)(answer, out)
    }
    fn clash(&self, table: &[u8], out: &mut [u8]) -> ClashAnswer {
        Reference.clash(table, out)
    }
}

/// The reference with another put.
struct OtherPut<F: Fn(&[u8], &[u8], &[u8], &mut [u8]) -> PutAnswer> {
    put: F,
}

impl<F: Fn(&[u8], &[u8], &[u8], &mut [u8]) -> PutAnswer> Calls for OtherPut<F> {
    fn check(&self, table: &[u8]) -> Answer {
        Reference.check(table)
    }
    fn get(&self, table: &[u8], source: &[u8], out: &mut [u8]) -> Answer {
        Reference.get(table, source, out)
    }
    fn put(&self, table: &[u8], sheet: &[u8], source: &[u8], out: &mut [u8]) -> PutAnswer {
        (self.put)(table, sheet, source, out)
    }
    fn create(&self, table: &[u8], sheet: &[u8], out: &mut [u8]) -> Answer {
        Reference.create(table, sheet, out)
    }
    fn clash(&self, table: &[u8], out: &mut [u8]) -> ClashAnswer {
        Reference.clash(table, out)
    }
}

/// A table with every node of kind `from` made `to`.
fn with_kind(table: &[u8], from: u8, to: u8) -> Vec<u8> {
    let mut changed = table.to_vec();
    let count = usize::from(table.first().copied().unwrap_or(0));
    for byte in changed.iter_mut().skip(HEADER).take(count).filter(|byte| **byte == from) {
        *byte = to;
    }
    changed
}

/// A table with the two operands of every lens union changed round.
fn with_arms_turned(table: &[u8]) -> Vec<u8> {
    let mut changed = table.to_vec();
    let count = usize::from(table.first().copied().unwrap_or(0));
    for node in 0..count {
        if table.get(HEADER + node) == Some(&kind::LENS_UNION) {
            let operands = HEADER + count + 3 * node;
            changed.swap(operands, operands + 1);
        }
    }
    changed
}

fn is_found(calls: &dyn Calls) -> bool {
    compare(calls, 21, 300).is_err()
}

#[test]
fn the_reference_itself_is_not_found() {
    assert!(!is_found(&Changed { after: |answer, _| answer }));
}

#[test]
fn an_engine_that_refuses_everything_is_found() {
    assert!(is_found(&Changed { after: |_, _| Err(Refusal::of_call(1)) }));
}

#[test]
fn an_engine_that_gives_empty_texts_is_found() {
    assert!(is_found(&Changed { after: |answer, _| answer.map(|_| 0) }));
}

#[test]
fn a_node_that_is_always_0_is_found() {
    assert!(is_found(&Changed { after: |answer, _| answer.map_err(|refusal| Refusal::of_call(refusal.number)) }));
}

#[test]
fn a_buffer_touched_by_a_refusal_is_found() {
    let after = |answer: Answer, out: &mut [u8]| {
        if let (Err(_), Some(byte)) = (answer, out.first_mut()) {
            *byte ^= 1;
        }
        answer
    };
    assert!(is_found(&Changed { after }));
}

#[test]
fn a_byte_behind_the_result_is_found() {
    let after = |answer: Answer, out: &mut [u8]| {
        if let Some(byte) = answer.ok().and_then(|length| out.get_mut(length)) {
            *byte ^= 1;
        }
        answer
    };
    assert!(is_found(&Changed { after }));
}

#[test]
fn a_put_that_gives_the_old_source_is_found() {
    let put = |table: &[u8], sheet: &[u8], source: &[u8], out: &mut [u8]| {
        let before = out.to_vec();
        let put = Reference.put(table, sheet, source, out)?;
        out.copy_from_slice(&before);
        out.get_mut(..source.len()).ok_or(Refusal::of_call(16))?.copy_from_slice(source);
        Ok(Put { length: source.len(), ..put })
    };
    assert!(is_found(&OtherPut { put }));
}

#[test]
fn a_put_that_only_creates_is_found() {
    let put = |table: &[u8], sheet: &[u8], source: &[u8], out: &mut [u8]| {
        let before = out.to_vec();
        let put = Reference.put(table, sheet, source, out)?;
        out.copy_from_slice(&before);
        Ok(Put { length: Reference.create(table, sheet, out)?, ..put })
    };
    assert!(is_found(&OtherPut { put }));
}

#[test]
fn a_put_that_ignores_keys_is_found() {
    let put = |table: &[u8], sheet: &[u8], source: &[u8], out: &mut [u8]| {
        Reference.put(&with_kind(table, kind::KEY, kind::COPY), sheet, source, out)
    };
    assert!(is_found(&OtherPut { put }));
}

#[test]
fn a_put_that_prefers_the_right_arm_is_found() {
    let put = |table: &[u8], sheet: &[u8], source: &[u8], out: &mut [u8]| {
        Reference.check(table)?;
        Reference.put(&with_arms_turned(table), sheet, source, out)
    };
    assert!(is_found(&OtherPut { put }));
}

#[test]
fn a_put_that_gives_up_long_old_entries_is_found() {
    let put = |table: &[u8], sheet: &[u8], source: &[u8], out: &mut [u8]| {
        let before = out.to_vec();
        let answer = Reference.put(table, sheet, source, out);
        let shown = Reference.get(table, source, &mut [0; MAX_TEXT]);
        if answer.is_err() || shown.is_ok() {
            return answer;
        }
        out.copy_from_slice(&before);
        Ok(Put { length: Reference.create(table, sheet, out)?, ..answer? })
    };
    assert!(is_found(&OtherPut { put }));
}

/// What a tally is counted from.
struct Counted<'a> {
    program: &'a Program,
    sheet: &'a [u8],
    old: &'a [u8],
    new: &'a [u8],
}

impl Counted<'_> {
    fn old_entries(&self) -> usize {
        self.program.count_entries(self.old)
    }

    /// The parts of a text that a match reads, those of the sheet by its left arms.
    fn matched(&self, side: Side) -> Vec<(usize, Vec<u8>)> {
        let mut found = Vec::new();
        let text = if side == Side::Source { self.new } else { self.sheet };
        self.program.each_part(side, text, &mut |node, part| {
            if let Node::Match(child) = *self.program.node(node) {
                found.push((child, part.to_vec()));
            }
        });
        found
    }
}

/// Whether the comparison finds an engine that is the reference but for its
/// tallies.
fn tally_is_found(tally: impl Fn(Tally, &Counted) -> Tally) -> bool {
    let put = |table: &[u8], sheet: &[u8], source: &[u8], out: &mut [u8]| {
        let put = Reference.put(table, sheet, source, out)?;
        let program = Program::read(table)?;
        let counted = Counted { program: &program, sheet, old: source, new: &out[..put.length] };
        Ok(Put { tally: tally(put.tally, &counted), ..put })
    };
    is_found(&OtherPut { put })
}

#[test]
fn the_right_tally_is_not_found() {
    assert!(!tally_is_found(|tally, _| tally));
}

#[test]
fn a_tally_without_counts_is_found() {
    assert!(tally_is_found(|_, _| Tally::default()));
}

#[test]
fn kept_and_made_changed_round_are_found() {
    assert!(tally_is_found(|tally, _| Tally { kept: tally.made, made: tally.kept, ..tally }));
}

#[test]
fn dropped_as_what_the_sheet_has_less_is_found() {
    assert!(tally_is_found(|tally, counted| {
        let dropped = counted.old_entries().saturating_sub(tally.kept + tally.made);
        Tally { dropped, ..tally }
    }));
}

#[test]
fn dropped_without_what_nobody_asked_for_is_found() {
    assert!(tally_is_found(|tally, counted| {
        let asked: Vec<usize> = counted.matched(Side::Source).into_iter().map(|(child, _)| child).collect();
        let book = counted.program.book(counted.old);
        let unasked = book.entries().iter().filter(|entry| !asked.contains(&entry.child)).count();
        Tally { dropped: tally.dropped - unasked, ..tally }
    }));
}

#[test]
fn made_without_empty_entries_is_found() {
    assert!(tally_is_found(|tally, counted| {
        let empty = counted.matched(Side::Source).iter().filter(|(_, text)| text.is_empty()).count();
        Tally { made: tally.made.saturating_sub(empty), ..tally }
    }));
}

#[test]
fn made_by_a_reading_of_the_sheet_is_found() {
    assert!(tally_is_found(|tally, counted| {
        let read = counted.matched(Side::Sheet).len();
        Tally { made: read.saturating_sub(tally.kept), ..tally }
    }));
}

/// (A count in two bytes is found by longer comparisons, and by the cases of
/// `tally.rs`.)
#[test]
fn made_in_a_byte_is_found() {
    assert!(tally_is_found(|tally, _| Tally { made: tally.made % 256, ..tally }));
}

#[test]
fn a_difference_can_be_read() {
    let found = compare(&Changed { after: |answer, _| answer.map(|length| length + 1) }, 21, 300);
    let difference = found.expect_err("every length is wrong");
    assert_ne!(difference.expected.answer, difference.found.answer);
    assert!(format!("{difference:?}").contains("table"));
}
