//! The comparison finds engines whose import or export is a little wrong. Each one
//! here is the reference with one thing changed.

use noontrough_reference::afm::{section_of, sheet_text, AfmCalls, Answer, Refusal, MAX_AFM_TEXT};
use noontrough_reference::afm_trial::compare;
use noontrough_reference::generator::afm::Way;
use noontrough_reference::Reference;

/// How many calls a wrong engine has to be found among.
const CALLS: usize = 4000;

/// The reference with other calls.
struct Other<F: Fn(Way, &[u8], &mut [u8]) -> Answer> {
    call: F,
}

impl<F: Fn(Way, &[u8], &mut [u8]) -> Answer> AfmCalls for Other<F> {
    fn import(&self, section: &[u8], out: &mut [u8]) -> Answer {
        (self.call)(Way::Import, section, out)
    }
    fn export(&self, sheet: &[u8], out: &mut [u8]) -> Answer {
        (self.call)(Way::Export, sheet, out)
    }
}

fn call(way: Way, text: &[u8], out: &mut [u8]) -> Answer {
    match way {
        Way::Import => Reference.import(text, out),
        Way::Export => Reference.export(text, out),
    }
}

fn is_found(call: impl Fn(Way, &[u8], &mut [u8]) -> Answer) -> bool {
    compare(&Other { call }, 41, CALLS).is_err()
}

/// Whether an engine is found that takes another text for the one it is given.
fn is_found_reading(change: impl Fn(Way, &[u8]) -> Vec<u8>) -> bool {
    is_found(|way, text, out| {
        let other = change(way, text);
        call(way, if text.len() > MAX_AFM_TEXT { text } else { &other }, out)
    })
}

/// Whether an engine is found whose answers are changed so once a call is done.
fn is_found_after(change: impl Fn(Answer, &mut [u8]) -> Answer) -> bool {
    is_found(|way, text, out| {
        let answer = call(way, text, out);
        change(answer, out)
    })
}

fn is_found_with_node(change: impl Fn(usize) -> usize) -> bool {
    is_found_after(|answer, _| answer.map_err(|refusal| Refusal { node: change(refusal.node), ..refusal }))
}

/// A text with one word put for another wherever it stands.
fn with_word(text: &[u8], word: &str, other: &str) -> Vec<u8> {
    // Each byte as a character of its own, so that nothing else changes.
    let read: String = text.iter().map(|&byte| char::from(byte)).collect();
    read.replace(word, other).chars().map(|letter| letter as u8).collect()
}

#[test]
fn the_reference_itself_is_not_found() {
    assert!(!is_found_after(|answer, _| answer));
    assert!(!is_found_reading(|_, text| text.to_vec()));
}

#[test]
fn other_nodes_are_found() {
    assert!(is_found_with_node(|_| 0));
    assert!(is_found_with_node(|node| node.saturating_sub(1)));
    assert!(is_found_with_node(|node| node % 256), "a byte for the line");
    assert!(is_found_with_node(|node| node % 4096), "twelve bits for the line");
    assert!(is_found(|way, text, out| {
        let lines = text.split_inclusive(|&byte| byte == b'\n').count();
        let last = |refusal: Refusal| Refusal { node: refusal.node.min(lines), ..refusal };
        call(way, text, out).map_err(last)
    }));
}

#[test]
fn other_orders_of_refusals_are_found() {
    let start_has_wrong_count = |text: &[u8]| {
        let lines = text.split(|&byte| byte == b'\n').collect::<Vec<_>>();
        let pairs = lines.iter().filter(|line| line.starts_with(b"KPX ")).count();
        lines[0].starts_with(b"StartKernPairs ") && !lines[0].ends_with(format!(" {pairs}").as_bytes())
    };
    assert!(is_found(|way, text, out| {
        let answer = call(way, text, out);
        let is_early = answer.is_err_and(|refusal| refusal.number == 18 && refusal.node > 1);
        if way == Way::Import && is_early && start_has_wrong_count(text) {
            return Err(Refusal::of_call(19));
        }
        answer
    }));
    assert!(is_found(|way, text, out| {
        let room = out.len();
        call(way, text, out).map_err(|refusal| match refusal.number {
            18 | 19 if room == 0 => Refusal::of_call(16),
            _ => refusal,
        })
    }));
}

#[test]
fn other_limits_are_found() {
    let with_most = |most: usize| {
        is_found(move |way, text, out| {
            let mut whole = vec![0; MAX_AFM_TEXT];
            let length = call(way, text, &mut whole)?;
            let is_room = length <= out.len().min(most);
            is_room.then(|| out[..length].copy_from_slice(&whole[..length])).ok_or(Refusal::of_call(16))?;
            Ok(length)
        })
    };
    assert!(!with_most(MAX_AFM_TEXT));
    assert!(with_most(MAX_AFM_TEXT - 1));
    assert!(with_most(4096));
    let with_text_of = |most: usize| {
        is_found(move |way, text, out| match text.len() {
            length if length > most => Err(Refusal::of_call(12)),
            _ => call(way, text, out),
        })
    };
    assert!(!with_text_of(MAX_AFM_TEXT));
    assert!(with_text_of(MAX_AFM_TEXT - 1));
    assert!(with_text_of(4096));
    // A sheet of any length, as long as its section fits.
    assert!(is_found(|way, text, out| call(way, &text[..text.len().min(MAX_AFM_TEXT)], out)));
}

#[test]
fn results_are_limited_in_longer_buffers_too() {
    let unlimited = |way: Way, text: &[u8], out: &mut [u8]| {
        let answer = call(way, text, out);
        let result = noontrough_reference::generator::afm::unlimited(way, text).unwrap_or_default();
        if answer == Err(Refusal::of_call(16)) && result.len() <= out.len() {
            out[..result.len()].copy_from_slice(&result);
            return Ok(result.len());
        }
        answer
    };
    assert!(compare(&Other { call: unlimited }, 42, 3 * CALLS).is_err());
}

#[test]
fn looser_forms_are_found() {
    let is_loose = |from: &'static str, to: &'static str| is_found_reading(move |_, text| with_word(text, from, to));
    assert!(is_loose("\r\n", "\n"));
    assert!(is_loose("\t", " "));
    assert!(is_loose(" \n", "\n"), "spaces at a line's end");
    assert!(is_loose("\n ", "\n"), "spaces at a line's beginning");
    assert!(is_loose("\n\n", "\n"), "blank lines");
    assert!(is_loose("-0\n", "0\n"), "minus nought");
    assert!(is_loose(" +", " "), "a plus sign");
    assert!(is_loose(" 00\n", " 0\n"), "a zero before a zero");
    assert!(is_loose("KPY", "KPX"));
    assert!(is_loose(";;", ";"));
    assert!(is_loose("\u{a0}", ""), "a byte outside ASCII");
    assert!(is_loose("\0", ""), "a zero byte");
    assert!(is_loose(" 32768\n", " 32767\n"), "a value too large");
    assert!(is_loose(";-32769\n", ";-32768\n"), "a value too small");
    assert!(is_loose(" 65536\n", " 65535\n"), "a count too large");
    assert!(is_loose(&"n".repeat(64).leak()[..], "n"), "a name of 64 bytes");
}

#[test]
fn stricter_forms_are_found() {
    let is_strict = |word: &'static str| is_found_reading(move |_, text| with_word(text, word, "\0"));
    assert!(is_strict("-32768"));
    assert!(is_strict("32767"));
    assert!(is_strict("  "), "runs of spaces");
    assert!(is_strict("~"));
    assert!(is_strict("!"));
    assert!(is_strict("KPX KPX"), "a name like a keyword");
}

#[test]
fn lines_behind_the_end_that_are_ignored_are_found() {
    const END: &[u8] = b"\nEndKernPairs\n";
    assert!(is_found_reading(|_, text| {
        let end = text.windows(END.len()).position(|window| window == END);
        text[..end.map_or(text.len(), |end| end + END.len())].to_vec()
    }));
}

#[test]
fn a_newline_that_is_not_missed_is_found() {
    assert!(is_found_reading(|_, text| {
        let missing: &[u8] = if text.is_empty() || text.ends_with(b"\n") { b"" } else { b"\n" };
        [text, missing].concat()
    }));
}

#[test]
fn an_end_that_is_not_missed_is_found() {
    assert!(is_found_reading(|way, text| {
        let missing: &[u8] =
            if way == Way::Export || text.ends_with(b"EndKernPairs\n") { b"" } else { b"EndKernPairs\n" };
        [text, missing].concat()
    }));
}

/// An import that does something else with what it has read.
fn is_found_importing(change: impl Fn(&mut Vec<noontrough_reference::afm::Pair>, usize) -> bool) -> bool {
    is_found(|way, text, out| {
        let read = section_of(text).ok().filter(|_| way == Way::Import && text.len() <= MAX_AFM_TEXT);
        let Some(mut read) = read else { return call(way, text, out) };
        if !change(&mut read.pairs, read.count) {
            return Err(Refusal::of_call(19));
        }
        let sheet = sheet_text(&read.pairs);
        if sheet.len() > out.len() {
            return Err(Refusal::of_call(16));
        }
        out[..sheet.len()].copy_from_slice(&sheet);
        Ok(sheet.len())
    })
}

#[test]
fn other_counts_and_pairs_are_found() {
    assert!(!is_found_importing(|pairs, count| pairs.len() == count));
    assert!(is_found_importing(|_, _| true), "the count is not looked at");
    assert!(is_found_importing(|pairs, count| pairs.len() % 256 == count % 256), "a byte of the count");
    assert!(is_found_importing(|pairs, count| pairs.len() <= count));
    assert!(is_found_importing(|pairs, count| {
        let is_right = pairs.len() == count;
        pairs.pop();
        is_right
    }));
    assert!(is_found_importing(|pairs, count| {
        let is_right = pairs.len() == count;
        pairs.reverse();
        is_right
    }));
    assert!(is_found_importing(|pairs, count| {
        let is_right = pairs.len() == count;
        pairs.dedup_by(|next, before| (&next.left, &next.right) == (&before.left, &before.right));
        is_right
    }));
}

#[test]
fn bytes_out_of_place_are_found() {
    assert!(is_found_after(|answer, out| {
        if answer.is_err() {
            out.fill(0);
        }
        answer
    }));
    assert!(is_found_after(|answer, out| {
        if let Some(behind) = answer.ok().and_then(|length| out.get_mut(length)) {
            *behind = 0;
        }
        answer
    }));
    assert!(is_found_after(|answer, out| {
        if let Some(last) = answer.ok().and_then(|length| length.checked_sub(1)) {
            out[last] = b'\r';
        }
        answer
    }));
    assert!(is_found_after(|answer, _| answer.map(|length| length.saturating_sub(1))));
}
