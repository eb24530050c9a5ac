//! Puts with their results and tallies, from document 02 and by hand.

use noontrough_reference::generator::draft::{Draft, NodeNumber};
use noontrough_reference::Tally;

/// A put into 4,096 bytes, what it gives, and what became of the entries.
pub struct TallyCase {
    pub name: &'static str,
    pub table: Vec<u8>,
    pub sheet: Vec<u8>,
    pub old: Vec<u8>,
    pub new: Vec<u8>,
    pub tally: Tally,
}

pub fn all() -> Vec<TallyCase> {
    [of_k(), of_children(), of_empty_entries(), of_arms(), of_many_entries()].into_iter().flatten().collect()
}

/// Sheet, old source and new source, and the entries kept, made and dropped.
type Row<'a> = (&'a [u8], &'a [u8], &'a [u8], [usize; 3]);

fn rows(name: &'static str, draft: &Draft, rows: &[Row]) -> Vec<TallyCase> {
    let case = |&(sheet, old, new, [kept, made, dropped]): &Row| TallyCase {
        name,
        table: draft.table(),
        sheet: sheet.to_vec(),
        old: old.to_vec(),
        new: new.to_vec(),
        tally: Tally { kept, made, dropped },
    };
    rows.iter().map(case).collect()
}

/// Entries of capitals, shown by a key or a copy, hidden digits and a semicolon.
fn k(label: fn(&mut Draft, NodeNumber) -> NodeNumber) -> Draft {
    let mut draft = Draft::new();
    let (capital, digit) = (draft.range(b'A', b'Z'), draft.range(b'0', b'9'));
    let (name, digits) = (draft.pattern_some(capital), draft.pattern_repeat(digit));
    let row = [label(&mut draft, name), draft.delete(digits, b"0"), draft.copy_word(b";")];
    let line = draft.lens_row(&row);
    let entry = draft.matched(line);
    draft.lens_repeat(entry);
    draft
}

fn of_k() -> Vec<TallyCase> {
    let old: &[u8] = b"AB1;C22;";
    let by_key: [Row; 10] = [
        (b"C;D;", old, b"C22;D0;", [1, 1, 1]), // as document 02 has it
        (b"AB;C;", old, old, [2, 0, 0]),
        (b"C;AB;", old, b"C22;AB1;", [2, 0, 0]),
        (b"AB;AB;", old, b"AB1;AB0;", [1, 1, 1]),
        (b"A;A;", b"A1;A2;", b"A1;A2;", [2, 0, 0]),
        (b"A;A;A;", b"A1;", b"A1;A0;A0;", [1, 2, 0]),
        (b"", old, b"", [0, 0, 2]),
        (b"AB;", b"", b"AB0;", [0, 1, 0]),
        (b"", b"", b"", [0, 0, 0]),
        (b"A;A;", &b"A7;".repeat(256), b"A7;A7;", [2, 0, 254]),
    ];
    let most = b"A;".repeat(256);
    let all_kept: [Row; 1] = [(&most, &most, &most, [256, 0, 0])];
    let in_order: [Row; 1] = [(b"C;AB;D;", old, b"C1;AB22;D0;", [2, 1, 0])];
    let keyed = rows("K", &k(Draft::key), &by_key);
    let full = rows("K with 256 entries", &k(Draft::key), &all_kept);
    keyed.into_iter().chain(full).chain(rows("K without a key", &k(Draft::copy), &in_order)).collect()
}

/// A letter and a hidden digit.
fn lettered(draft: &mut Draft) -> NodeNumber {
    let (letter, digit) = (draft.range(b'A', b'Z'), draft.range(b'0', b'9'));
    let row = [draft.key(letter), draft.delete(digit, b"0")];
    draft.lens_row(&row)
}

/// Entries before and behind a semicolon, of one child or of two that are alike.
fn of_children() -> Vec<TallyCase> {
    let of = |is_one: bool| {
        let mut draft = Draft::new();
        let first = lettered(&mut draft);
        let second = if is_one { first } else { lettered(&mut draft) };
        let lists = [first, second].map(|child| {
            let entry = draft.matched(child);
            draft.lens_repeat(entry)
        });
        let end = draft.copy_word(b";");
        draft.lens_row(&[lists[0], end, lists[1]]);
        draft
    };
    let shared: [Row; 2] = [(b"B;A", b"A1;B2", b"B2;A1", [2, 0, 0]), (b"AC;A", b"A1B2;A3", b"A1C0;A3", [2, 1, 1])];
    let apart: [Row; 2] = [(b"B;A", b"A1;B2", b"B0;A0", [0, 2, 2]), (b"A;", b"A1;B2", b"A1;", [1, 0, 1])];
    let one = rows("two matches over one child", &of(true), &shared);
    one.into_iter().chain(rows("two matches over two children", &of(false), &apart)).collect()
}

/// Entries of which the sheet shows nothing.
fn of_empty_entries() -> Vec<TallyCase> {
    let mut draft = Draft::new();
    let digit = draft.range(b'0', b'9');
    let digits = draft.pattern_repeat(digit);
    let hidden = draft.delete(digits, b"");
    let (entry, end) = (draft.matched(hidden), draft.copy_word(b";"));
    let part = draft.lens_join(entry, end);
    draft.lens_repeat(part);
    let given: [Row; 3] = [
        (b";;", b"1;22;", b"1;22;", [2, 0, 0]),
        (b";", b"1;22;", b"1;", [1, 0, 1]),
        (b";;;", b"1;22;", b"1;22;;", [2, 1, 0]),
    ];
    rows("empty entries", &draft, &given)
}

fn of_arms() -> Vec<TallyCase> {
    // The left arm reads two letters as one entry, the right arm as two.
    let mut draft = Draft::new();
    let letter = draft.range(b'a', b'z');
    let two = draft.pattern_join(letter, letter);
    let (pair, single) = (draft.copy(two), draft.copy(letter));
    let (pair, single) = (draft.matched(pair), draft.matched(single));
    let mark = draft.replace(b"=", b"");
    let (whole, halves) = (draft.lens_join(pair, mark), draft.lens_join(single, single));
    draft.lens_union(whole, halves);
    let kept: [Row; 2] = [(b"cd", b"ab=", b"cd=", [1, 0, 0]), (b"cd", b"ab", b"cd", [2, 0, 0])];

    // The arms have marks of their own in the sheet, and entries of one child.
    let mut crossing = Draft::new();
    let child = lettered(&mut crossing);
    let entry = crossing.matched(child);
    let list = crossing.lens_repeat(entry);
    let [left, right] = [b"<", b">"].map(|mark| {
        let mark = crossing.copy_word(mark);
        crossing.lens_join(mark, list)
    });
    crossing.lens_union(left, right);
    let crossed: [Row; 2] = [(b">B", b"<A1B2", b">B2", [1, 0, 1]), (b"<CA", b">A1", b"<C0A1", [1, 1, 0])];
    let arms = rows("arms that read one sheet", &draft, &kept);
    arms.into_iter().chain(rows("the other arm creates", &crossing, &crossed)).collect()
}

/// Parts of a letter behind 127 empty entries; the letter is an entry too, or none.
fn many(letter_is_entry: bool) -> Draft {
    let mut draft = Draft::new();
    let nothing = draft.copy_word(b"");
    let mut doubled = draft.matched(nothing);
    let mut all = doubled;
    for _ in 0..6 {
        doubled = draft.lens_join(doubled, doubled);
        all = draft.lens_join(all, doubled);
    }
    let letter = draft.copy_word(b"a");
    let letter = if letter_is_entry { draft.matched(letter) } else { letter };
    let part = draft.lens_join(all, letter);
    draft.lens_repeat(part);
    draft
}

fn of_many_entries() -> Vec<TallyCase> {
    let full: &[u8] = &[b'a'; 4096];
    let beside: [Row; 3] = [
        (full, b"", full, [0, 520_192, 0]),     // 4,096 times 127
        (full, b"aa", full, [254, 519_938, 0]), // 254 of them are old
        (b"a", b"aa", b"a", [127, 0, 127]),
    ];
    let among: [Row; 3] = [
        (full, b"", full, [0, 524_288, 0]), // 4,096 times 128
        (full, b"aa", full, [256, 524_032, 0]),
        (&full[..512], b"", &full[..512], [0, 65_536, 0]),
    ];
    let without = rows("127 entries a letter", &many(false), &beside);
    without.into_iter().chain(rows("128 entries a letter", &many(true), &among)).collect()
}
