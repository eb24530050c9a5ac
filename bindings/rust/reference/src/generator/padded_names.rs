//! Programs whose names may be padded: key text with spaces at its end, in front,
//! inside and where two key parts meet, and with tabs, which are no spaces.

use super::draft::{Draft, NodeNumber};
use super::keys::marked_arms;
use super::random::Random;
use crate::program::Program;

/// An accepted program of entries with such names.
pub fn padded_names(random: &mut Random) -> Draft {
    entries(random, name)
}

/// The smallest of them.
pub fn small_padded_names(random: &mut Random) -> Draft {
    entries(random, blank_name)
}

/// Entries of a name, a hidden digit and a semicolon.
fn entries(random: &mut Random, name: fn(&mut Random, &mut Draft) -> NodeNumber) -> Draft {
    loop {
        let mut draft = Draft::new();
        let name = name(random, &mut draft);
        let digit = draft.range(b'0', b'9');
        let row = [name, draft.delete(digit, b"0"), draft.copy_word(b";")];
        let line = draft.lens_row(&row);
        let entry = draft.matched(line);
        place(random, &mut draft, entry);
        if Program::read(&draft.table()).is_ok() {
            return draft;
        }
    }
}

fn name(random: &mut Random, draft: &mut Draft) -> NodeNumber {
    match random.below(8) {
        0..=1 => {
            let padded = letters_and_spaces(draft);
            draft.key(padded)
        }
        2 => blank_name(random, draft),
        3 => {
            let words = words(random, draft);
            draft.key(words)
        }
        4..=5 => two_parts(random, draft),
        6 => padding_apart(random, draft),
        _ => arms(random, draft),
    }
}

fn blank_name(random: &mut Random, draft: &mut Draft) -> NodeNumber {
    let blanks = with_blanks(random, draft);
    draft.key(blanks)
}

/// Few letters, so that names are often the same.
fn letters(draft: &mut Draft) -> NodeNumber {
    let letter = draft.range(b'A', b'B');
    draft.pattern_some(letter)
}

fn spaces(draft: &mut Draft) -> NodeNumber {
    let space = draft.word(b" ");
    draft.pattern_repeat(space)
}

fn letters_and_spaces(draft: &mut Draft) -> NodeNumber {
    let (letters, spaces) = (letters(draft), spaces(draft));
    draft.pattern_join(letters, spaces)
}

/// Letters and spaces in any order, perhaps none of them, perhaps with tabs.
fn with_blanks(random: &mut Random, draft: &mut Draft) -> NodeNumber {
    let classes: [&[(u8, u8)]; 3] =
        [&[(b'A', b'B'), (b' ', b' ')], &[(b' ', b' '), (b'A', b'A')], &[(b'\t', b'\t'), (b'A', b'A'), (b' ', b' ')]];
    let pairs = *random.pick(&classes);
    let class = draft.set(pairs);
    draft.pattern_repeat(class)
}

/// Some words that differ by their blanks.
fn words(random: &mut Random, draft: &mut Draft) -> NodeNumber {
    const WORDS: [&[u8]; 10] = [b"A", b"A ", b"A  ", b"A\t", b"A \t", b" A", b" A ", b"A A", b" ", b""];
    let first = draft.word(b"A  ");
    (0..random.between(2, 6)).fold(first, |words, _| {
        let text = *random.pick(&WORDS);
        let word = draft.word(text);
        draft.pattern_union(words, word)
    })
}

/// Two key parts, of which the first may end in spaces; what stands between them is
/// no key text.
fn two_parts(random: &mut Random, draft: &mut Draft) -> NodeNumber {
    let first = if random.once_in(2) { letters_and_spaces(draft) } else { with_blanks(random, draft) };
    let second = if random.once_in(2) { with_blanks(random, draft) } else { spaces(draft) };
    let between = if random.once_in(3) { draft.replace(b",", b":") } else { draft.copy_word(b",") };
    let row = [draft.key(first), between, draft.key(second)];
    draft.lens_row(&row)
}

/// The padding beside the name: a key part of its own, copied, or a word that the
/// source does not have.
fn padding_apart(random: &mut Random, draft: &mut Draft) -> NodeNumber {
    let (letters, spaces) = (letters(draft), spaces(draft));
    let padding = match random.below(3) {
        0 => draft.key(spaces),
        1 => draft.copy(spaces),
        _ => draft.replace(b"", b"  "),
    };
    let name = draft.key(letters);
    draft.lens_join(name, padding)
}

/// Arms that read one sheet, with other key text or none.
fn arms(random: &mut Random, draft: &mut Draft) -> NodeNumber {
    let (padded, blanks, plain) = (letters_and_spaces(draft), with_blanks(random, draft), letters(draft));
    let choices = [draft.key(padded), draft.key(blanks), draft.key(plain), draft.copy(padded), draft.copy(blanks)];
    let arms = [*random.pick(&choices[..3]), *random.pick(&choices)];
    marked_arms(draft, if random.once_in(3) { [arms[1], arms[0]] } else { arms })
}

/// Mostly a list of entries; also pairs of them, and two lists over one child.
fn place(random: &mut Random, draft: &mut Draft, entry: NodeNumber) -> NodeNumber {
    match random.below(8) {
        0 => {
            let pair = draft.lens_join(entry, entry);
            draft.lens_repeat(pair)
        }
        1 => {
            let (list, end) = (draft.lens_repeat(entry), draft.copy_word(b"\n"));
            draft.lens_row(&[list, end, list])
        }
        _ => draft.lens_repeat(entry),
    }
}
