//! The slowest calls known inside the limits: programs and texts that ask much
//! of a put or a create for their size.

use noontrough::MAX_TEXT;
use noontrough_reference::generator::draft::{Draft, NodeNumber};
use noontrough_reference::generator::random::Random;
use noontrough_reference::generator::texts::draw_of_length;
use noontrough_reference::table::Side;
use noontrough_reference::Program;

/// A call, and the text that it gives.
pub enum Call {
    Get { source: Vec<u8> },
    Put { sheet: Vec<u8>, source: Vec<u8> },
    Create { sheet: Vec<u8> },
}

pub struct Slow {
    pub name: String,
    pub table: Vec<u8>,
    pub call: Call,
    pub gives: Vec<u8>,
}

impl Slow {
    pub fn is_get(&self) -> bool {
        matches!(self.call, Call::Get { .. })
    }
}

pub fn all() -> Vec<Slow> {
    let mut all = Vec::from(many_empty_matches());
    all.extend(empty_matches_of_no_entry());
    let letters_and_end = [&[b'm'; MAX_TEXT - 1][..], b";"].concat();
    all.extend(unchanged("a key of 125 dense positions in one join", &dense_key(1), &letters_and_end));
    all.extend(unchanged("a key of 125 dense positions under 70 joins", &dense_key(70), &letters_and_end));
    let letters_and_rest = [&[b'0'; 60][..], &[b'm'; MAX_TEXT - 61], b"z"].concat();
    all.extend(unchanged("60 letters before 64 dense positions", &letters(), &letters_and_rest));
    all.push(long_sheet_of_unions());
    all.push(long_key_of_the_other_arm());
    all.push(long_sheet_without_union());
    all.push(many_long_keys());
    all.push(kept_right_arms());
    all.push(lookups_in_vain());
    all.extend(slowest_check());
    all
}

/// The table whose check takes longest, with a long text: every call checks its
/// program.
fn slowest_check() -> [Slow; 3] {
    let table = include_bytes!("../tables/g4.table").to_vec();
    let program = Program::read(&table).expect("the program is right");
    let sources = program.automaton(program.root(), Side::Source);
    let drawn = (0..=MAX_TEXT).rev().filter_map(|length| draw_of_length(&mut Random::new(1), sources, length));
    let mut with_sheets = drawn.map(|source| (program.get(&source), source));
    let fits = |text: &[u8]| text.len() <= MAX_TEXT && program.create(text).len() <= MAX_TEXT;
    let (sheet, source) = with_sheets.find(|(sheet, _)| fits(sheet)).expect("the empty text is a source");
    let name = |call: &str| format!("{call}, the table g4, a source of {} bytes", source.len());
    let created = program.create(&sheet);
    [
        Slow {
            name: name("get"),
            table: table.clone(),
            call: Call::Get { source: source.clone() },
            gives: sheet.clone(),
        },
        Slow {
            name: name("put"),
            table: table.clone(),
            call: Call::Put { sheet: sheet.clone(), source: source.clone() },
            gives: source.clone(),
        },
        Slow { name: name("create"), table, call: Call::Create { sheet }, gives: created },
    ]
}

fn put(name: &str, draft: &Draft, sheet: &[u8], source: &[u8], gives: &[u8]) -> Slow {
    let call = Call::Put { sheet: sheet.to_vec(), source: source.to_vec() };
    Slow { name: format!("put, {name}"), table: draft.table(), call, gives: gives.to_vec() }
}

fn create(name: &str, draft: &Draft, sheet: &[u8], gives: &[u8]) -> Slow {
    let call = Call::Create { sheet: sheet.to_vec() };
    Slow { name: format!("create, {name}"), table: draft.table(), call, gives: gives.to_vec() }
}

fn get(name: &str, draft: &Draft, source: &[u8], gives: &[u8]) -> Slow {
    let call = Call::Get { source: source.to_vec() };
    Slow { name: format!("get, {name}"), table: draft.table(), call, gives: gives.to_vec() }
}

/// All calls with one text, of a program whose sheets are its sources.
fn unchanged(name: &str, draft: &Draft, text: &[u8]) -> [Slow; 3] {
    [get(name, draft, text, text), put(name, draft, text, text, text), create(name, draft, text, text)]
}

/// So many times a node, joined or united with itself by `over`, so that few
/// nodes are added.
fn often(
    draft: &mut Draft,
    node: NodeNumber,
    count: usize,
    over: fn(&mut Draft, NodeNumber, NodeNumber) -> NodeNumber,
) -> NodeNumber {
    if count == 1 {
        return node;
    }
    let half = often(draft, node, count / 2, over);
    let double = over(draft, half, half);
    if count % 2 == 1 {
        over(draft, node, double)
    } else {
        double
    }
}

/// Any text of the bytes from `first` to `last`, by so many positions each of
/// which can read every byte and follow every other.
fn dense(draft: &mut Draft, positions: usize, first: u8, last: u8) -> NodeNumber {
    let class = draft.range(first, last);
    let all = often(draft, class, positions, Draft::pattern_union);
    draft.pattern_repeat(all)
}

/// So many joins with an empty lens before the last node.
fn join_nothing(draft: &mut Draft, joins: usize) -> NodeNumber {
    let root = (draft.len() - 1) as NodeNumber;
    let nothing = draft.copy_word(b"");
    (0..joins).fold(root, |row, _| draft.lens_join(nothing, row))
}

/// Parts of 126 empty matches and a letter, repeated.
fn empty_parts(draft: &mut Draft) -> NodeNumber {
    let nothing = draft.copy_word(b"");
    let empty = draft.matched(nothing);
    let matches = often(draft, empty, 126, Draft::lens_join);
    let class = draft.range(b'a', b'z');
    let letter = draft.copy(class);
    let part = draft.lens_join(matches, letter);
    draft.lens_repeat(part)
}

fn many_empty_matches() -> [Slow; 3] {
    let mut draft = Draft::new();
    empty_parts(&mut draft);
    let (name, text) = ("126 empty matches a part, 4,096 parts", [b'q'; MAX_TEXT]);
    let put = put(&format!("{name}, 252 old entries"), &draft, &text, b"qq", &text);
    [get(name, &draft, &text, &text), put, create(name, &draft, &text, &text)]
}

fn empty_matches_of_no_entry() -> [Slow; 2] {
    let mut draft = Draft::new();
    let parts = empty_parts(&mut draft);
    let class = draft.range(b'A', b'Z');
    let key = draft.key(class);
    let entry = draft.matched(key);
    let entries = draft.lens_repeat(entry);
    draft.lens_join(parts, entries);
    let (name, text) = ("the same, 256 old entries of another child", [b'q'; MAX_TEXT]);
    let asked = [&text[..MAX_TEXT - 1], b"B"].concat();
    let last = put(&format!("{name}, which one match asks for"), &draft, &asked, &[b'A'; 256], &asked);
    [put(name, &draft, &text, &[b'A'; 256], &text), last]
}

fn dense_key(joins: usize) -> Draft {
    let mut draft = Draft::new();
    let (many, end) = (dense(&mut draft, 125, b'a', b'z'), draft.word(b";"));
    let line = draft.pattern_join(many, end);
    draft.key(line);
    let row = join_nothing(&mut draft, joins);
    draft.matched(row);
    draft
}

fn letters() -> Draft {
    let mut draft = Draft::new();
    let (many, end) = (dense(&mut draft, 64, b'a', b'y'), draft.word(b"z"));
    let line = draft.pattern_join(many, end);
    let (key, letter) = (draft.key(line), draft.copy_word(b"0"));
    let row = (0..60).fold(key, |row, _| draft.lens_join(letter, row));
    draft.matched(row);
    draft
}

/// What one `n` is shown as: a `z` and 61 times `x`.
fn replace_wide(draft: &mut Draft) -> NodeNumber {
    let shown = [b"z", &[b'x'; 61][..]].concat();
    draft.replace(b"n", &shown)
}

/// An old entry of 4,096 right arms with a sheet of 62 times as many bytes, which
/// the left arm's 60 positions read most of.
fn long_sheet_of_unions() -> Slow {
    let mut draft = Draft::new();
    let (many, begin) = (dense(&mut draft, 60, b'x', b'x'), draft.word(b"y"));
    let line = draft.pattern_join(begin, many);
    let (left, right) = (draft.copy(line), replace_wide(&mut draft));
    let either = draft.lens_union(left, right);
    draft.lens_repeat(either);
    let row = join_nothing(&mut draft, 65);
    draft.matched(row);
    put("an old entry of right arms, its sheet 62 times as long", &draft, b"yxxx", &[b'n'; MAX_TEXT], b"yxxx")
}

/// Two arms with the same sheets. The left one has all as its key, by 60 dense
/// positions; the right one shows each `n` as 63 letters.
fn key_or_wide(draft: &mut Draft) -> NodeNumber {
    let many = dense(draft, 60, b'x', b'x');
    let (key, wide) = (draft.key(many), draft.replace(b"n", &[b'x'; 63]));
    let wides = draft.lens_repeat(wide);
    let marks = [b"<", b">"].map(|mark| draft.replace(mark, b""));
    let arms = [draft.lens_join(marks[0], key), draft.lens_join(marks[1], wides)];
    draft.lens_union(arms[0], arms[1])
}

fn long_key_of_the_other_arm() -> Slow {
    let mut draft = Draft::new();
    let either = key_or_wide(&mut draft);
    draft.matched(either);
    let source = [b">", &[b'n'; MAX_TEXT - 1][..]].concat();
    put("an old entry of the right arm, its key 63 times as long", &draft, b"x", &source, b"<x")
}

/// The same length of sheet with no union: the key is the beginning.
fn long_sheet_without_union() -> Slow {
    let mut draft = Draft::new();
    let (many, end) = (dense(&mut draft, 60, b'a', b'm'), draft.word(b";"));
    let line = draft.pattern_join(many, end);
    let (key, wide) = (draft.key(line), replace_wide(&mut draft));
    let wides = draft.lens_repeat(wide);
    draft.lens_join(key, wides);
    let row = join_nothing(&mut draft, 65);
    draft.matched(row);
    let source = [b"m;", &[b'n'; MAX_TEXT - 2][..]].concat();
    put("an old entry with no union, its sheet 62 times as long", &draft, b"m;", &source, b"m;")
}

/// Old entries of right arms, each with a sheet of 945 bytes that the left arm
/// has as its key. The sheet has entries with this key and with one byte less.
fn many_long_keys() -> Slow {
    let mut draft = Draft::new();
    let (either, end) = (key_or_wide(&mut draft), draft.copy_word(b";"));
    let line = draft.lens_join(either, end);
    let entry = draft.matched(line);
    draft.lens_repeat(entry);
    let asked = [&[b'x'; 945][..], b";", &[b'x'; 944], b";"].concat();
    let old = [b">", &[b'n'; 15][..], b";"].concat();
    let gives = [&old[..], b"<", &[b'x'; 944], b";"].concat();
    let source = old.repeat(240);
    put("240 old entries of right arms with keys of 945 bytes", &draft, &asked.repeat(2), &source, &gives.repeat(2))
}

/// Each part has 18 matches that look up an empty key, of which the old source has
/// none: so every one of them is looked up, and the book goes on as it was.
fn lookups_in_vain() -> Slow {
    let mut draft = Draft::new();
    let nothing = draft.word(b"");
    let mut part = draft.copy_word(b"a");
    let letters: Vec<u8> = (b'b'..).take(18).collect();
    for letter in letters.chunks(1) {
        let word = draft.word(letter);
        let optional = draft.pattern_union(nothing, word);
        let key = draft.key(optional);
        let entry = draft.matched(key);
        part = draft.lens_join(part, entry);
    }
    draft.lens_repeat(part);
    let [old, new] = [[b"a", &letters[..]].concat().repeat(14), vec![b'a'; MAX_TEXT]];
    put("18 matches a part that look up in vain, 4,096 parts, 252 old entries", &draft, &new, &old, &new)
}

/// 41 unions, one in the right arm of the other. The sheet is of every arm, and
/// the old text is of the last one.
fn kept_right_arms() -> Slow {
    let mut draft = Draft::new();
    let many = dense(&mut draft, 2, b'a', b'z');
    let (arm, mark) = (draft.copy(many), draft.replace(b"!", b""));
    let unions = (0..41).fold(arm, |unions, _| {
        let further = draft.lens_join(mark, unions);
        draft.lens_union(arm, further)
    });
    assert_eq!(usize::from(unions), draft.len() - 1);
    let (marks, sheet) = ([b'!'; 41], [b'q'; MAX_TEXT - 41]);
    let old = [&marks[..], b"q"].concat();
    put("41 right arms kept, one in the other", &draft, &sheet, &old, &[&marks[..], &sheet].concat())
}
