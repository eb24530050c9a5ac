//! The stack that calls take, and programs that take much of it.
//!
//! A call is measured by painting: the unused stack of a thread is filled with
//! a pattern, the call is made, and the lowest word that it changed tells how
//! far down it went. A frame may reserve a little below the lowest word that it
//! writes, so a thread needs a few kilobytes more than the figure.

#![allow(dead_code)] // Each file that measures uses its own part of this.

use noontrough::afm::{self, export_into, import_into};
use noontrough::in_place::{check, clash, create, get, put};
use noontrough::{Answer, ClashAnswer, MAX_CLASH, MAX_TEXT};
use noontrough_reference::generator::draft::{Draft, NodeNumber};

/// The stack of the thread that measures, and how much of it is painted: more
/// than any call takes, so that a call that passes its promise comes back and
/// is told.
const THREAD: usize = 16 << 20;
const PAINTED: usize = 12 << 20;
/// Left free for the frame that paints and what it calls to do so. No figure is
/// below it.
const FREE: usize = 4096;
const PAINT: u64 = 0xa5a5_a5a5_a5a5_a5a5;
const WORD: usize = 8;

const MAX_NODES: usize = 96;

#[derive(Clone, Copy, Debug)]
pub enum Call {
    Check,
    Get,
    Put,
    Create,
}

pub const CALLS: [Call; 4] = [Call::Check, Call::Get, Call::Put, Call::Create];

/// A program, and texts with which all its calls give a result.
pub struct Case {
    pub name: String,
    pub table: Vec<u8>,
    /// The source of get.
    pub source: Vec<u8>,
    /// The old source of put.
    pub old: Vec<u8>,
    /// The sheet of put and create.
    pub sheet: Vec<u8>,
}

impl Case {
    /// The last node is the root, and all texts are the same.
    fn new(name: &str, draft: &Draft, text: &[u8]) -> Case {
        let [source, old, sheet] = [text; 3].map(<[u8]>::to_vec);
        Case { name: name.to_string(), table: draft.table(), source, old, sheet }
    }

    /// Makes a call on this thread's stack. It must give a result: a call that
    /// is refused takes less.
    pub fn make(&self, call: Call) {
        let mut out = vec![0; MAX_TEXT];
        let answer = match call {
            Call::Check => check(&self.table),
            Call::Get => get(&self.table, &self.source, &mut out),
            Call::Put => put(&self.table, &self.sheet, &self.old, &mut out).into(),
            Call::Create => create(&self.table, &self.sheet, &mut out),
        };
        assert!(matches!(answer, Answer::Result { .. }), "{}: {call:?} gives {answer:?}", self.name);
    }

    /// The stack that a call takes, in bytes.
    pub fn stack_of(&self, call: Call) -> usize {
        measured(|| self.make(call))
    }

    /// The same program, for the call clash.
    pub fn to_clash(&self) -> ClashCase {
        ClashCase { name: self.name.clone(), table: self.table.clone(), shows: None }
    }
}

/// A program, and the rule and the length of the text that clash shows of it; none if
/// it is accepted.
pub struct ClashCase {
    pub name: String,
    pub table: Vec<u8>,
    shows: Option<(u64, usize)>,
}

impl ClashCase {
    /// Makes the call on this thread's stack.
    pub fn make(&self) {
        let mut out = vec![0; MAX_CLASH];
        let answer = clash(&self.table, &mut out);
        let shown = answer.clash().map(|clash| (clash.number, clash.text.len()));
        let is_refused = matches!(answer, ClashAnswer::Refusal { .. });
        assert!(!is_refused && shown == self.shows, "{}: clash gives {answer:?}", self.name);
    }

    pub fn stack(&self) -> usize {
        measured(|| self.make())
    }
}

/// A call of import or export, which take no program, and a text with which it gives
/// a result.
pub struct AfmCase {
    pub name: String,
    text: Vec<u8>,
    call: fn(&[u8], &mut [u8]) -> Answer,
}

impl AfmCase {
    /// Makes the call on this thread's stack.
    pub fn make(&self) {
        let mut out = vec![0; afm::MAX_TEXT];
        let answer = (self.call)(&self.text, &mut out);
        assert!(matches!(answer, Answer::Result { .. }), "{}: {answer:?}", self.name);
    }

    pub fn stack(&self) -> usize {
        measured(|| self.make())
    }
}

/// The stack that a call takes on a thread of its own.
fn measured(call: impl Fn() + Sync) -> usize {
    std::thread::scope(|scope| {
        let thread = std::thread::Builder::new().stack_size(THREAD);
        let measured = thread.spawn_scoped(scope, || taken(&call));
        measured.expect("a thread can be started").join().expect("the call gives a result")
    })
}

/// The stack that a call takes below this frame. Only for a thread of `THREAD`
/// bytes that has used little of them.
#[inline(never)]
fn taken(call: &dyn Fn()) -> usize {
    let local = 0u64;
    let here = std::hint::black_box(&local) as *const u64 as usize;
    let words = || (here - PAINTED..here - FREE).step_by(WORD);
    for word in words() {
        // SAFETY: the word lies in this thread's stack, of which more is left, and below all frames in use. It is
        // aligned, since `local` is.
        unsafe { (word as *mut u64).write_volatile(PAINT) };
    }
    call();
    // SAFETY: as said above.
    let untouched = words().take_while(|&word| unsafe { (word as *const u64).read_volatile() } == PAINT).count();
    assert!(untouched > 0, "the call takes more than the {PAINTED} bytes that are painted");
    PAINTED - WORD * untouched
}

pub fn cases() -> Vec<Case> {
    let deep =
        [joins(), joins_over_a_match(), full_room(), joins_over_entries(), ladder_over_a_match(), nest_over_a_match()];
    let wide = [
        long_sheet(),
        joins_over_a_long_sheet(),
        joins_inside_a_long_sheet(),
        ladder_over_long_keys(),
        nest_over_long_keys(),
    ];
    [k(256), k(8)].into_iter().chain(deep).chain(wide).collect()
}

/// Program K with so many entries, at most 256, whose names all differ.
pub fn k(count: usize) -> Case {
    let names = (0..count).map(|i| [b'A' + (i % 16) as u8, b'A' + (i / 16) as u8]);
    let entries = |tail: &[u8]| names.clone().flat_map(|name| [&name, tail].concat()).collect::<Vec<u8>>();
    let table = include_bytes!("../../../../examples/k/program.table").to_vec();
    let [source, old, sheet] = [entries(b"1;"), entries(b"1;"), entries(b";")];
    Case { name: format!("K, {count} entries"), table, source, old, sheet }
}

/// Fills the program up: each new root is a join of that lens and the last
/// root. Gives the number of joins.
fn join_on(draft: &mut Draft, lens: NodeNumber) -> usize {
    let joined = MAX_NODES - draft.len();
    for _ in 0..joined {
        let root = (draft.len() - 1) as NodeNumber;
        draft.lens_join(lens, root);
    }
    joined
}

/// The deepest get: all nodes but two are joins.
fn joins() -> Case {
    let mut draft = Draft::new();
    let letter = draft.copy_word(b"a");
    let joined = join_on(&mut draft, letter);
    Case::new(&format!("{joined} joins, one inside the other"), &draft, &vec![b'a'; joined + 1])
}

/// The joins add no position, so the middle room has rows enough.
fn joins_over_a_match() -> Case {
    let mut draft = Draft::new();
    let nothing = draft.copy_word(b"");
    let letter = draft.word(b"a");
    let key = draft.key(letter);
    draft.matched(key);
    let joined = join_on(&mut draft, nothing);
    Case::new(&format!("{joined} joins over a match"), &draft, b"a")
}

fn long_sheet() -> Case {
    let mut draft = Draft::new();
    wide_entry(&mut draft);
    let entry = (draft.len() - 1) as NodeNumber;
    draft.matched(entry);
    let old = vec![b'n'; MAX_TEXT];
    Case { old, ..Case::new("an old entry with a long sheet", &draft, b"y") }
}

/// About as many rows as a program can have: 128 positions a side in each join.
fn full_room() -> Case {
    let mut draft = Draft::new();
    let nothing = draft.copy_word(b"");
    let half = draft.copy_word(&[b'a'; 64]);
    draft.lens_join(half, half);
    let joined = 1 + join_on(&mut draft, nothing);
    Case::new(&format!("{joined} joins of 128 positions a side"), &draft, &[b'a'; 128])
}

/// The full room, 256 old entries, and a way down through joins, a repeat and a
/// match.
fn joins_over_entries() -> Case {
    let mut draft = Draft::new();
    let letter = draft.word(b"a");
    let key = draft.key(letter);
    let entry = draft.matched(key);
    draft.lens_repeat(entry);
    let joined = join_on(&mut draft, entry);
    Case::new(&format!("{joined} joins over a repeated match, 256 entries"), &draft, &[b'a'; 256])
}

/// Fills the program up: each new root is a union of that lens, and of a mark
/// before the last root. Gives the number of unions.
fn climb_on(draft: &mut Draft, mark: NodeNumber, lens: NodeNumber) -> usize {
    let rungs = (MAX_NODES - draft.len()) / 2;
    for _ in 0..rungs {
        let root = (draft.len() - 1) as NodeNumber;
        let further = draft.lens_join(mark, root);
        draft.lens_union(lens, further);
    }
    rungs
}

/// A byte in the source that the sheet does not show.
fn mark_of(draft: &mut Draft, word: NodeNumber) -> NodeNumber {
    let nothing = draft.word(b"");
    draft.constant(word, nothing, word)
}

/// A put takes more for a union than for a join, since the union chooses an arm
/// on the way. As few nodes as can be are left for something else.
fn ladder_over_a_match() -> Case {
    let mut draft = Draft::new();
    let letter = draft.word(b"a");
    let (mark, key) = (mark_of(&mut draft, letter), draft.key(letter));
    draft.matched(key);
    let rungs = climb_on(&mut draft, mark, key);
    let old = vec![b'a'; rungs + 1];
    let name = format!("{rungs} unions and joins over a match");
    Case { source: old.clone(), old, ..Case::new(&name, &draft, b"a") }
}

/// Fills the program up: each new root is a repeat of the last one between
/// parentheses. Gives the number of repeats.
fn nest_on(draft: &mut Draft, open: NodeNumber, close: NodeNumber) -> usize {
    let levels = (MAX_NODES - draft.len()) / 3;
    for _ in 0..levels {
        let root = (draft.len() - 1) as NodeNumber;
        let ended = draft.lens_join(root, close);
        let part = draft.lens_join(open, ended);
        draft.lens_repeat(part);
    }
    levels
}

/// A text between so many parentheses.
fn nested(levels: usize, text: &[u8]) -> Vec<u8> {
    [&vec![b'('; levels], text, &vec![b')'; levels]].concat()
}

/// A put takes more for a repeat and its joins than for as many joins.
fn nest_over_a_match() -> Case {
    let mut draft = Draft::new();
    let (open, close) = (draft.copy_word(b"("), draft.copy_word(b")"));
    let letter = draft.word(b"a");
    let key = draft.key(letter);
    draft.matched(key);
    let levels = nest_on(&mut draft, open, close);
    Case::new(&format!("{levels} repeats and twice as many joins over a match"), &draft, &nested(levels, b"a"))
}

/// What one `n` of the old source is shown as.
const WIDE: &[u8] = &[b'x'; 40];

/// All that makes a put large at once: the full room; the way down; and 256 old
/// entries of right arms, one of them with a sheet of over 4,096 bytes, with keys
/// of over 16,384 bytes together.
fn joins_over_a_long_sheet() -> Case {
    let mut draft = Draft::new();
    let letter = draft.word(b"x");
    let some = draft.pattern_some(letter);
    let (key, wide) = (draft.key(some), draft.replace(b"n", WIDE));
    let wides = draft.lens_repeat(wide);
    let (either, end) = (draft.lens_union(key, wides), draft.copy_word(b";"));
    let line = draft.lens_join(either, end);
    let entry = draft.matched(line);
    draft.lens_repeat(entry);
    let joined = join_on(&mut draft, end);
    let name = format!("{joined} joins over 256 entries, one with a long sheet");
    let long = [&[b'n'; 128][..], b";"].concat();
    let old = [&b"nn;".repeat(255)[..], &long].concat();
    let sheet = [&WIDE.repeat(2)[..], b";x;"].concat();
    let [source, old, sheet] = [b"x;nn;", &old[..], &sheet].map(|text| [&vec![b';'; joined], text].concat());
    Case { name, table: draft.table(), source, old, sheet }
}

/// An old entry of 4,096 bytes, with a sheet of 62 times as many: the entry of a
/// repeated union, of which the right arm is wide.
fn wide_entry(draft: &mut Draft) {
    let letter = draft.word(b"y");
    let short = draft.key(letter);
    let long = draft.replace(b"n", &[b'x'; 62]);
    let either = draft.lens_union(short, long);
    draft.lens_repeat(either);
}

/// The joins inside the entry: its sheet is made, and the key read, at their foot.
/// No put is known that takes more stack.
pub fn joins_inside_a_long_sheet() -> Case {
    let mut draft = Draft::new();
    let nothing = draft.copy_word(b"");
    wide_entry(&mut draft);
    let joined = MAX_NODES - 1 - draft.len();
    for _ in 0..joined {
        let root = (draft.len() - 1) as NodeNumber;
        draft.lens_join(nothing, root);
    }
    let root = (draft.len() - 1) as NodeNumber;
    draft.matched(root);
    let old = vec![b'n'; MAX_TEXT];
    Case { old, ..Case::new(&format!("{joined} joins inside an entry with a long sheet"), &draft, b"y") }
}

/// Entries that are shown as 64 bytes, which the left arm has as its key, repeated.
/// Gives what an entry is shown as.
fn entries_with_long_keys(draft: &mut Draft) -> Vec<u8> {
    let (letter, end, short) = (draft.word(b"x"), draft.word(b";"), draft.word(b"n"));
    let many = draft.pattern_repeat(letter);
    let line = draft.pattern_join(many, end);
    let key = draft.key(line);
    let shown = [&[b'x'; 63][..], b";"].concat();
    let wide = draft.word(&shown);
    let wide = draft.constant(short, wide, short);
    let either = draft.lens_union(key, wide);
    let entry = draft.matched(either);
    draft.lens_repeat(entry);
    shown
}

/// The same with unions, and with keys alone.
fn ladder_over_long_keys() -> Case {
    let mut draft = Draft::new();
    let short = draft.word(b"n");
    let (mark, other) = (mark_of(&mut draft, short), draft.copy_word(b";"));
    let shown = entries_with_long_keys(&mut draft);
    let rungs = climb_on(&mut draft, mark, other);
    let name = format!("{rungs} unions and joins over 256 entries with long keys");
    let marks = vec![b'n'; rungs];
    let [source, old] = [2, 256].map(|entries| [&marks[..], &vec![b'n'; entries]].concat());
    Case { name, table: draft.table(), source, old, sheet: [&shown[..], b"x;"].concat() }
}

/// The same with repeats.
fn nest_over_long_keys() -> Case {
    let mut draft = Draft::new();
    let (open, close) = (draft.copy_word(b"("), draft.copy_word(b")"));
    let shown = entries_with_long_keys(&mut draft);
    let levels = nest_on(&mut draft, open, close);
    let name = format!("{levels} repeats and twice as many joins over 256 entries with long keys");
    let [source, old] = [2, 256].map(|entries| nested(levels, &vec![b'n'; entries]));
    Case { name, table: draft.table(), source, old, sheet: nested(levels, &[&shown[..], b"x;"].concat()) }
}

/// The calls of clash: of all programs above, which are accepted, and of programs that
/// clash by few pairs of positions and by many, with a way down to them and without.
pub fn clash_cases() -> Vec<ClashCase> {
    let accepted = cases().iter().map(Case::to_clash).collect::<Vec<_>>();
    let few = [clash_of_k(), few_words(0), few_words(MAX_NODES - 18)];
    let many = [long_clash(), long_clash_and_joins(), dense_clash(), clashing_repeat(), clashing_join()];
    accepted.into_iter().chain(few).chain(many).collect()
}

/// Program K with its semicolon hidden, so that the names in a sheet run together.
pub fn clash_of_k() -> ClashCase {
    let mut draft = Draft::new();
    let (capital, digit) = (draft.range(b'A', b'Z'), draft.range(b'0', b'9'));
    let name = draft.pattern_some(capital);
    let digits = draft.pattern_repeat(digit);
    let row = [draft.key(name), draft.delete(digits, b"0"), draft.replace(b";", b"")];
    let line = draft.lens_row(&row);
    let entry = draft.matched(line);
    draft.lens_repeat(entry);
    ClashCase { name: "K with a hidden semicolon".to_string(), table: draft.table(), shows: Some((11, 2)) }
}

/// `abcd`, cut in three ways; so many joins of nothing come before it.
pub fn few_words(joins: usize) -> ClashCase {
    let mut draft = Draft::new();
    let nothing = draft.copy_word(b"");
    (0..joins).fold(nothing, |root, _| draft.lens_join(nothing, root));
    let [first, second] = [["a", "ab", "abc"], ["bcd", "cd", "d"]].map(|words| {
        let words = words.map(|word| draft.word(word.as_bytes()));
        let any = words.into_iter().reduce(|any, word| draft.pattern_union(any, word)).expect("three words");
        draft.copy(any)
    });
    draft.lens_join(first, second);
    let name = if joins == 0 { "abcd".to_string() } else { format!("abcd behind {joins} joins") };
    ClashCase { name, table: draft.table(), shows: Some((7, 4)) }
}

/// The longest text known.
fn long_clash() -> ClashCase {
    let table = include_bytes!("../../examples/tables/longest.table").to_vec();
    ClashCase { name: "a text of 16,004 bytes".to_string(), table, shows: Some((10, 16_004)) }
}

/// The same behind joins with about as many positions a side as there can be.
fn long_clash_and_joins() -> ClashCase {
    let mut draft = Draft::new();
    let half = draft.copy_word(&[b'a'; 64]);
    let nothing = draft.copy_word(b"");
    let whole = draft.lens_join(half, half);
    let joins = MAX_NODES - draft.len() - LONG_NODES;
    (0..joins).fold(whole, |root, _| draft.lens_join(nothing, root));
    long_repeat(&mut draft);
    let name = format!("the same behind {joins} joins of 128 positions a side");
    ClashCase { name, table: draft.table(), shows: Some((10, 16_004)) }
}

const LONG_NODES: usize = 11;

/// Parts `b (a^63 [ab]? a^63)*`, as in `longest.table`.
fn long_repeat(draft: &mut Draft) {
    let (letters, either, nothing) = (draft.word(&[b'a'; 63]), draft.range(b'a', b'b'), draft.word(b""));
    let option = draft.pattern_union(either, nothing);
    let row = draft.pattern_join(letters, option);
    let round = draft.pattern_join(row, letters);
    let (rounds, begin) = (draft.pattern_repeat(round), draft.word(b"b"));
    let line = draft.pattern_join(begin, rounds);
    let part = draft.copy(line);
    draft.lens_repeat(part);
}

/// Parts of 124 positions of which each may follow each, and two letters before them.
fn dense_clash() -> ClashCase {
    let mut draft = Draft::new();
    let class = draft.range(b'a', b'z');
    let mut doubled = vec![class];
    for _ in 0..6 {
        let last = doubled[doubled.len() - 1];
        doubled.push(draft.pattern_union(last, last));
    }
    // 64, 32, 16, 8 and 4 of them
    let all = doubled[2..].iter().copied().reduce(|sum, more| draft.pattern_union(sum, more)).expect("several");
    let many = draft.pattern_repeat(all);
    let begin = draft.word(b"aa");
    let row = draft.pattern_join(begin, many);
    let line = draft.pattern_join(row, class);
    let part = draft.copy(line);
    draft.lens_repeat(part);
    ClashCase { name: "126 dense positions".to_string(), table: draft.table(), shows: Some((10, 6)) }
}

/// A text of so many letters or more, in a program that is full but for its last
/// node: the other nodes are joins of that text and of nothing.
fn letters_in_a_full_program(draft: &mut Draft, least: usize) -> NodeNumber {
    let nothing = draft.copy_word(b"");
    let letter = draft.word(b"a");
    let some = draft.pattern_some(letter);
    let mut letters = draft.copy(some);
    for length in [least - 1 - (least - 1) / 2, (least - 1) / 2] {
        let further = draft.copy_word(&vec![b'a'; length]);
        letters = draft.lens_join(further, letters);
    }
    while draft.len() < MAX_NODES - 1 {
        draft.lens_join(nothing, letters);
    }
    letters
}

/// About as many rows as a program can have, and 128 positions under the last
/// node. No clash is known that takes more stack.
pub fn clashing_repeat() -> ClashCase {
    let mut draft = Draft::new();
    let letters = letters_in_a_full_program(&mut draft, 127);
    draft.lens_repeat(letters);
    let name = "a repeat of 128 positions in a full program".to_string();
    ClashCase { name, table: draft.table(), shows: Some((10, 254)) }
}

/// The same with a join.
fn clashing_join() -> ClashCase {
    let mut draft = Draft::new();
    let letters = letters_in_a_full_program(&mut draft, 63);
    draft.lens_join(letters, letters);
    let name = "a join of 128 positions in a full program".to_string();
    ClashCase { name, table: draft.table(), shows: Some((7, 127)) }
}

/// Import and export of few pairs and of as many as there can be, of the longest names,
/// and of the longest run of spaces.
pub fn afm_cases() -> Vec<AfmCase> {
    let name = "n".repeat(63);
    let pairs = [("a", "0", 2), ("a", "0", 6550), (&name, "-32768", 470)];
    let by_pairs = pairs.into_iter().flat_map(|(name, value, count)| {
        let sheet = format!("{name};{name};{value}\n").repeat(count);
        let lines = format!("KPX {name} {name} {value}\n").repeat(count);
        let section = format!("StartKernPairs {count}\n{lines}EndKernPairs\n");
        let told = |call: &str| format!("{call} of {count} pairs, names of {} bytes", name.len());
        [
            AfmCase { name: told("import"), text: section.into_bytes(), call: import_into },
            AfmCase { name: told("export"), text: sheet.into_bytes(), call: export_into },
        ]
    });
    let spaces = format!("StartKernPairs{}0\nEndKernPairs\n", " ".repeat(65_506)).into_bytes();
    let run = AfmCase { name: "import of a run of 65,506 spaces".to_string(), text: spaces, call: import_into };
    by_pairs.chain([run]).collect()
}
