//! What each refusal means and what to do, in a sentence: the words of
//! `crates/meanings/src/lib.rt`, which the proved program `sheet` writes. (17 is
//! given by a clash only, 18 and 19 by the calls of [`crate::afm`]; `sheet` makes none
//! of these.)

/// The sentence of a refusal, without a newline. The calls of [`crate::afm`] take longer
/// texts, and have words of their own for 12 and 16: [`crate::afm::sentence`].
pub fn sentence(number: u64) -> Option<&'static str> {
    let index = usize::try_from(number).ok()?.checked_sub(1)?;
    SENTENCES.get(index).copied()
}

/// From 1 on. docs/GUIDE.md has an example of each.
const SENTENCES: [&str; 19] = [
    "The sizes of the table are wrong, so it is no whole program: make it again with noontrough assemble, and copy it as binary.",
    "This node is of a kind that the engine does not know: the table was damaged or made for another engine, so make it again.",
    "An operand of this node breaks a rule, or the last node is no lens: see what each kind takes, and put the whole program last.",
    "This node is a match that holds another match: decide which of the two is the entry, and take the other match away.",
    "This node passes size 512 or 128 positions a side: use ranges and repeats for long words, and say once what arms share.",
    "The default of this const is no text of its pattern: give a default that fits, or let the pattern take this one.",
    "A source of this join can be cut in two ways: put a mark between the halves, or make one lens of both.",
    "A sheet of this join can be cut in two ways: show a mark between the halves, or make one lens of both.",
    "A text is a source of both arms of this union: write arms that share no source, or make one lens of both.",
    "A source of this repeat can be cut into parts in two ways, or a part can be empty: give each part an end of its own.",
    "A sheet of this repeat can be cut into parts in two ways, or a part can be empty: end each part with a mark that the sheet shows.",
    "The source or the sheet is longer than 4,096 bytes: divide it at the ends of entries.",
    "The source is none of this program: correct what the program does not foresee, often a newline at the end of the file.",
    "The sheet is none of this program: correct what the program does not foresee, often a newline at the end of the file.",
    "The old source has more than 256 entries: divide it, or let match mark larger pieces.",
    "The result would be longer than 4,096 bytes: divide the sheet or the source.",
    "The text that shows the clash is longer than the buffer: lend 16,512 bytes, which are always enough.",
    "The line of this number is not of its form: see what lines a section and a sheet have, and end each with a newline.",
    "The count behind StartKernPairs is not the number of KPX lines: correct it, or look for lines that are missing.",
];
