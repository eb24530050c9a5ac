//! Why a program is refused with 7 to 11: what `check` tells of it, and what `clash`
//! writes. Expected texts are worked out by hand from document 02's rule: a shortest
//! text that breaks the rule, the lowest in byte order, and the two smallest ends.

mod common;

use common::*;

/// A program's text, the number and the node that check refuses it with, the text
/// that shows it, and the line that tells both ways to read it.
fn clashes(program: &str, refused: &str, text: &[u8], told: &str) {
    let folder = Folder::new();
    folder.write("p.lens", program);
    folder.fails("noontrough check p.lens", 1, &[&format!("noontrough: refused {refused}: "), &format!("\n{told}\n")]);
    folder.gives("noontrough clash p.lens 2> told > out; echo $?", "0\n");
    assert_eq!((folder.read("out"), folder.read("told")), (text.to_vec(), format!("{told}\n").into_bytes()));
    for quiet in ["-q p.lens -o out", "p.lens --output=out --quiet", "-q p.lens > out"] {
        folder.gives(&format!("rm out; noontrough clash {quiet}"), "");
        assert_eq!(folder.read("out"), text, "{quiet}");
    }
    folder.gives("noontrough assemble p.lens | noontrough clash - -q -o out", "");
    assert_eq!(folder.read("out"), text);
}

/// Refusal 7: of the three cuts of abcd the two that come first.
#[test]
fn a_join_in_the_source() {
    clashes(
        "left = copy (union \"a\" \"ab\" \"abc\")\nright = copy (union \"bcd\" \"cd\" \"d\")\npair = lens join left right\n",
        "7 12",
        b"abcd",
        "p.lens:3:8: 'pair' joins 'left' (line 1) and 'right' (line 2); in the source, \"abcd\" can be cut as \"a\" + \"bcd\" and as \"ab\" + \"cd\"",
    );
}

/// Refusal 8: the comma keeps the halves apart in the source, and the sheet hides it.
#[test]
fn a_join_in_the_sheet_alone() {
    clashes(
        "left = key [a-z]+\ncomma = const \",\" \"\" \",\"\nright = copy [b-z]+\nrest = lens join comma right\npair = lens join left rest\n",
        "8 12",
        b"abb",
        "p.lens:5:8: 'pair' joins 'left' (line 1) and 'rest' (line 4); in the sheet, \"abb\" can be cut as \"a\" + \"bb\" and as \"ab\" + \"b\"",
    );
}

/// Refusal 9: the sets share e, f and y, and e is in the second pair of each; behind it one of
/// the arms asks for a newline, and the other takes any byte below 0x20.
#[test]
fn a_union_of_sets() {
    clashes(
        "first = copy (join (set [x-zc-f]) \"\\n\")\nsecond = copy (join (set [q-re-hy]) (range 0 31))\n\neither = lens union second first\n",
        "9 8",
        b"e\n",
        "p.lens:4:10: 'either' is a union; in the source, \"e\\n\" belongs to both arms: 'second' (line 2) and 'first' (line 1)",
    );
}

/// Refusal 9: lines are told where they are others than the union's.
#[test]
fn arms_in_the_line_of_their_union() {
    clashes(
        "either = lens union (copy [a-m]*) (key [m-z]*)\n",
        "9 6",
        b"",
        "p.lens:1:10: 'either' is a union; in the source, \"\" belongs to both arms: 'copy [a-m]*' and 'key [m-z]*'",
    );
}

/// Refusal 10: a part of two bytes and one of one are also one of three.
#[test]
fn a_repeat_in_the_source() {
    clashes(
        "part = copy (union \"ab\" \"c\" \"abc\")\nparts = lens repeat part\n",
        "10 6",
        b"abc",
        "p.lens:2:9: 'parts' repeats 'part' (line 1); in the source, \"abc\" can be cut as \"ab\" + \"c\" and as \"abc\"",
    );
}

/// Of a long list of parts the first sixteen are told.
#[test]
fn a_repeat_with_many_parts() {
    let long = "a".repeat(20);
    let parts = ["\"a\""; 16].join(" + ");
    clashes(
        &format!("part = copy (union \"a\" \"{long}\")\nparts = lens repeat part\n"),
        "10 4",
        long.as_bytes(),
        &format!(
            "p.lens:2:9: 'parts' repeats 'part' (line 1); in the source, \"{long}\" \
             can be cut as {parts} + 4 more and as \"{long}\""
        ),
    );
}

/// Refusal 10: the empty text shows it, whatever else is wrong.
#[test]
fn a_repeat_of_parts_that_may_be_empty() {
    clashes(
        "part = copy [a-z]*\nparts = lens repeat part\n",
        "10 3",
        b"",
        "p.lens:2:9: 'parts' repeats 'part' (line 1); in the source, the empty text is a part, so nobody could count the parts",
    );
}

/// Refusal 11: in the source each part ends in a digit, and the sheet hides it.
#[test]
fn a_repeat_in_the_sheet_alone() {
    let parts = "line = lens join (key [A-Z]+) (const [0-9] \"\" \"0\")\nlines = lens repeat line\n";
    clashes(
        parts,
        "11 9",
        b"AA",
        "p.lens:2:9: 'lines' repeats 'line' (line 1); in the sheet, \"AA\" can be cut as \"A\" + \"A\" and as \"AA\"",
    );
    clashes(
        "line = const [0-9] \"\" \"0\"\nlines = lens repeat line\n",
        "11 4",
        b"",
        "p.lens:2:9: 'lines' repeats 'line' (line 1); in the sheet, the empty text is a part, so nobody could count the parts",
    );
}

#[test]
fn bytes_that_cannot_be_printed() {
    clashes(
        "left = copy (union \"\\x00\" \"\\x00\\xFF\")\nright = copy (union \"\\\"\\t\" \"\\xFF\\\"\\t\")\npair = lens join left right\n",
        "7 8",
        b"\x00\xFF\"\t",
        "p.lens:3:8: 'pair' joins 'left' (line 1) and 'right' (line 2); in the source, \"\\x00\\xFF\\\"\\t\" \
         can be cut as \"\\x00\" + \"\\xFF\\\"\\t\" and as \"\\x00\\xFF\" + \"\\\"\\t\"",
    );
}

/// Both halves are runs of a: any number times 61, and any number times 63. So the
/// shortest run with two cuts has 61 times 63 of them, all in one half.
#[test]
fn a_long_text_is_told_in_part_and_written_whole() {
    let [a61, a63] = [61, 63].map(|count| "a".repeat(count));
    let ends = format!("\"{}\"...\"{}\" (3,843 bytes)", "a".repeat(40), "a".repeat(16));
    clashes(
        &format!("left = copy \"{a61}\"*\nright = copy \"{a63}\"*\npair = lens join left right\n"),
        "7 6",
        &[b'a'; 61 * 63],
        &format!(
            "p.lens:3:8: 'pair' joins 'left' (line 1) and 'right' (line 2); in the source, {ends} \
             can be cut as \"\" + {ends} and as {ends} + \"\""
        ),
    );
}

/// A part ends before a d or behind it, so n times a stand between c and d, n being 0
/// modulo 59 and 1 modulo 60: 59 times 59. Behind the d an e must follow, and again so
/// many, before both lists of parts can end at an f.
#[test]
fn a_text_longer_than_any_source() {
    let program = format!(
        "one = join (union \"c\" \"e\") \"{}\"* (union \"\" \"f\")\nother = join (union \"c\" \"de\") \"a\" \"{}\"* (union \"d\" \"f\")\n\
         part = copy (union one other)\nparts = lens repeat part\n",
        "a".repeat(59),
        "a".repeat(60)
    );
    let run = "a".repeat(59 * 59);
    let text = format!("c{run}de{run}f");
    let [a39, a38, a16, a15] = [39, 38, 16, 15].map(|count| "a".repeat(count));
    let folder = Folder::new();
    folder.write("p.lens", &program);
    folder.fails(
        "noontrough check p.lens",
        1,
        &[
            "refused 10 ",
            "p.lens:4:9: 'parts' repeats 'part' (line 3); in the source, \"c",
            &format!(", \"c{a39}\"...\"{a15}f\" (6,966 bytes) can be cut as "),
            &format!(" as \"c{a39}\"...\"{a16}\" (3,482 bytes) + \"de{a38}\"...\"{a15}f\" (3,484 bytes) and as "),
            &format!(" and as \"c{a39}\"...\"{a15}d\" (3,483 bytes) + \"e{a39}\"...\"{a15}f\" (3,483 bytes)\n"),
        ],
    );
    folder.gives("noontrough clash p.lens -q", &text);
}

#[test]
fn a_program_that_the_engine_takes_has_none() {
    let k = Folder::of_example("k");
    for line in
        ["noontrough clash program.lens", "noontrough clash program.table -q", "noontrough clash program.lens -o out"]
    {
        k.fails(line, 1, &[": there is no clash; the engine takes this program\n"]);
    }
    assert!(!k.names().contains(&"out".to_string()));
    k.fails("noontrough clash - < program.lens", 1, &["-: there is no clash"]);
}

/// As check tells them.
#[test]
fn other_refusals_come_through() {
    let folder = Folder::new();
    folder.write("p.lens", "some = [0-9]+\nremark = const some \"\" \"\"\nboth = lens union remark remark\n");
    let told = folder.sh("noontrough check p.lens").stderr;
    assert!(told.starts_with("noontrough: refused 6 4: "), "{told}");
    folder.fails("noontrough clash p.lens", 1, &[&told]);
    folder.write("torn.table", [2, 0, 1, 0, 16]);
    folder.fails("noontrough clash torn.table", 1, &["refused 1 0: "]);
    folder.fails("noontrough clash no-such-file", 2, &["no-such-file can't be read"]);
    folder.write("words.lens", "a = copie b\n");
    folder.fails("noontrough clash words.lens", 1, &["words.lens:1:5: there is no kind 'copie'"]);
}

/// What is told never stands in the result, and changes no status.
#[test]
fn the_result_is_the_text_alone() {
    let folder = Folder::new();
    folder.write("p.lens", "pair = lens join (copy [a-z]*) (copy [a-z]*)\n");
    folder.gives("noontrough clash p.lens > out 2>&1; cat out", "a");
    folder.gives("noontrough clash p.lens 2>&-", "a");
    folder.gives("noontrough clash p.lens 2> /dev/full", "a");
    folder.fails("noontrough clash p.lens > /dev/full", 2, &["standard output can't be written"]);
    folder.fails("noontrough clash p.lens -o p.lens", 2, &["the result would replace p.lens, which it is made from"]);
}
