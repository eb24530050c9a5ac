//! What is told of a refusal: the place, the names, and what shows it. Expected
//! texts are worked out by hand from the programs.

mod common;

use common::*;

/// A program's text and what `check` says of it.
fn check(program: &str, said: &[&str]) {
    let folder = Folder::new();
    folder.write("p.lens", program);
    folder.fails("noontrough check p.lens", 1, said);
}

#[test]
fn operands_that_break_a_rule() {
    check(
        "letter = range 'Z' 'A'\ntext = copy letter\n",
        &[
            "refused 3 0: An operand of this node breaks a rule",
            "p.lens:1:10: 'letter': 'Z' comes behind 'A', so no byte lies between",
        ],
    );
    check(
        "letter = [A-Z]\ntext = copy letter\nletters = repeat text\n",
        &["refused 3 2", "p.lens:3:11: 'letters': 'text' is a lens, and 'repeat' takes a pattern there"],
    );
    check(
        "letter = [A-Z]\nletters = lens repeat letter\n",
        &["p.lens:2:11: 'letters': 'letter' is a pattern, and 'lens repeat' takes a lens there"],
    );
    check(
        "nought = range '0' '0'\nremark = const [0-9] \"\" nought\n",
        &["p.lens:2:10: 'remark': 'nought' is a pattern, and 'const' takes a word there"],
    );
    check(
        "text = copy [A-Z]\nother = [A-Z]*\n",
        &["p.lens:2:9: 'other': the last line is the whole program, and this is a pattern and no lens"],
    );
    check(
        &format!("text = copy \"{}\"\n", "x".repeat(65)),
        &["p.lens:1:13: ", "a word of 65 bytes, and 64 are the most"],
    );
    check(
        "text = copy \"x\"\nodd = raw 22 0 7 0\n",
        &["p.lens:2:7: 'odd': '\"x\"' is a pattern, and 'match' takes a lens there"],
    );
    check("text = copy \"x\"\nodd = raw 22 1 7 0\n", &["p.lens:2:7: 'odd': an operand that is not used is not 0"]);
    check("text = copy \"x\"\nodd = raw 22 9 0 0\n", &["p.lens:2:7: 'odd': its child 9 is no node above it"]);
    check("odd = raw 0 0 9 3\n", &["p.lens:1:7: 'odd': a word that lies outside the pool"]);
}

#[test]
fn sets_that_break_a_rule() {
    let set = |pool: &str, operands: &str, said: &str| {
        let program = format!("pool \"{pool}\"\nodd = raw 5 {operands}\ntext = copy odd\n");
        check(
            &program,
            &["refused 3 0: An operand of this node breaks a rule", &format!("p.lens:2:7: 'odd': {said}\n")],
        );
    };
    set("azaz", "0 0 0", "a set of 0 pairs, and 1 to 32 are possible");
    set(&"az".repeat(33), "0 0 33", "a set of 33 pairs, and 1 to 32 are possible");
    set("azaz", "0 1 2", "a set whose pairs leave the pool");
    set("azaz", "0 2 2", "a set whose pairs leave the pool");
    set("azaz", "1 0 1", "a set whose pairs leave the pool");
    set("zaaz", "0 0 2", "pair 1 of the set is reversed: 'z' comes behind 'a', so no byte lies between");
    set("azxzcb", "0 0 3", "pair 3 of the set is reversed: 'c' comes behind 'b', so no byte lies between");
    check(
        &format!("odd = set [{}]\ntext = copy odd\n", "x".repeat(40)),
        &["p.lens:1:7: 'odd': a set of 40 pairs, and 1 to 32 are possible"],
    );
    check(
        "one = set [0]\nremark = const [0-9] \"\" one\n",
        &["refused 3 3", "p.lens:2:10: 'remark': 'one' is a pattern, and 'const' takes a word there"],
    );
    check("text = copy [a-z]\nother = [acz]\n", &["refused 3 2", "this is a pattern and no lens"]);
    check("odd = raw 6 0 0 1\ntext = copy \"x\"\n", &["refused 2 0", "'odd' is of kind 6"]);
}

/// `m` lies between `a` and `z`, and only the bytes count.
#[test]
fn sets_that_meet() {
    let arms = |other: &str| format!("first = copy [az]\nsecond = copy {other}\nletter = lens union first second\n");
    check(
        &arms("[mz]"),
        &["refused 9 ", "p.lens:3:10: 'letter' is a union; in the source, \"z\" belongs to both arms: 'first' (line 1) and 'second' (line 2)"],
    );
    let folder = Folder::new();
    folder.write("p.lens", arms("[m]"));
    folder.gives("noontrough check p.lens", "ok 5 2 2\n");
}

/// The sign between the accented capitals is none of them.
#[test]
fn texts_of_sets() {
    let folder = Folder::new();
    folder.write("p.lens", "name = key [\\xD8-\\xDE\\xC0-\\xD6]+\nlines = (match (lens join name (copy \";\")))*\n");
    folder.gives("noontrough check p.lens", "ok 9 3 3\n");
    folder.write("source", b"\xC0\xD8;\xD6\xD7;");
    let place =
        "source:1:5: '\\xC0\\xD8;\\xD6\\xD7;' cannot go on here; ';', '\\xC0' to '\\xD6' or '\\xD8' to '\\xDE' could";
    folder.fails("noontrough get p.lens source", 1, &["refused 13 0", place]);
    folder.gives(
        "noontrough where p.lens 0",
        "p.lens:1:12: node 0 is '[\\xD8-\\xDE\\xC0-\\xD6]', which 'name' makes beside its own\n",
    );
    folder.gives("noontrough assemble p.lens -o p.table", "");
    folder.gives("noontrough show p.table > shown.lens", "");
    folder.gives("sed -n 2p shown.lens", "n0 = set [\\xC0-\\xD6\\xD8-\\xDE]\n");
    folder.gives("noontrough assemble shown.lens -o again.table && cmp p.table again.table", "");
}

#[test]
fn kinds_matches_and_defaults() {
    check("odd = raw 99 0 0 0\ntext = copy \"x\"\n", &["refused 2 0", "p.lens:1:7: 'odd' is of kind 99"]);
    let matches = "inner = match (key [A-Z])\nline = lens join inner (copy \";\")\nouter = match line\n";
    check(matches, &["refused 4 ", "p.lens:3:9: 'outer' is a match, and holds the match 'inner'"]);
    check(
        "some = [0-9]+\nremark = const some \"\" \"\"\n",
        &["refused 6 ", "p.lens:2:10: 'remark': the default \"\" is no text of 'some'"],
    );
}

#[test]
fn joins_that_can_be_cut_in_two_ways() {
    check("left = key [A-Z]*\nright = copy [A-Z]*\npair = lens join left right\n", &[
        "refused 7 4: A source of this join",
        "p.lens:3:8: 'pair' joins 'left' (line 1) and 'right' (line 2); in the source, \"A\" can be cut as \"\" + \"A\" and as \"A\" + \"\"",
    ]);
    let hidden = "left = key [A-Z]*\ncomma = const \",\" \"\" \",\"\nright = copy [A-Z]*\n\
        rest = lens join comma right\npair = lens join left rest\n";
    check(
        hidden,
        &[
            "refused 8 ",
            "p.lens:5:8: 'pair' joins 'left' (line 1) and 'rest' (line 4); in the sheet, \"A\" can be cut as \"\" + \"A\" and as \"A\" + \"\"",
        ],
    );
    // Of all cuts of the text the two that come first; {a, ab, abc} before {bcd, cd, d}.
    let three = "left = copy (union \"a\" \"ab\" \"abc\")\nright = copy (union \"bcd\" \"cd\" \"d\")\npair = lens join left right\n";
    check(three, &["\"abcd\" can be cut as \"a\" + \"bcd\" and as \"ab\" + \"cd\""]);
}

#[test]
fn halves_without_a_name_are_told_by_their_words() {
    let row = "pair = lens join (key \"x\") (copy [A-Z]*) (copy [B-Z]*)\n";
    check(row, &["p.lens:1:", " joins 'copy [A-Z]*' and 'copy [B-Z]*'; in the source, \"B\" can be cut as \"\" + \"B\" and as \"B\" + \"\"\n"]);
}

#[test]
fn unions_whose_arms_overlap() {
    check(
        "first = copy [A-M]\nsecond = copy [M-Z]\nletter = lens union first second\n",
        &["refused 9 ", "p.lens:3:10: 'letter' is a union; in the source, \"M\" belongs to both arms: 'first' (line 1) and 'second' (line 2)"],
    );
}

#[test]
fn repeats_that_can_be_cut_in_two_ways() {
    check(
        "label = copy [A-Z]+\nlabels = lens repeat label\n",
        &[
            "refused 10 ",
            "p.lens:2:10: 'labels' repeats 'label' (line 1); in the source, \"AA\" can be cut as \"A\" + \"A\" and as \"AA\"",
        ],
    );
    check(
        "label = copy [A-Z]*\nlabels = lens repeat label\n",
        &[
            "refused 10 ",
            "p.lens:2:10: 'labels' repeats 'label' (line 1); in the source, the empty text is a part, so nobody could count the parts",
        ],
    );
    check(
        "line = lens join (key [A-Z]+) (const [0-9] \"\" \"0\")\nlines = line*\n",
        &["refused 11 ", "p.lens:2:9: 'lines' repeats 'line' (line 1); in the sheet, \"AA\" can be cut as \"A\" + \"A\" and as \"AA\""],
    );
}

#[test]
fn a_table_has_no_lines() {
    let folder = Folder::new();
    folder.write("p.lens", "left = key [A-Z]*\nright = copy [A-Z]*\npair = lens join left right\n");
    folder.gives("noontrough assemble p.lens -o p.table", "");
    folder.fails(
        "noontrough check p.table",
        1,
        &[
            "refused 7 4",
            "p.table: node 4: 'n4' joins 'n2' and 'n3'; in the source, \"A\" can be cut as \"\" + \"A\" and as \"A\" + \"\"",
        ],
    );
}

/// Three words of 64 positions, and a line that makes 97 nodes.
#[test]
fn what_passes_a_limit_is_told_with_its_cost() {
    let long = format!("long = \"{}\"\nlines = join long long long\ntext = copy lines\n", "0123456789abcdef".repeat(4));
    check(
        &long,
        &["refused 5 2", "p.lens:2:9: ", "'lines' has 192 positions in the source", "3 times 'long' (line 1), 64 each"],
    );
    let folder = Folder::new();
    let words: String = (10..60).map(|n| format!(" \"{n}\"")).collect();
    folder.write("p.lens", format!("few = copy \"x\"\nmany = copy (union{words})\n"));
    folder.fails(
        "noontrough check p.lens",
        1,
        &["p.lens:2:", "the program has 102 nodes, and 96 are the most", "line 2 (many) makes 100"],
    );
}

#[test]
fn how_far_a_source_could_be_read() {
    let kerning = Folder::of_example("kerning");
    let text = String::from_utf8(kerning.read("source")).expect("it is ASCII");
    kerning.write("crlf", text.replace('\n', "\r\n"));
    kerning.fails(
        "noontrough get program.lens crlf",
        1,
        &[
            "refused 13 0",
            "crlf:1:41: ",
            "1000 units to the em\\r' cannot go on here; a newline",
            "This line ends in CR LF",
        ],
    );
    kerning.write("cut", text.trim_end());
    kerning.fails(
        "noontrough get program.lens cut",
        1,
        &["cut:23:34: ", "' cannot end here; a newline", "The file has lost its last newline."],
    );
    kerning.write("small", text.replace("A;W     -60", "A;W     -6O"));
    kerning.fails(
        "noontrough get program.lens small",
        1,
        &["small:12:11: 'A;W     -6O  # was -65' cannot go on here; "],
    );
    kerning.write("begun", text.replace("begin", "Begin"));
    kerning.fails(
        "noontrough get program.lens begun",
        1,
        &["begun:4:1: 'Begin' cannot go on here; a newline, '#' or 'b' could"],
    );
}

#[test]
fn what_is_hard_to_see() {
    let k = Folder::of_example("k");
    k.write("mark", b"\xEF\xBB\xBFAB1;");
    k.fails(
        "noontrough get program.lens mark",
        1,
        &["mark:1:1: '\\u{feff}AB1;' cannot go on here", "begins with a byte order mark"],
    );
    k.write("cr", b"AB1;\rC2;");
    k.fails(
        "noontrough get program.lens cr",
        1,
        &["cr:1:5: 'AB1;\\rC2;' cannot go on here", "This line ends in CR, which"],
    );
    k.fails(
        "noontrough put program.lens source edited",
        1,
        &["refused 14 0", "This is a source of the program, and no sheet: the files may be in the wrong order."],
    );
    let names = "line = lens join (key [A-Z]) (const [^;\n]* \"\" \"\") (copy \";\\n\")\nlines = line*\n";
    k.write("names.lens", names.replace("[^;\n]", "[^;\\n]"));
    // \u{e9} has two bytes in UTF-8, so columns run ahead of letters; the mark stands under the letter.
    k.write("accents", "A\u{e9}t\u{e9};\nB\u{e9};;\n");
    let line = "accents:2:5: 'B\u{e9};;' cannot go on here; a newline could\n";
    k.fails(
        "noontrough get names.lens accents",
        1,
        &[&format!("{line}{}^\n", " ".repeat("accents:2:5: 'B\u{e9};".chars().count()))],
    );
    k.write("semicolon.lens", "text = copy (join [^;]* \";\")\n");
    k.write("abc", "abc");
    let done = k.sh("noontrough get semicolon.lens abc");
    assert!(!done.stderr.contains("lost its last newline"), "a newline would not help: {}", done.stderr);
    k.write("open", "A\n");
    k.fails("noontrough get names.lens open", 1, &["open:1:2: 'A\\n' cannot go on here; any byte but a newline could"]);
}

#[test]
fn bytes_that_could_follow_in_words() {
    let folder = Folder::new();
    folder.write("empty", "");
    let could = |set: &str, words: &str| {
        folder.write("p.lens", format!("text = copy {set}\n"));
        folder.fails("noontrough get p.lens empty", 1, &[&format!("empty:1:1: '' cannot end here; {words} could\n")]);
    };
    could("[0-9]", "a digit");
    could("[A-Za-z]", "a capital or a small letter");
    could("[@-Z]", "'@' or a capital");
    could("[.-9]", "'.', '/' or a digit");
    could("[,-:]", "',' to ':'");
    could("[a-f]", "'a' to 'f'");
    could("[ab \\n\\t]", "a tab, a newline, a space, 'a' or 'b'");
    could("[^;]", "any byte but ';'");
    could("[^A-Z\\n]", "any byte but a newline and a capital");
    could("[\\x00-\\xFF]", "any byte");
    could("[ -~]", "any printable byte");
    could("[acegikmoqs]", "'a', 'c', 'e', 'g', 'i', 'k', 'm', 'o' or 2 more");
}

#[test]
fn neither_text_nor_table() {
    let folder = Folder::new();
    folder.write("p.lens", "a = [a-z]\nb = copy a \x0C\n");
    let odd = "p.lens:2:12: no table begins like this file, and a program's text has no '\\x0C'";
    folder.fails("noontrough check p.lens", 1, &["refused 1 0", odd]);
    for command in ["assemble p.lens", "show p.lens", "where p.lens 0"] {
        folder.fails(&format!("noontrough {command}"), 1, &[odd]);
    }
    folder.write("p.lens", b"\xFF\xFEa\0 \0=\0");
    folder.fails("noontrough check p.lens", 1, &["p.lens: this looks like a text in UTF-16; save it as UTF-8"]);
    folder.write("torn.table", [2, 0, 1, 0, 16]);
    folder.fails(
        "noontrough where torn.table 0",
        1,
        &["torn.table: the first three bytes ask for 12 bytes, and there are 5"],
    );
}

/// Equal parts of a program may be one node; a message has the words of the line.
#[test]
fn parts_go_by_their_own_words() {
    check("d = [0-9]*\nr = const [0-9]* \"\" \"x\"\n", &["p.lens:2:5: 'r': the default \"x\" is no text of '[0-9]*'"]);
    check(
        "v = lens join (copy \"a\") (copy \"b\"?)?\n",
        &["in the source, \"\" belongs to both arms: 'copy \"\"' and 'copy \"b\"?'\n"],
    );
}

/// The nodes inside a suffix go by how often they have the part.
#[test]
fn suffixes_of_lenses() {
    check("p = (copy [A-Z]+){3}\n", &[
        "'2 of copy [A-Z]+' joins 'copy [A-Z]+' and 'copy [A-Z]+'; in the source, \"AAA\" can be cut as \"A\" + \"AA\" and as \"AA\" + \"A\"",
    ]);
    check("p = (copy [A-Z]+)+\n", &["'any number of copy [A-Z]+' repeats 'copy [A-Z]+'; in the source, \"AA\" can be cut as \"A\" + \"A\" and as \"AA\"\n"]);
    check("p = (copy [A-Z]+){1,3}\n", &[
        " joins 'copy [A-Z]+' and 'up to 1 of copy [A-Z]+'; in the source, \"AA\" can be cut as \"A\" + \"A\" and as \"AA\" + \"\"\n",
    ]);
}

#[test]
fn a_long_line_is_shown_in_part() {
    let k = Folder::of_example("k");
    k.write("long", format!("{}-{}", "AB1;".repeat(100), "C2;".repeat(100)));
    let start = format!("long:1:401: '...{}", "AB1;".repeat(7));
    let shown = format!("{start}-{}...' cannot go on here; a capital could, or the end of the text", "C2;".repeat(9));
    k.fails("noontrough get program.lens long", 1, &[&shown, &format!("\n{}^\n", " ".repeat(start.len()))]);
}
