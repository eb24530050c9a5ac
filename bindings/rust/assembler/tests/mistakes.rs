//! What has no bytes is told with its line and a sentence; what only the engine
//! refuses is assembled.

use noontrough_assembler::{assemble, show, Mistake};
use noontrough_reference::{Calls, Reference};

/// The mistake stands in this line and column, and its sentence has this part.
fn fails(text: &str, line: usize, column: usize, part: &str) {
    match assemble(text.as_bytes()) {
        Ok(_) => panic!("this assembles:\n{text}"),
        Err(mistake) => {
            assert_eq!((mistake.line, mistake.column), (line, column), "{text}\n{mistake}");
            assert!(mistake.message.contains(part), "{text}\n{mistake}");
        }
    }
}

#[test]
fn a_mistake_is_told_with_its_place() {
    let mistake = Mistake { line: 3, column: 7, message: "no".to_string() };
    assert_eq!(mistake.to_string(), "3:7: no");
}

#[test]
fn lines_that_cannot_be_read() {
    fails("# a comment\n\na = word \"x", 3, 10, "the closing quote is missing");
    fails("a = word \"\\q\"", 1, 11, "a backslash in quotes is followed by n, r, t, \\, \", ' or x");
    fails("a = word \"\\]\"", 1, 11, "a backslash in quotes is followed by");
    fails("a = word \"\\xG1\"", 1, 11, "two hexadecimal digits");
    fails("a = word \"\\x1", 1, 11, "two hexadecimal digits");
    fails("a = word \"\\", 1, 11, "a backslash in quotes is followed by");
    fails("a = range 'AB' 'Z'", 1, 11, "single quotes hold one byte, and here are 2");
    fails("a = range '\u{c4}' 'Z'", 1, 11, "single quotes hold one byte, and here are 2");
    fails("a = word \"x\"; b", 1, 13, "';' can't stand here; a definition ends with its line");
    fails("a = \"x\" | \"y\"", 1, 9, "'|' can't stand here; a choice is written union a b");
    fails("a = copy \"x\" // remark", 1, 14, "'/' can't stand here; a comment begins with #");
    fails("a = word \"\u{c4}\" \u{c4}", 1, 15, "'\\xC3' can't stand here");
    fails("9a = word \"x\"", 1, 1, "'9a' is no name");
    fails("a = raw 99999999999999999999999 0 0 0", 1, 9, "is too large");
}

#[test]
fn lines_of_another_form() {
    let forms = "a line is 'name = kind operands', 'name = operand', or 'pool' and a text in quotes";
    fails("a word \"x\"", 1, 3, forms);
    fails("  a", 1, 3, forms);
    fails("  = word \"x\"", 1, 3, forms);
    fails("\"x\" = a", 1, 1, forms);
    fails("pool", 1, 1, forms);
    fails("pool 5", 1, 6, forms);
    fails("pool \"x\" \"y\"", 1, 10, forms);
    fails("a = word \"x\"\n pool \"y\"", 2, 2, "the pool stands above the first node");
}

#[test]
fn names_and_kinds() {
    fails("a = copy b\nb = word \"x\"", 1, 10, "there is no node 'b' above this line");
    fails("a = word \"x\"\n a = copy a", 2, 2, "the name 'a' is already used in line 1");
    fails("a = copy (join\n  \"x\" \"y\")\na = copy a", 3, 1, "the name 'a' is already used in line 1");
    fails("a = copie \"x\"", 1, 5, "there is no kind 'copie'; the kinds are word, range, join");
    fails("a = copy (rang 'a' 'z')", 1, 11, "there is no kind 'rang'; the kinds are word, range, join");
    fails("a = copie", 1, 5, "there is no node 'copie' above this line, nor a kind of this name; the kinds are word");
    fails(
        "a =",
        1,
        3,
        "a kind is missing, or an operand (a definition goes on in the next line only inside parentheses)",
    );
    fails(
        "a = copy ()",
        1,
        10,
        "a kind is missing, or an operand (a definition goes on in the next line only inside parentheses)",
    );
    fails("a = lens copy \"x\"", 1, 10, "'lens' is followed by join, union or repeat");
    fails("a = lens \"x\"", 1, 10, "'lens' is followed by join, union or repeat");
    fails("a = lens", 1, 5, "'lens' is followed by join, union or repeat");
    fails("a = match (lens)", 1, 12, "'lens' is followed by join, union or repeat");
    fails("a = copy 0", 1, 10, "nodes go by name here, and 0 is a number");
    fails("a = copy 'x'", 1, 10, "a word stands in double quotes");
    fails("a = copy =", 1, 10, "a second '='");
    fails("a = b = copy \"x\"", 1, 7, "a second '='");
}

#[test]
fn parentheses_that_are_missing() {
    let says = |word: &str| format!("'{word}' begins an expression of its own, which stands in parentheses here");
    let parts = "x = copy \"x\"\ny = copy \"y\"\n";
    fails(&format!("{parts}a = match lens join x y"), 3, 11, &says("lens"));
    fails(&format!("{parts}a = lens repeat match x"), 3, 17, &says("match"));
    fails(&format!("{parts}a = lens join x copy \";\""), 3, 17, &says("copy"));
    fails("a = copy range 'a' 'z'", 1, 10, &says("range"));
    fails("a = const join \"x\" \"y\" \"\" \"xy\"", 1, 11, &says("join"));
    fails("a = copy (join \"x\" repeat \"y\")", 1, 20, &says("repeat"));
    // A line may have such a name.
    fails("copy = [a-z]\na = key copy copy", 2, 14, "'key' takes one pattern");
}

#[test]
fn operands() {
    fails("a = word", 1, 5, "'word' takes a text in quotes");
    fails("a = word b", 1, 10, "'word' takes a text in quotes");
    fails("a = word \"x\"*", 1, 13, "'word' takes a text in quotes");
    fails("a = word \"x\" at", 1, 5, "'word' takes a text in quotes");
    fails("a = word \"x\" at 0 0", 1, 19, "'word' takes a text in quotes");
    fails("a = range 'a'", 1, 5, "'range' takes a first and a last byte");
    fails("a = range 1 256", 1, 13, "'range' takes a first and a last byte");
    fails("a = range 1 2 3", 1, 15, "'range' takes a first and a last byte");
    fails("a = copy (range 'a' (b))", 1, 21, "'range' takes a first and a last byte");
    fails("a = set", 1, 5, "'set' takes bytes and ranges of bytes in brackets, such as [A-Za-z]");
    fails("a = set \"az\"", 1, 9, "'set' takes bytes and ranges of bytes in brackets");
    fails("a = set 'a' 'z'", 1, 9, "'set' takes bytes and ranges of bytes in brackets");
    fails("a = set [az] [bc]", 1, 14, "'set' takes bytes and ranges of bytes in brackets");
    fails("a = set [az]*", 1, 13, "'set' takes bytes and ranges of bytes in brackets");
    fails("a = set [az] at", 1, 5, "'set' takes bytes and ranges of bytes in brackets");
    fails("pool \"abc\"\na = set [b-c] at 0", 2, 18, "the pool does not hold these pairs at 0");
    fails("a = copy set [az]", 1, 10, "'set' begins an expression of its own, which stands in parentheses here");
    fails("a = join \"x\"", 1, 5, "'join' takes two or more patterns");
    fails("a = copy (union \"x\")", 1, 11, "'union' takes two or more patterns");
    fails("a = lens join (copy \"x\")", 1, 5, "'lens join' takes two or more lenses");
    fails("a = repeat \"x\" \"y\"", 1, 16, "'repeat' takes one pattern");
    fails("a = match", 1, 5, "'match' takes one lens");
    fails("a = const \"x\" \"y\"", 1, 5, "'const' takes a pattern, a word for the sheet and a word for the default");
    fails("a = const \"x\" \"y\" \"z\" \"x\"", 1, 23, "'const' takes a pattern");
    fails("a = raw 1 2 3", 1, 5, "'raw' takes four bytes");
    fails("a = raw 1 2 3 4 5", 1, 17, "'raw' takes four bytes");
    fails("a = raw 1 b 3 4", 1, 11, "'raw' takes four bytes");
    fails("pool \"abc\"\na = word \"c\" at 1", 2, 17, "the pool does not hold this text at 1");
    fails("a = \"x\" \"y\"", 1, 9, "a kind stands before several operands, such as join or lens join");
    fails("a = \"x\"\nb = a* a", 2, 8, "a kind stands before several operands");
}

#[test]
fn lines_that_make_no_node() {
    let message = "'b' would only be another name for 'a', and a line makes a node of its own";
    for (definition, column) in [("a", 5), ("(a)", 6), ("((a))", 7), ("a{1}", 5), ("(a{1}){1}", 6)] {
        fails(&format!("a = copy \"x\"\nb = {definition}"), 2, column, message);
    }
}

#[test]
fn parentheses() {
    fails("a = copy (join \"x\" \"y\"", 1, 10, "this parenthesis is not closed");
    fails("a = copy (join \"x\"\n(union \"y\"\n\"z\"", 2, 1, "this parenthesis is not closed");
    fails("a = copy (\n\nb = copy \"x\"", 1, 10, "this parenthesis is not closed before the next '=' in line 3");
    fails("a = copy \"x\")", 1, 13, "no parenthesis is open that this one could close");
    fails("a = copy (\n\"x\"))", 2, 5, "no parenthesis is open that this one could close");
    fails(&format!("a = {}", "(".repeat(100_000)), 1, 133, "more than 128 parentheses are open here");
    let deep = |depth| format!("a = {}copy \"x\"{}", "(".repeat(depth), ")".repeat(depth));
    let table = |text: &str| assemble(text.as_bytes()).expect("it has bytes").table;
    assert_eq!(table(&deep(128)), table("a = copy \"x\""));
    fails(&deep(129), 1, 133, "more than 128 parentheses are open here");
}

#[test]
fn suffixes() {
    fails("a = *", 1, 5, "nothing stands before '*' that it could repeat");
    fails("a = join + \"x\"", 1, 10, "nothing stands before '+' that it could repeat");
    fails("a = copy (?)", 1, 11, "nothing stands before '?' that it could repeat");
    fails("a = {2}", 1, 5, "nothing stands before '{' that it could repeat");
    fails("a = copy }", 1, 10, "'}' stands only behind a number in braces");
    fails("a = join \"x\", \"y\"", 1, 13, "',' stands only behind a number in braces");
    for braces in ["{}", "{", "{2", "{2,", "{,2}", "{2,3,4}", "{b}", "{2 3}", "{2,b}", "{'2'}"] {
        fails(&format!("a = \"x\"{braces}"), 1, 8, "braces hold how often: {4}, {2,4} or {2,}");
    }
    fails("a = \"x\"{0}", 1, 9, "0 times leaves nothing of what stands before");
    fails("a = \"x\"{0,0}", 1, 11, "0 times leaves nothing of what stands before");
    fails("a = \"x\"{3,2}", 1, 11, "the lower number comes first: {2,3}");
    fails("a = \"x\"{129}", 1, 9, "128 is the most here, since a program has at most 128 positions");
    fails("a = \"x\"{2,129}", 1, 11, "128 is the most here");
    fails("a = \"x\"{129,}", 1, 9, "128 is the most here");
    fails("a = \"x\"{99999999999999999999999}", 1, 9, "is too large");
}

#[test]
fn sets() {
    fails("a = []", 1, 5, "the set is empty; a ']' in it is written \\]");
    fails("a = []x]", 1, 5, "the set is empty; a ']' in it is written \\]");
    fails("a = [^]", 1, 5, "the set is empty");
    fails("a = [^\\x00-\\xFF]", 1, 5, "the set is empty, since it takes out every byte");
    fails("a = [z-a]", 1, 6, "the range 'z' to 'a' is reversed; the lower byte comes first");
    fails("a = [^0-9\\xFF-\\n]", 1, 10, "the range '\\xFF' to '\\n' is reversed");
    fails("a = [A-Z\nb = [a-z]", 1, 5, "the closing bracket of this set is missing");
    fails("a = [", 1, 5, "the closing bracket of this set is missing");
    fails("a = [^", 1, 5, "the closing bracket of this set is missing");
    fails("a = [a-", 1, 5, "the closing bracket of this set is missing");
    fails("a = [A-\\]", 1, 5, "the closing bracket of this set is missing");
    fails("a = [a\u{e4}]", 1, 7, "a letter outside ASCII has several bytes, and a set holds single ones; write \\xNN");
    fails("a = [a-\u{e4}]", 1, 8, "a letter outside ASCII has several bytes");
    fails("a = [a-c-e]", 1, 9, "a '-' that is itself stands at the set's beginning or end, or is written \\-");
    fails("a = [a\\d]", 1, 7, "a backslash in a set is followed by n, r, t, \\, \", ], [, -, ^, ' or x");
    fails("a = [a\\xA]", 1, 7, "two hexadecimal digits");
    fails("a = [a]]", 1, 8, "']' can't stand here");
}

#[test]
fn tables_that_would_be_too_large() {
    fails("", 1, 1, "the program has no node");
    fails("# nothing\n", 2, 1, "the program has no node");
    fails("pool \"x\"\n  # nothing", 2, 1, "the program has no node");
    let nodes: String = (0..97).map(|number| format!("n{number} =  word \"\"\n")).collect();
    fails(&nodes, 97, 8, "the program has 97 nodes, and 96 are the most");
    let pool = format!("pool \"{}\"\n", "x".repeat(256));
    fails(&format!("{pool}{pool}a = word \"y\""), 3, 10, "more than 512 bytes");
    fails(&format!("{pool}{pool}a = copy \"y\""), 3, 10, "more than 512 bytes");
    fails(&format!("{pool}{pool}pool \"y\""), 3, 6, "more than 512 bytes");
    fails(&format!("a = word \"{}\"", "x".repeat(256)), 1, 10, "at most 64 bytes");
    fails(&format!("{pool}a = word \"{}\" at 0", "x".repeat(256)), 2, 10, "at most 64 bytes");
    fails(&format!("{pool}{pool}a = copy [yz0]"), 3, 10, "more than 512 bytes");
    fails(&format!("a = set [{}]", "x".repeat(256)), 1, 9, "a set has at most 32 pairs");
    fails(&format!("a = set [{}]", "x".repeat(257)), 1, 9, "more than 512 bytes");
}

/// Lens and pattern mixed up, ends of a range reversed, a word or a set that is too
/// long, a set for a word: the engine says so, with 3.
#[test]
fn what_the_engine_refuses_is_assembled() {
    let long = format!("a = word \"{}\"\nb = copy a", "x".repeat(65));
    let many = format!("a = set [{}]\nb = copy a", "x".repeat(33));
    let no_word = "a = const \"x\" \"\" (set [x])";
    for text in ["a = range 'Z' 'A'", "a = copy \"x\"\nb = copy a", "a = word \"x\"", &long, &many, no_word] {
        let table = assemble(text.as_bytes()).expect("it has bytes").table;
        assert_eq!(Reference.check(&table).map_err(|refusal| refusal.number), Err(3), "{text}");
    }
}

#[test]
fn short_forms() {
    let short = "end = copy \";\"\nother = const \";\" \"\" \";\"\nrow = lens join end other end\n";
    let long = "n0 = word \";\"\nn1 = copy n0\nn2 = word \"\"\nn3 = const n0 n2 n0\n\
        n4 = lens join n3 n1\nn5 = lens join n1 n4\n";
    let assembled = assemble(short.as_bytes()).expect("it has bytes");
    assert_eq!(assembled.table, assemble(long.as_bytes()).expect("it has bytes").table);
    let origins: Vec<(usize, bool)> = assembled.origins.iter().map(|origin| (origin.line, origin.is_named)).collect();
    assert_eq!(origins, [(1, false), (1, true), (2, false), (2, true), (3, false), (3, true)]);
}

#[test]
fn a_program_may_have_other_line_ends() {
    let unix = "a = word \"x\" # remark\n\nb = copy a\n";
    let other = unix.replace('\n', "\r\n");
    assert_eq!(assemble(unix.as_bytes()).unwrap().table, assemble(other.as_bytes()).unwrap().table);
}

#[test]
fn bytes_that_are_no_table() {
    let says = |bytes: &[u8], part: &str| {
        let wrong = show(bytes).expect_err("the sizes are wrong").to_string();
        assert!(wrong.contains(part), "{wrong}");
    };
    says(&[], "at least three bytes");
    says(&[0, 0, 0], "the first byte says 0 nodes");
    says(&[97, 0, 0], "the first byte says 97 nodes");
    says(&[1, 2, 1], "a pool of 513");
    says(&[1, 0, 0, 0], "ask for 7 bytes, and there are 4");
}
