//! Every short form against its written-out form, and which nodes are shared.

mod common;

use common::*;
use noontrough_assembler::{assemble, show, Assembled};
use noontrough_reference::generator::random::Random;
use noontrough_reference::{Calls, Reference};

fn assembled(text: &str) -> Assembled {
    assemble(text.as_bytes()).unwrap_or_else(|mistake| panic!("{text}\n{mistake}"))
}

fn table(text: &str) -> Vec<u8> {
    assembled(text).table
}

/// Both texts have the same bytes.
fn same(short: &str, long: &str) {
    let (short, long) = (table(short), table(long));
    assert_eq!(short, long, "\n{}\n{}", show(&short).unwrap(), show(&long).unwrap());
}

/// A short form of a pattern `x` and of a lens `y`, against written-out lines
/// whose last one is the form.
fn same_of_both(short: &str, pattern: &str, lens: &str) {
    let (x, y) = ("x = range 'a' 'b'\n", "x = range 'a' 'b'\ny = copy x\n");
    same(&format!("{x}z = x{short}"), &format!("{x}{pattern}"));
    same(&format!("{y}z = y{short}"), &format!("{y}{lens}"));
}

#[test]
fn operands_alone() {
    same("a = \";\"", "a = word \";\"");
    same("a = [a-c]", "a = range 'a' 'c'");
    same("a = (join \"x\" \"y\")", "a = join \"x\" \"y\"");
    same("a = ((copy \"x\"))", "a = copy \"x\"");
    same("a = (copy \"x\"){1}", "a = copy \"x\"");
    same("a = \"x\"{1}{1}", "a = word \"x\"");
    same("a = [a]{1}", "a = range 'a' 'a'");
}

#[test]
fn suffixes() {
    same_of_both("*", "z = repeat x", "z = lens repeat y");
    same_of_both("{0,}", "z = repeat x", "z = lens repeat y");
    same_of_both("+", "r = repeat x\nz = join x r", "r = lens repeat y\nz = lens join y r");
    same_of_both("{1,}", "r = repeat x\nz = join x r", "r = lens repeat y\nz = lens join y r");
    same_of_both("?", "z = union \"\" x", "n = copy \"\"\nz = lens union n y");
    same_of_both("{0,1}", "z = union \"\" x", "n = copy \"\"\nz = lens union n y");
    same_of_both("{4}", "z = join x x x x", "z = lens join y y y y");
    same_of_both("{2,}", "r = repeat x\nz = join x x r", "r = lens repeat y\nz = lens join y y r");
    same_of_both("{1,2}", "o = union \"\" x\nz = join x o", "n = copy \"\"\no = lens union n y\nz = lens join y o");
    same_of_both(
        "{2,4}",
        "o = union \"\" x\np = join x o\nq = union \"\" p\nz = join x x q",
        "n = copy \"\"\no = lens union n y\np = lens join y o\nq = lens union n p\nz = lens join y y q",
    );
    same_of_both(
        "{0,3}",
        "o = union \"\" x\np = join x o\nq = union \"\" p\nr = join x q\nz = union \"\" r",
        "n = copy \"\"\no = lens union n y\np = lens join y o\nq = lens union n p\nr = lens join y q\n\
            z = lens union n r",
    );
}

#[test]
fn suffixes_one_behind_the_other() {
    same_of_both(" * ?", "r = repeat x\nz = union \"\" r", "r = lens repeat y\nn = copy \"\"\nz = lens union n r");
    same_of_both(
        "{2}{1}+",
        "p = join x x\nr = repeat p\nz = join p r",
        "p = lens join y y\nr = lens repeat p\nz = lens join p r",
    );
}

#[test]
fn suffixes_of_operands() {
    same(
        "a = const [0-9]+ \"\" \"0\"\n",
        "d = range '0' '9'\nr = repeat d\ns = join d r\nn = word \"\"\no = word \"0\"\na = const s n o",
    );
    same(
        "a = join \"x\"? [a-b]* \"y\"",
        "x = word \"x\"\nn = word \"\"\no = union n x\nr = range 'a' 'b'\nrs = repeat r\ny = word \"y\"\n\
            a = join o rs y",
    );
    same(
        "a = lens join (copy \"x\")* (key (union \"y\" \"z\"))",
        "x = word \"x\"\nc = copy x\nr = lens repeat c\ny = word \"y\"\nz = word \"z\"\nu = union y z\nk = key u\n\
            a = lens join r k",
    );
}

/// Words of kinds are names where no expression begins.
#[test]
fn names_that_are_kinds() {
    same(
        "key = word \"x\"\nlens = copy key\nraw = lens join lens lens",
        "a = word \"x\"\nb = copy a\nc = lens join b b",
    );
    same("key = word \"x\"\na = join key* key", "k = word \"x\"\nr = repeat k\na = join r k");
    same("set = set [xz]\na = join set* set", "s = [xz]\nr = repeat s\na = join r s");
}

#[test]
fn parentheses_over_several_lines() {
    same(
        "a = copy (join  # first\n\n    \"x\"   # then\n  (union \"y\"\n\"z\")\r\n) # end\nb = match a",
        "a = copy (join \"x\" (union \"y\" \"z\"))\nb = match a",
    );
    same("a = copy (\n\"x\"\n)", "a = copy (\"x\")");
    same("a = copy (\n  [#(]  # a set with '#' and '('\n)", "a = copy [#(]");
}

/// A lens that may be missing, up to four times, and at least twice.
#[test]
fn lenses_in_short_forms_do_what_they_say() {
    let part = "part = lens join (key [a-z]) (const [0-9] \"\" \"0\")\n";
    let options = table(&format!("{part}some = part{{2,4}}"));
    assert!(Reference.check(&options).is_ok());
    for (source, sheet) in [("a1b2", "ab"), ("a1b2c3", "abc"), ("a1b2c3d4", "abcd")] {
        assert_eq!(get(&options, source.as_bytes(), BUFFER), Ok(sheet.as_bytes().to_vec()));
    }
    for source in ["", "a1", "a1b2c3d4e5"] {
        assert_eq!(get(&options, source.as_bytes(), BUFFER).map_err(|refusal| refusal.number), Err(13), "{source}");
    }
    assert_eq!(put(&options, b"xyz", b"a1b2c3d4", BUFFER), Ok(b"x1y2z3".to_vec()));
    assert_eq!(put(&options, b"wxyz", b"a1b2", BUFFER), Ok(b"w1x2y0z0".to_vec()));
    assert_eq!(create(&options, b"xy", BUFFER), Ok(b"x0y0".to_vec()));

    let maybe = table(&format!("{part}maybe = part?"));
    assert_eq!(put(&maybe, b"", b"a1", BUFFER), Ok(Vec::new()));
    assert_eq!(put(&maybe, b"b", b"a1", BUFFER), Ok(b"b1".to_vec()));
    assert_eq!(put(&maybe, b"b", b"", BUFFER), Ok(b"b0".to_vec()));

    let two_or_more = table(&format!("{part}entry = match part\nentries = entry{{2,}}"));
    assert_eq!(put(&two_or_more, b"cba", b"a1b2", BUFFER), Ok(b"c0b2a1".to_vec()));
    assert_eq!(create(&two_or_more, b"a", BUFFER).map_err(|refusal| refusal.number), Err(14));
}

#[test]
fn entries_in_short_forms_do_what_they_say() {
    let k = table("entries = (match (lens join (key [A-Z]+) (const [0-9]* \"\" \"0\") (copy \";\")))*");
    assert_eq!(k[0], 15);
    assert_eq!(get(&k, b"AB1;C22;", BUFFER), Ok(b"AB;C;".to_vec()));
    assert_eq!(put(&k, b"C;AB;", b"AB1;C22;", BUFFER), Ok(b"C22;AB1;".to_vec()));
    assert_eq!(put(&k, b"AB;AB;", b"AB1;C22;", BUFFER), Ok(b"AB1;AB0;".to_vec()));

    // One node used twice: an entry moves from the rest to the first place.
    let at_least_one = table("entry = match (lens join (key [A-Z]) (const [0-9] \"\" \"0\"))\nentries = entry+");
    assert_eq!(put(&at_least_one, b"BA", b"A1B2", BUFFER), Ok(b"B2A1".to_vec()));
    assert_eq!(get(&at_least_one, b"", BUFFER).map_err(|refusal| refusal.number), Err(13));
}

/// One range is a range. Several are one set, of the fewest pairs.
#[test]
fn sets() {
    same("a = [A-Za-z0-9._]", "a = set [.0-9A-Z_a-z]");
    same("a = [a-cd-fb]", "a = range 'a' 'f'");
    same("a = [-a]", "a = set [\\-a]");
    same("a = [a-]", "a = [-a]");
    same("a = [a\\-]", "a = [-a]");
    same("a = [+--]", "a = range '+' '-'");
    same("a = [--/]", "a = range '-' '/'");
    same("a = [-]", "a = range '-' '-'");
    same("a = [^-]", "a = set [\\x00-,.-\\xFF]");
    same("a = [^a-z]", "a = set [\\x00-`{-\\xFF]");
    same("a = [a^]", "a = set [\\^a]");
    same("a = [\\^a]", "a = [a^]");
    same("a = [ #\"'[(]", "a = set [ \"-#'-([]");
    same("a = [\\]\\[\\-\\^\\\\\\n\\r\\t\\\"\\'\\x80]", "a = [\\t-\\n\\r\"'\\-\\[-\\^\\x80]");
    same("a = [\\x00-\\xFF]", "a = range 0 255");
    same("a = [\t]", "a = range 9 9");
}

/// A set by its table, byte for byte: the sugar has the fewest pairs, lowest first, and
/// the kind has them as they are written.
#[test]
fn tables_of_sets() {
    let with_pool =
        |pool: &[u8]| [&[2, 0, pool.len() as u8, 5, 16, 0, 0, pool.len() as u8 / 2, 0, 0, 0], pool].concat();
    let sugar = table("a = copy [\\xD8-\\xDE\\xC0-\\xD6\\xC8]");
    assert_eq!(sugar, with_pool(&[0xC0, 0xD6, 0xD8, 0xDE]));
    let written = |set: &str| table(&format!("s = set {set}\na = copy s"));
    assert_eq!(written("[\\xD8-\\xDE\\xC0-\\xD6]"), with_pool(&[0xD8, 0xDE, 0xC0, 0xD6]));
    assert_eq!(written("[a-fc-zbb]"), with_pool(b"afczbbbb"), "overlapping and equal pairs stay");
    assert_eq!(written("[a-ab-b]"), with_pool(b"aabb"), "single bytes stay");
    assert_eq!(written("[a-z]"), with_pool(b"az"), "one pair is a set too");
    assert_eq!(written("[^b-\\xFF]"), with_pool(b"\x00a"), "of all others the ranges");
    assert_eq!(table("a = copy (set [zx])"), with_pool(b"zzxx"));
}

/// The pool holds the bytes of equal sets once, and finds them in words.
#[test]
fn pool_parts_of_sets() {
    assert_eq!(table("a = copy [A-Za-z]\nb = key [a-zA-Z]"), table("s = set [A-Za-z]\na = copy s\nb = key s"));
    let pool = |text: &str| {
        let table = table(text);
        table[3 + 4 * usize::from(table[0])..].to_vec()
    };
    assert_eq!(pool("s = [A-Za-z]\nt = [A-Za-z]\na = copy (join s t)"), b"AZaz");
    assert_eq!(pool("w = word \"xAZaz\"\na = copy (join w [A-Za-z])"), b"xAZaz");
    assert_eq!(pool("s = [A-Za-z]\na = copy (join s \"Za\")"), b"AZaz");
    same("pool \"azbdaz\"\ns = set [a-z] at 4\na = copy s", "pool \"azbdaz\"\ns = raw 5 0 4 1\na = copy s");
}

/// More than 32 ranges are several sets.
#[test]
fn sets_of_many_ranges() {
    let every_other = |count: usize| (0..count).map(|number| format!("\\x{:02X}", 2 * number)).collect::<String>();
    let nodes = |count: usize| table(&format!("a = copy [{}]", every_other(count)))[0];
    assert_eq!((nodes(1), nodes(2), nodes(32)), (2, 2, 2));
    assert_eq!((nodes(33), nodes(64), nodes(65), nodes(128)), (4, 4, 6, 8));
    let (first, rest) = (every_other(32), "\\x40");
    same(&format!("a = [{}]", every_other(33)), &format!("s = set [{first}]\nt = set [{rest}]\na = union s t"));
    let many = table(&format!("a = copy [{}]", every_other(128)));
    assert!(Reference.check(&many).is_ok());
    assert!(taken(&many).iter().enumerate().all(|(byte, &is_taken)| is_taken == (byte % 2 == 0)));
    // A set that is written as one is one.
    assert_eq!(table(&format!("s = set [{}]\na = copy s", every_other(33)))[0], 2);
}

/// Members at random: a set takes a byte if and only if one of them has it.
#[test]
fn sets_take_what_their_members_hold() {
    let mut random = Random::new(11);
    for _ in 0..3000 {
        let are_others = random.once_in(3);
        let mut held = [are_others; 256];
        let mut written = String::from(if are_others { "a = copy [^" } else { "a = copy [" });
        for _ in 0..random.between(1, 8) {
            let (one, other) = (random.byte(), random.byte());
            let (first, last) = (one.min(other), if random.once_in(2) { one.min(other) } else { one.max(other) });
            held[usize::from(first)..=usize::from(last)].fill(!are_others);
            written += &member(&mut random, first);
            if last > first || random.once_in(4) {
                written += &format!("-{}", member(&mut random, last));
            }
        }
        written.push(']');
        match assemble(written.as_bytes()) {
            Ok(assembled) => assert_eq!(taken(&assembled.table), held, "{written}"),
            // No byte is left.
            Err(mistake) => {
                assert!(!held.contains(&true) && mistake.message.contains("the set is empty"), "{written}: {mistake}")
            }
        }
    }
}

/// A byte of a set as it may be written.
fn member(random: &mut Random, byte: u8) -> String {
    match byte {
        b'\\' | b']' | b'-' | b'^' => format!("\\{}", char::from(byte)),
        b' '..=b'~' if random.once_in(2) => char::from(byte).to_string(),
        _ => format!("\\x{byte:02x}"),
    }
}

/// Which single bytes are sources.
fn taken(table: &[u8]) -> [bool; 256] {
    let mut taken = [false; 256];
    for byte in 0..=255 {
        taken[usize::from(byte)] = get(table, &[byte], BUFFER).is_ok();
    }
    taken
}

fn count(text: &str) -> usize {
    usize::from(table(text)[0])
}

#[test]
fn patterns_copies_consts_and_keys_are_shared() {
    // Texts, sets and what suffixes make.
    assert_eq!(count("a = [a-z]+\nb = copy [a-z]+"), 5, "the range and the repeat of a serve b, and a itself does not");
    assert_eq!(count("a = [a-z]+\nb = copy [a-z]*"), 4);
    assert_eq!(count("a = [a-z]*\nb = copy [0-9a-z]"), 4, "a set is one node");
    assert_eq!(count("a = [0-9a-z]*\nb = copy [a-z0-9]"), 3, "and it is shared");
    assert_eq!(count("a = \"x\"?\nb = copy (join \"x\"? \"x\"{0,2})"), 8);
    // Inner nodes of rows.
    assert_eq!(count("a = join \"x\" \"y\" \"z\"\nb = join \"w\" \"y\" \"z\""), 7);
    assert_eq!(count("a = join \"y\" \"z\"\nb = join \"w\" \"y\" \"z\""), 6);
    // Lenses over patterns.
    assert_eq!(count("a = lens join (copy \"x\") (const \"x\" \"\" \"x\") (copy \"x\")"), 6);
    assert_eq!(count("k = key \"x\"\na = lens union (key \"x\") (copy \"x\") (key \"x\")"), 6);
    assert_eq!(count("a = (copy \"x\")?\nb = lens join a (copy \"y\")?"), 9, "one copy of nothing");
}

#[test]
fn named_nodes_are_new() {
    assert_eq!(count("a = word \"x\"\nb = word \"x\"\nc = \"x\""), 3);
    assert_eq!(count("a = [a-z]\nb = [a-z]\nc = range 'a' 'z'\nd = copy a\ne = copy a"), 5);
    // What has a name serves where the name stands, and a word wherever its text does: the first of them.
    same("a = [a-z]\nc = copy [a-z]", "a = [a-z]\nb = [a-z]\nc = copy b");
    same("a = word \"x\"\nb = word \"x\"\nc = copy \"x\"", "a = word \"x\"\nb = word \"x\"\nc = copy a");
    same("pool \"xyx\"\na = word \"x\" at 2\nc = copy \"x\"", "pool \"xyx\"\na = word \"x\" at 2\nc = copy a");
}

#[test]
fn other_lenses_are_not_shared() {
    let parts = "x = copy \"x\"\ny = copy \"y\"\n";
    let before = count(parts);
    for (definition, nodes) in [
        ("z = lens union (lens join x y) (lens join x y)", 3),
        ("z = lens union (lens union x y) (lens union x y)", 3),
        ("z = lens join x* x*", 3),
        ("z = lens union (match x) (match x)", 3),
        ("a = lens join x x y\nz = lens join y x y", 4),
    ] {
        assert_eq!(count(&format!("{parts}{definition}")) - before, nodes, "{definition}");
    }
}

/// Two matches with one child share their entries. Children that are written
/// out twice are two, also if they are keys.
#[test]
fn entries_are_shared_only_by_name() {
    let ends = "left = copy \"<\"\nright = copy \">\"\nremark = const [0-9]* \"\" \"\"\n";
    let line = "(lens join (key [A-Z]) remark)";
    let apart = table(&format!("{ends}all = lens join (match {line})* left (match {line})*"));
    let together = table(&format!("{ends}line = {line}\nall = lens join (match line)* left (match line)*"));
    assert_eq!(put(&apart, b"B<A", b"A1<B2", BUFFER), Ok(b"B<A".to_vec()));
    assert_eq!(put(&together, b"B<A", b"A1<B2", BUFFER), Ok(b"B2<A1".to_vec()));
    let one_node = table(&format!("{ends}entries = (match {line})*\nall = lens join entries left entries"));
    assert_eq!(put(&one_node, b"B<A", b"A1<B2", BUFFER), Ok(b"B2<A1".to_vec()));

    let child = |table: &[u8], node: usize| table[3 + usize::from(table[0]) + 3 * node];
    for written in ["key \"x\"", "(copy \"x\"){1}", "const \"x\" \"\" \"x\"", "((key \"x\"))"] {
        let matches = table(&format!("a = {written}\nb = lens union (match ({written})) (match ({written}))"));
        let kinds = &matches[3..3 + usize::from(matches[0])];
        let found: Vec<u8> =
            kinds.iter().enumerate().filter(|(_, &kind)| kind == 22).map(|(node, _)| child(&matches, node)).collect();
        assert!(found.len() == 2 && found[0] != found[1], "{written}: {found:?}");
    }
}

/// Line, column and words of every node.
fn origins(text: &str) -> Vec<(usize, usize, String)> {
    let origins = assembled(text).origins;
    for origin in &origins {
        assert_eq!(origin.is_named, origin.words == origin.name, "{origin:?}");
    }
    origins.into_iter().map(|origin| (origin.line, origin.column, origin.words)).collect()
}

fn come_from(text: &str, wanted: &[(usize, usize, &str)]) {
    let wanted: Vec<(usize, usize, String)> = wanted.iter().map(|&(l, c, words)| (l, c, words.to_string())).collect();
    assert_eq!(origins(text), wanted, "{text}");
}

#[test]
fn origins_of_rows_and_texts() {
    come_from(
        "a = word \"a\"\nrow = join a \"b\"  \"c\"  # remark",
        &[(1, 5, "a"), (2, 14, "\"b\""), (2, 19, "\"c\""), (2, 14, "\"b\" \"c\""), (2, 7, "row")],
    );
    // The first origin of a shared node stays.
    come_from("a = copy \"x\"\nb = copy \"x\"", &[(1, 10, "\"x\""), (1, 5, "a"), (2, 5, "b")]);
}

#[test]
fn origins_of_short_forms() {
    come_from(
        "  name = key [A-Z]+",
        &[(1, 14, "[A-Z]"), (1, 14, "any number of [A-Z]"), (1, 14, "[A-Z]+"), (1, 10, "name")],
    );
    come_from("a = [a-z]+", &[(1, 5, "[a-z]"), (1, 5, "any number of [a-z]"), (1, 5, "a")]);
    come_from("a = [a-z]{3}", &[(1, 5, "[a-z]"), (1, 5, "2 of [a-z]"), (1, 5, "a")]);
    come_from(
        "a = [a-z]{2,}",
        &[(1, 5, "[a-z]"), (1, 5, "any number of [a-z]"), (1, 5, "1 or more of [a-z]"), (1, 5, "a")],
    );
    let options = ["[a-z]", "\"\"", "up to 1 of [a-z]", "1 to 2 of [a-z]", "up to 2 of [a-z]", "1 to 3 of [a-z]", "a"];
    come_from("a = [a-z]{2,4}", &options.map(|words| (1, 5, words)));
    come_from("a = (copy [a-z])*", &[(1, 11, "[a-z]"), (1, 6, "copy [a-z]"), (1, 5, "a")]);
    come_from("a = ((copy \"x\"))", &[(1, 12, "\"x\""), (1, 7, "a")]);
    come_from("a = [ab0]", &[(1, 5, "a")]);
    come_from("a = copy [ab0]", &[(1, 10, "[ab0]"), (1, 5, "a")]);
    come_from("a = copy (set [b0])", &[(1, 11, "set [b0]"), (1, 5, "a")]);
    come_from(
        "a = (copy \"x\") {0,1}",
        &[(1, 11, "\"x\""), (1, 6, "copy \"x\""), (1, 5, "\"\""), (1, 5, "copy \"\""), (1, 5, "a")],
    );
}

#[test]
fn words_over_several_lines() {
    come_from(
        "a = copy (join \t \"b  c\"  # remark\n\n  \"d\"?\n)",
        &[
            (1, 18, "\"b  c\""),
            (3, 3, "\"d\""),
            (3, 3, "\"\""),
            (3, 3, "\"d\"?"),
            (1, 11, "join \"b  c\" \"d\"?"),
            (1, 5, "a"),
        ],
    );
}

#[test]
fn long_words_are_cut() {
    let long = origins(&format!("a = copy \"{}\"", "x".repeat(60)));
    assert_eq!(long[0].2, format!("\"{}…", "x".repeat(39)));
    let exact = origins(&format!("a = copy \"{}\"", "x".repeat(38)));
    assert_eq!(exact[0].2, format!("\"{}\"", "x".repeat(38)));
    // Never in the middle of a letter.
    let letters = origins(&format!("a = copy \"{}\"", "ä".repeat(30)));
    assert_eq!(letters[0].2, format!("\"{}…", "ä".repeat(19)));
    let odd = assemble(b"a = copy \"\x1b\xff\t\"").expect("it has bytes").origins;
    assert_eq!(odd[0].words, "\"\\u{1b}\u{fffd}\\t\"");
}
