//! Programs of examples/ are written in short forms: at most half the lines of the same with a node a line
//! (`data/`), and the same calls.

mod common;

use common::*;
use noontrough_assembler::assemble;
use noontrough_reference::{Calls, Reference};

/// Lines that hold more than a comment.
fn lines_that_say_something(text: &[u8]) -> usize {
    let text = String::from_utf8(text.to_vec()).expect("the program is UTF-8");
    text.lines().filter(|line| !line.trim().is_empty() && !line.starts_with('#')).count()
}

fn does_the_same(name: &str) {
    let file = |file: &str| read(&in_repository("examples").join(name).join(file));
    let data = in_repository("bindings/rust/assembler/tests/data");
    let (short, long) = (file("program.lens"), read(&data.join(format!("{name}.lens"))));
    assert!(2 * lines_that_say_something(&short) <= lines_that_say_something(&long), "{name}");

    let table = assemble(&long).unwrap_or_else(|mistake| panic!("{name}: {mistake}")).table;
    assert!(Reference.check(&table).is_ok(), "{name}: {:?}", Reference.check(&table));
    let nodes = |table: &[u8]| usize::from(table[0]);
    assert!(nodes(&file("program.table")) <= nodes(&table), "{name} has {} nodes written out", nodes(&table));

    let (source, sheet, edited) = (file("source"), file("sheet"), file("edited"));
    assert_eq!(get(&table, &source, BUFFER), Ok(sheet.clone()), "{name}");
    assert_eq!(put(&table, &edited, &source, BUFFER), Ok(file("result")), "{name}");
    assert_eq!(put(&table, &sheet, &source, BUFFER), Ok(source.clone()), "{name}");
    assert_eq!(create(&table, &edited, BUFFER), Ok(file("created")), "{name}");
}

#[test]
fn composers() {
    does_the_same("composers");
}

#[test]
fn kerning() {
    does_the_same("kerning");
}
