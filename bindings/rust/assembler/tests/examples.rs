//! The files of each example folder fit together, by the reference.

mod common;

use common::*;
use noontrough_assembler::{assemble, show};

struct Folder {
    table: Vec<u8>,
    source: Vec<u8>,
    sheet: Vec<u8>,
    edited: Vec<u8>,
    result: Vec<u8>,
    created: Vec<u8>,
    text: Vec<u8>,
}

fn folder(name: &str) -> Folder {
    let file = |file: &str| read(&in_repository("examples").join(name).join(file));
    Folder {
        table: file("program.table"),
        source: file("source"),
        sheet: file("sheet"),
        edited: file("edited"),
        result: file("result"),
        created: file("created"),
        text: file("program.lens"),
    }
}

fn fits_together(name: &str) {
    let f = folder(name);
    assert_eq!(assemble(&f.text).expect("the program assembles").table, f.table, "{name}: program.table");
    let shown = show(&f.table).expect("the table can be shown");
    assert_eq!(assemble(shown.as_bytes()).expect("what was shown assembles").table, f.table, "{name}: shown");

    assert_eq!(get(&f.table, &f.source, BUFFER).as_ref(), Ok(&f.sheet), "{name}: sheet");
    assert_eq!(put(&f.table, &f.edited, &f.source, BUFFER).as_ref(), Ok(&f.result), "{name}: result");
    assert_eq!(create(&f.table, &f.edited, BUFFER).as_ref(), Ok(&f.created), "{name}: created");

    assert_eq!(put(&f.table, &f.sheet, &f.source, BUFFER).as_ref(), Ok(&f.source), "{name}: unedited");
    assert_eq!(get(&f.table, &f.result, BUFFER).as_ref(), Ok(&f.edited), "{name}: sheet of the result");
    assert_eq!(get(&f.table, &f.created, BUFFER).as_ref(), Ok(&f.edited), "{name}: sheet of what was created");
}

#[test]
fn k() {
    fits_together("k");
}

#[test]
fn composers() {
    fits_together("composers");
}

#[test]
fn kerning() {
    fits_together("kerning");
}

#[test]
fn k_is_the_program_of_the_paper() {
    let mut table = vec![15, 0, 2];
    table.extend([1, 4, 2, 1, 4, 0, 0, 0, 18, 17, 16, 19, 19, 22, 21]);
    let operands: [[u8; 3]; 15] = [
        [65, 90, 0],
        [0, 0, 0],
        [0, 1, 0],
        [48, 57, 0],
        [3, 0, 0],
        [0, 0, 0],
        [0, 0, 1],
        [0, 1, 1],
        [2, 0, 0],
        [4, 5, 6],
        [7, 0, 0],
        [9, 10, 0],
        [8, 11, 0],
        [12, 0, 0],
        [13, 0, 0],
    ];
    table.extend(operands.iter().flatten());
    table.extend(b"0;");
    assert_eq!(folder("k").table, table);
}

/// What the report prints for the composers, with keys.
#[test]
fn composers_of_the_report() {
    let f = folder("composers");
    let edited_and_added = b"Jean Sibelius, Finnish\nAaron Copland, American\nBenjamin Britten, British\n\
        Alexandre Tansman, Polish";
    let with_years = b"Jean Sibelius, 1865-1957, Finnish\nAaron Copland, 1910-1990, American\n\
        Benjamin Britten, 1913-1976, British\nAlexandre Tansman, 0000-0000, Polish";
    assert_eq!(put(&f.table, edited_and_added, &f.source, BUFFER), Ok(with_years.to_vec()));

    let reordered = b"Jean Sibelius, Finnish\nBenjamin Britten, English\nAaron Copland, American";
    let kept = b"Jean Sibelius, 1865-1957, Finnish\nBenjamin Britten, 1913-1976, English\n\
        Aaron Copland, 1910-1990, American";
    assert_eq!(put(&f.table, reordered, &f.source, BUFFER), Ok(kept.to_vec()));
    assert_eq!(get(&f.table, b"", BUFFER), Ok(Vec::new()));
}
