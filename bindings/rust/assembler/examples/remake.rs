//! Works out the files of the example folders again: `program.table`, `sheet`,
//! `result` and `created`, from `program.lens`, `source` and `edited`.
//!
//! The reference implementation does the calls. Look at the changes before they
//! are kept: the tests only say that the files fit together.

use std::path::Path;

use noontrough_assembler::assemble;
use noontrough_reference::{Answer, Calls, Reference};

fn main() {
    let folders = Path::new(env!("CARGO_MANIFEST_DIR")).join("../../../examples");
    for name in ["k", "composers", "kerning"] {
        let folder = folders.join(name);
        let read =
            |file: &str| std::fs::read(folder.join(file)).unwrap_or_else(|error| panic!("{name}/{file}: {error}"));
        let write =
            |file: &str, bytes: &[u8]| std::fs::write(folder.join(file), bytes).expect("the folder can be written");

        let assembled = assemble(&read("program.lens")).unwrap_or_else(|mistake| panic!("{name}: {mistake}"));
        let (table, source, edited) = (assembled.table, read("source"), read("edited"));
        let sheet = given(name, |out| Reference.get(&table, &source, out));
        let result = given(name, |out| Reference.put(&table, &edited, &source, out).map(|put| put.length));
        let created = given(name, |out| Reference.create(&table, &edited, out));
        write("program.table", &table);
        write("sheet", &sheet);
        write("result", &result);
        write("created", &created);
    }
}

/// The text that a call gives.
fn given(name: &str, call: impl FnOnce(&mut [u8]) -> Answer) -> Vec<u8> {
    let mut out = vec![0; 4096];
    let length = call(&mut out).unwrap_or_else(|refusal| panic!("{name}: refused {} {}", refusal.number, refusal.node));
    out.truncate(length);
    out
}
