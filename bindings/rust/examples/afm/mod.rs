//! Import and export of a section of 65,535 bytes, beside the reference and
//! beside fontTools where it is there.

use std::time::Duration;

use noontrough::afm::{export_into, import_into, MAX_TEXT};
use noontrough::Answer;
use noontrough_reference::afm::{section_text, sheet_text, AfmCalls, Pair};
use noontrough_reference::generator::random::Random;
use noontrough_reference::Reference;

use crate::fonttools::FontTools;
use crate::{assert_gives, medians, timed, Medians, SEED};

/// Glyphs that stand in kerning pairs, by the names that fonts have for them.
const GLYPHS: &str = "A Aacute Acircumflex Adieresis Agrave Aring Atilde B C Ccedilla D E F G J K L Lslash N O Oacute \
    Odieresis Oslash P Q R S T Tcommaaccent U Uacute V W X Y Yacute Ydieresis Zcaron a aacute b c ccedilla \
    comma d e eacute f g hyphen i k l n o odieresis one p period q quotedblright quoteleft quoteright r s \
    semicolon space t u v w y";

/// The bytes of a line that many of these pairs have, so that one fills up what is left.
const USUAL_LINE: usize = 20;

struct Texts {
    section: Vec<u8>,
    sheet: Vec<u8>,
    pairs: usize,
}

/// Different pairs of these glyphs, as many as a section has room for.
fn texts() -> Texts {
    let random = &mut Random::new(SEED);
    let glyphs = || GLYPHS.split(' ');
    let mut names: Vec<[&str; 2]> = glyphs().flat_map(|left| glyphs().map(move |right| [left, right])).collect();
    random.shuffle(&mut names);
    // A start with a count of four digits, and an end.
    let mut room = MAX_TEXT - 33;
    let mut pairs = Vec::new();
    for [left, right] in names {
        let [left, right] = [left, right].map(|name| name.as_bytes().to_vec());
        let pair = Pair { left, right, value: random.between(0, 160) as i64 - 120 };
        let taken = sheet_text(std::slice::from_ref(&pair)).len() + "KPX ".len();
        if taken == room || taken + USUAL_LINE <= room {
            room -= taken;
            pairs.push(pair);
        }
    }
    let section = section_text(&pairs);
    assert_eq!(section.len(), MAX_TEXT);
    Texts { section, sheet: sheet_text(&pairs), pairs: pairs.len() }
}

pub fn bench() {
    let texts = texts();
    let Texts { section, sheet, pairs } = &texts;
    let sizes =
        format!("{pairs} pairs, a section of {} bytes and a sheet of {}, seed {SEED}", section.len(), sheet.len());
    heading(&format!("Import and export, {sizes}"), "Reference");
    let reads = |out: &mut [u8]| Reference.import(section, out).is_ok();
    let writes = |out: &mut [u8]| Reference.export(sheet, out).is_ok();
    row("import", section.len(), || engine_import(&texts), || reference(reads));
    row("export", section.len(), || engine_export(&texts), || reference(writes));
    match FontTools::start() {
        Ok(fonttools) => beside_fonttools(fonttools, &texts),
        Err(reason) => println!("\nfontTools is skipped: {reason}"),
    }
}

/// fontTools reads and writes files, and sorts the pairs that it writes.
fn beside_fonttools(mut fonttools: FontTools, texts: &Texts) {
    fonttools.load(&texts.section);
    fonttools.read();
    assert_eq!(fonttools.sheet(), texts.sheet, "fontTools reads the same pairs");
    heading(&format!("fontTools {}, the same section", fonttools.version), "fontTools");
    row("import, reading a file", texts.section.len(), || engine_import(texts), || fonttools.read());
    row("export, writing a file", texts.section.len(), || engine_export(texts), || fonttools.write());
}

fn heading(title: &str, other: &str) {
    println!(
        "\n{title}\n\n| Call | Engine | a byte of the section | {other} | Engine : {other} |\n|---|---|---|---|---|"
    );
}

fn row(name: &str, bytes: usize, engine: impl FnMut() -> Duration, other: impl FnMut() -> Duration) {
    let Medians { engine, other, ratio } = medians(engine, other);
    let a_byte = engine * 1e3 / bytes as f64;
    println!("| {name} | {:.3} ms | {a_byte:.2} ns | {:.3} ms | {ratio:.3} |", engine / 1e3, other / 1e3);
}

fn engine_import(texts: &Texts) -> Duration {
    engine(import_into, &texts.section, &texts.sheet)
}

fn engine_export(texts: &Texts) -> Duration {
    engine(export_into, &texts.sheet, &texts.section)
}

fn engine(call: impl FnOnce(&[u8], &mut [u8]) -> Answer, text: &[u8], expected: &[u8]) -> Duration {
    let mut out = [0; MAX_TEXT];
    let (answer, time) = timed(|| call(text, &mut out));
    assert_gives(answer, &out, expected);
    time
}

/// The time of a call of the reference, which is not to be refused.
fn reference(call: impl FnOnce(&mut [u8]) -> bool) -> Duration {
    let mut out = [0; MAX_TEXT];
    let (is_result, time) = timed(|| call(&mut out));
    assert!(is_result);
    time
}
