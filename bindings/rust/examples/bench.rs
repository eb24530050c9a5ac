//! Times the engine beside the reference, and beside Augeas and fontTools where they
//! are there; and the engine alone on the slowest calls known.
//!
//! `cargo run --release --example bench`, in the folder of this package.

mod afm;
#[path = "../tests/fonttools/mod.rs"]
mod fonttools;
mod slow_calls;

use std::collections::HashSet;
use std::io::{BufRead, BufReader, Write};
use std::path::{Path, PathBuf};
use std::process::{Child, ChildStdout, Command, Stdio};
use std::time::{Duration, Instant};

use noontrough::{Answer, ClashAnswer, MAX_CLASH, MAX_TEXT, STACK_BYTES};
use noontrough_reference::generator::draft::{Draft, NodeNumber};
use noontrough_reference::generator::random::Random;
use noontrough_reference::{Calls, Reference, Refusal, Shown};
use slow_calls::{Call, Slow};

const SEED: u64 = 1;
const ENTRIES: usize = 256;
/// Repeats that fill a dense program up to 96 nodes.
const DENSE_MOST: usize = 78;
/// The slowest tables known for check: dense joins and repeats in 96 nodes, and tables that need many turns, found by hill
/// climbing.
const SLOW: [(&str, &[u8]); 4] = [
    ("d126", include_bytes!("tables/d126.table")),
    ("g4", include_bytes!("tables/g4.table")),
    ("lr1", include_bytes!("tables/lr1.table")),
    ("slowA", include_bytes!("tables/slowA.table")),
];
/// The tables with the longest texts known, and the one whose clash takes longest.
///
/// - `longest`: parts `b (a^63 [ab]? a^63)*`. Of two readings one passes the optional byte in each round and the other leaves it
///   out, so that they fall apart by one place a round. A cut needs one of them at a round's end and the other in its middle, 63
///   rounds later; and then they need as many again until both are at an end.
/// - `longest_join`: the same rounds, of 63 and 62 letters, and behind them `b [ab]*`.
/// - `longest_union`: `(a^63)*` and `a (a^64)*`, whose first common text has 63 times 63 letters.
/// - `slow_clash`: all but the last nodes are as in `g4`, for a slow check. The root repeats `bd (bd | D*)`, where D has 124 positions
///   that can all follow each other and read every letter: so a search meets nearly all pairs of positions, each from all others.
const CLASHES: [(&str, &[u8]); 4] = [
    ("longest", include_bytes!("tables/longest.table")),
    ("longest_join", include_bytes!("tables/longest_join.table")),
    ("longest_union", include_bytes!("tables/longest_union.table")),
    ("slow_clash", include_bytes!("tables/slow_clash.table")),
];
/// Calls that one of two makes before it is the other's turn, and turns at most.
const CALLS: usize = 10;
const TURNS: usize = 20;
/// No put or create should take longer than this, in milliseconds.
const LONG: f64 = 50.0;

fn main() {
    let bench = std::thread::Builder::new().stack_size(STACK_BYTES + (8 << 20)).spawn(bench);
    bench.expect("a thread can be started").join().expect("the benchmark ends");
}

fn bench() {
    let (table, texts) = (program_k(), Texts::of(&entries(&mut Random::new(SEED), ENTRIES)));
    entries_of_k(&table, &texts);
    checks();
    clashes(&table);
    by_size(&table);
    slow();
    match Augeas::start(&texts.source, &texts.reversed_source) {
        Ok(augeas) => beside_augeas(augeas, &table, &texts),
        Err(reason) => println!("\nAugeas is skipped: {reason}"),
    }
    afm::bench();
}

/// The same entries as source, as sheet, the other way round, and made anew.
struct Texts {
    source: Vec<u8>,
    sheet: Vec<u8>,
    reversed_source: Vec<u8>,
    reversed_sheet: Vec<u8>,
    created: Vec<u8>,
}

impl Texts {
    fn of(entries: &[Entry]) -> Texts {
        let reversed: Vec<_> = entries.iter().rev().cloned().collect();
        Texts {
            source: source_of(entries),
            sheet: sheet_of(entries),
            reversed_source: source_of(&reversed),
            reversed_sheet: sheet_of(&reversed),
            created: created_of(entries),
        }
    }
}

fn entries_of_k(table: &[u8], texts: &Texts) {
    let Texts { source, sheet, reversed_source, reversed_sheet, created } = texts;
    let sizes = format!("{ENTRIES} entries, {} bytes of source, {} of sheet, seed {SEED}", source.len(), sheet.len());
    heading(&format!("Program K, {sizes}"), "Reference");
    check(table, "check");
    get(table, source, sheet, "get");
    put(table, sheet, source, source, "put, unedited");
    put(table, reversed_sheet, source, reversed_source, "put, reversed");
    put(table, sheet, b"", created, "put on nothing, all made");
    create(table, sheet, created, "create");
}

fn checks() {
    heading("Check by positions", "Reference");
    for positions in [32, 64, 128] {
        check(&program_with_positions(positions), &format!("check, {positions} positions"));
    }

    heading("Check of dense programs of 128 positions a side", "Reference");
    for repeats in [1, DENSE_MOST] {
        let table = dense_program(repeats);
        check(&table, &format!("check, {} nodes", table[0]));
    }

    heading("Check of the slowest tables known", "Reference");
    for (name, table) in SLOW {
        check(table, &format!("check, {name}"));
    }
}

fn clashes(table: &[u8]) {
    heading("Clash", "Reference");
    clash(table, "clash of K, which has none");
    clash(&abcd(), "clash, abcd");
    for (name, table) in CLASHES {
        let length = clash_of(table).map_or(0, |shown| shown.length);
        clash(table, &format!("clash, {name}, {length} bytes"));
    }
}

/// What the reference shows of a table.
fn clash_of(table: &[u8]) -> Option<Shown> {
    Reference.clash(table, &mut [0; MAX_CLASH]).expect("the program is accepted or clashes")
}

fn by_size(table: &[u8]) {
    heading("Get by length of the source, program K", "Reference");
    for bytes in [512, 1024, 2048, 4096] {
        let (source, sheet) = texts_of_length(bytes);
        get(table, &source, &sheet, &format!("get, {bytes} bytes"));
    }

    heading("By positions, 2,048 bytes of source", "Reference");
    for positions in [32, 64, 128] {
        let table = program_with_positions(positions);
        let source = source_with_fields(positions / 4);
        let sheet: Vec<u8> = source.iter().copied().filter(|byte| !byte.is_ascii_digit()).collect();
        get(&table, &source, &sheet, &format!("get, {positions} positions"));
        put(&table, &sheet, &source, &source, &format!("put, {positions} positions"));
        create(&table, &sheet, &sheet, &format!("create, {positions} positions"));
    }
}

fn beside_augeas(mut augeas: Augeas, table: &[u8], texts: &Texts) {
    let Texts { source, sheet, reversed_source, reversed_sheet, .. } = texts;
    heading("Augeas, program K, the same source", "Augeas");
    row("get", || engine_get(table, source, sheet), || augeas.call(b'g'));
    row("put, unedited", || engine_put(table, sheet, source, source), || augeas.call(b'p'));
    row("put, reversed", || engine_put(table, reversed_sheet, source, reversed_source), || augeas.call(b'r'));
}

/// Times the slowest calls, and says which of those that write took long.
fn slow() {
    println!("\nThe slowest calls known, the engine alone, the least of {CALLS} calls or fewer\n\n| Call | Engine |\n|---|---|");
    let mut long = Vec::new();
    for slow in slow_calls::all() {
        let time = milliseconds(|| engine_slow(&slow));
        println!("| {} | {time:.2} ms |", slow.name);
        if !slow.is_get() && time > LONG {
            long.push(slow.name);
        }
    }
    match long.len() {
        0 => println!("\nNo put or create took over {LONG} ms."),
        count => println!("\n{count} took over {LONG} ms: {}.", long.join("; ")),
    }
}

/// The least of a few calls, since a busy machine makes long ones longer.
fn milliseconds(mut call: impl FnMut() -> Duration) -> f64 {
    call();
    let (begun, mut times) = (Instant::now(), Vec::new());
    while times.is_empty() || (times.len() < CALLS && begun.elapsed() < Duration::from_secs(1)) {
        times.push(call().as_secs_f64() * 1e3);
    }
    times.into_iter().fold(f64::INFINITY, f64::min)
}

fn engine_slow(slow: &Slow) -> Duration {
    match &slow.call {
        Call::Get { source } => engine_get(&slow.table, source, &slow.gives),
        Call::Put { sheet, source } => engine_put(&slow.table, sheet, source, &slow.gives),
        Call::Create { sheet } => engine_create(&slow.table, sheet, &slow.gives),
    }
}

fn heading(title: &str, other: &str) {
    println!("\n{title}\n\n| Call | Engine | {other} | Engine : {other} |\n|---|---|---|---|");
}

fn row(name: &str, engine: impl FnMut() -> Duration, other: impl FnMut() -> Duration) {
    let Medians { engine, other, ratio } = medians(engine, other);
    println!("| {name} | {engine:.1} µs | {other:.1} µs | {ratio:.2} |");
}

/// The median call of each in microseconds, and the median of the ratios of their turns.
struct Medians {
    engine: f64,
    other: f64,
    ratio: f64,
}

/// Times the engine and another in turn, so that a slow moment of the machine falls on both.
fn medians(mut engine: impl FnMut() -> Duration, mut other: impl FnMut() -> Duration) -> Medians {
    engine();
    other();
    let begun = Instant::now();
    let (mut engines, mut others, mut ratios) = (Vec::new(), Vec::new(), Vec::new());
    while ratios.is_empty() || (ratios.len() < TURNS && begun.elapsed() < Duration::from_secs(4)) {
        let [mine, theirs] = [turn(&mut engine), turn(&mut other)];
        ratios.push(mine.iter().sum::<f64>() / theirs.iter().sum::<f64>());
        engines.extend(mine);
        others.extend(theirs);
    }
    let [engine, other, ratio] = [engines, others, ratios].map(median);
    Medians { engine, other, ratio }
}

/// What each call of a turn takes, in microseconds.
fn turn(call: &mut impl FnMut() -> Duration) -> Vec<f64> {
    (0..CALLS).map(|_| call().as_secs_f64() * 1e6).collect()
}

fn median(mut numbers: Vec<f64>) -> f64 {
    numbers.sort_by(f64::total_cmp);
    numbers[numbers.len() / 2]
}

/// What a call gives, and how long it takes.
fn timed<T>(call: impl FnOnce() -> T) -> (T, Duration) {
    let start = Instant::now();
    let given = call();
    (given, start.elapsed())
}

fn assert_gives(answer: Answer, out: &[u8], expected: &[u8]) {
    assert_eq!(answer, Answer::Result { length: expected.len() });
    assert_eq!(&out[..expected.len()], expected);
}

fn engine_get(table: &[u8], source: &[u8], expected: &[u8]) -> Duration {
    let mut out = [0; MAX_TEXT];
    let (answer, time) = timed(|| noontrough::get(table, source, &mut out));
    assert_gives(answer, &out, expected);
    time
}

fn engine_put(table: &[u8], sheet: &[u8], source: &[u8], expected: &[u8]) -> Duration {
    let mut out = [0; MAX_TEXT];
    let (answer, time) = timed(|| noontrough::put(table, sheet, source, &mut out));
    assert_gives(answer.into(), &out, expected);
    time
}

fn engine_create(table: &[u8], sheet: &[u8], expected: &[u8]) -> Duration {
    let mut out = [0; MAX_TEXT];
    let (answer, time) = timed(|| noontrough::create(table, sheet, &mut out));
    assert_gives(answer, &out, expected);
    time
}

fn engine_check(table: &[u8]) -> Duration {
    let (answer, time) = timed(|| noontrough::check(table));
    assert_eq!(answer, Answer::Result { length: usize::from(table[0]) });
    time
}

fn engine_clash(table: &[u8], expected: Option<Shown>) -> Duration {
    let mut out = [0; MAX_CLASH];
    let (answer, time) = timed(|| noontrough::clash(table, &mut out));
    assert!(!matches!(answer, ClashAnswer::Refusal { .. }));
    assert_eq!(answer.clash().map(|clash| clash.text.len()), expected.map(|shown| shown.length));
    time
}

fn reference_clash(table: &[u8], expected: Option<Shown>) -> Duration {
    let mut out = [0; MAX_CLASH];
    let (answer, time) = timed(|| Reference.clash(table, &mut out));
    assert_eq!(answer, Ok(expected));
    time
}

/// The time of a call of the reference, which is not to be refused.
fn reference(call: impl FnOnce(&mut [u8]) -> Result<usize, Refusal>) -> Duration {
    let mut out = [0; MAX_TEXT];
    let (answer, time) = timed(|| call(&mut out));
    assert!(answer.is_ok());
    time
}

fn check(table: &[u8], name: &str) {
    row(name, || engine_check(table), || reference(|_| Reference.check(table)));
}

fn clash(table: &[u8], name: &str) {
    let expected = clash_of(table);
    row(name, || engine_clash(table, expected), || reference_clash(table, expected));
}

fn get(table: &[u8], source: &[u8], sheet: &[u8], name: &str) {
    row(name, || engine_get(table, source, sheet), || reference(|out| Reference.get(table, source, out)));
}

fn put(table: &[u8], sheet: &[u8], source: &[u8], expected: &[u8], name: &str) {
    row(
        name,
        || engine_put(table, sheet, source, expected),
        || reference(|out| Reference.put(table, sheet, source, out).map(|put| put.length)),
    );
}

fn create(table: &[u8], sheet: &[u8], expected: &[u8], name: &str) {
    row(name, || engine_create(table, sheet, expected), || reference(|out| Reference.create(table, sheet, out)));
}

/// Entries of capitals, then digits that the sheet hides, then a semicolon.
fn program_k() -> Vec<u8> {
    let mut draft = Draft::new();
    let line = field(&mut draft, b"0");
    let entry = draft.matched(line);
    draft.lens_repeat(entry);
    draft.table()
}

/// A name, digits that the sheet hides, and a semicolon.
fn field(draft: &mut Draft, default: &[u8]) -> NodeNumber {
    let capital = draft.range(b'A', b'Z');
    let name = draft.pattern_some(capital);
    let digit = draft.range(b'0', b'9');
    let digits = draft.pattern_repeat(digit);
    let row = [draft.key(name), draft.delete(digits, default), draft.copy_word(b";")];
    draft.lens_row(&row)
}

/// A join of a, ab, abc and bcd, cd, d.
fn abcd() -> Vec<u8> {
    let mut draft = Draft::new();
    let halves = [[&b"a"[..], b"ab", b"abc"], [b"bcd", b"cd", b"d"]].map(|words| {
        let words = words.map(|word| draft.word(word));
        let any = words.into_iter().reduce(|any, word| draft.pattern_union(any, word)).expect("three words");
        draft.copy(any)
    });
    draft.lens_join(halves[0], halves[1]);
    draft.table()
}

/// Repeats over one lens with 127 positions that may all follow each other and share every byte, and an end. Accepted, since
/// the end tells the parts.
fn dense_program(repeats: usize) -> Vec<u8> {
    let mut draft = Draft::new();
    let mut doubled = vec![draft.range(b'a', b'y')];
    for _ in 0..6 {
        let last = doubled[doubled.len() - 1];
        doubled.push(draft.pattern_union(last, last));
    }
    let all = doubled[1..].iter().fold(doubled[0], |sum, &more| draft.pattern_union(sum, more));
    let many = draft.pattern_repeat(all);
    let row = [draft.copy(many), draft.copy_word(b"z")];
    let part = draft.lens_row(&row);
    for _ in 0..repeats {
        draft.lens_repeat(part);
    }
    draft.table()
}

/// Repeated entries with so many positions in the source, four for each field.
fn program_with_positions(positions: usize) -> Vec<u8> {
    let mut draft = Draft::new();
    let field = field(&mut draft, b"");
    let line = draft.lens_row(&vec![field; positions / 4]);
    let entry = draft.matched(line);
    draft.lens_repeat(entry);
    draft.table()
}

/// Entries of so many fields, 2,048 bytes or a little less, each field with a name of its own.
fn source_with_fields(fields: usize) -> Vec<u8> {
    let names = entries(&mut Random::new(SEED), MAX_TEXT);
    let rows: Vec<_> = names.chunks(fields).map(source_of).collect();
    let mut source = Vec::new();
    for row in rows {
        if source.len() + row.len() > 2048 {
            break;
        }
        source.extend(row);
    }
    source
}

/// A name and its digits.
type Entry = (String, String);

/// Entries whose names all differ: 2 to 8 capitals, 0 to 5 digits.
fn entries(random: &mut Random, count: usize) -> Vec<Entry> {
    let (mut names, mut entries) = (HashSet::new(), Vec::new());
    while entries.len() < count {
        let name: String = (0..random.between(2, 8)).map(|_| (b'A' + random.below(26) as u8) as char).collect();
        let digits: String = (0..random.below(6)).map(|_| (b'0' + random.below(10) as u8) as char).collect();
        if names.insert(name.clone()) {
            entries.push((name, digits));
        }
    }
    entries
}

fn source_of(entries: &[Entry]) -> Vec<u8> {
    entries.iter().flat_map(|(name, digits)| format!("{name}{digits};").into_bytes()).collect()
}

fn sheet_of(entries: &[Entry]) -> Vec<u8> {
    entries.iter().flat_map(|(name, _)| format!("{name};").into_bytes()).collect()
}

/// The source of new entries, with the default for their digits.
fn created_of(entries: &[Entry]) -> Vec<u8> {
    entries.iter().flat_map(|(name, _)| format!("{name}0;").into_bytes()).collect()
}

/// A source of exactly so many bytes, and its sheet: the last entry's digits fill it up.
fn texts_of_length(bytes: usize) -> (Vec<u8>, Vec<u8>) {
    let mut entries = entries(&mut Random::new(SEED), MAX_TEXT);
    while source_of(&entries).len() > bytes {
        entries.pop();
    }
    let missing = bytes - source_of(&entries).len();
    entries.last_mut().expect("there is an entry").1.push_str(&"7".repeat(missing));
    (source_of(&entries), sheet_of(&entries))
}

/// `augeas/bench.c`, built and started: it makes a call for each letter that it is sent.
struct Augeas {
    process: Child,
    times: BufReader<ChildStdout>,
    program: PathBuf,
}

impl Augeas {
    fn start(source: &[u8], reversed: &[u8]) -> Result<Augeas, String> {
        let folder = Path::new(env!("CARGO_MANIFEST_DIR")).join("examples/augeas");
        let program = std::env::temp_dir().join(format!("noontrough-augeas-bench-{}", std::process::id()));
        let options = Command::new("pkg-config").args(["--cflags", "--libs", "augeas"]).output();
        let options = options.map_err(|error| format!("no pkg-config ({error})"))?;
        if !options.status.success() {
            return Err("libaugeas-dev is not installed".to_string());
        }
        let options = String::from_utf8_lossy(&options.stdout).into_owned();
        let mut compiler = Command::new("cc");
        compiler.arg("-O2").arg("-o").arg(&program).arg(folder.join("bench.c")).args(options.split_whitespace());
        let built = compiler.output().map_err(|error| format!("no C compiler ({error})"))?;
        if !built.status.success() {
            return Err("examples/augeas/bench.c does not build".to_string());
        }
        let [source, reversed] = [source, reversed].map(|text| String::from_utf8_lossy(text).into_owned());
        let mut started = Command::new(&program);
        started.arg(&folder).args([&source, &reversed]).stdin(Stdio::piped()).stdout(Stdio::piped());
        let mut process = started.spawn().map_err(|error| error.to_string())?;
        let times = BufReader::new(process.stdout.take().expect("its output is a pipe"));
        Ok(Augeas { process, times, program })
    }

    fn call(&mut self, letter: u8) -> Duration {
        let input = self.process.stdin.as_mut().expect("its input is a pipe");
        input.write_all(&[letter]).and_then(|()| input.flush()).expect("Augeas takes a letter");
        let mut line = String::new();
        self.times.read_line(&mut line).expect("Augeas answers");
        Duration::from_nanos(line.trim().parse().expect("Augeas gives a time"))
    }
}

impl Drop for Augeas {
    fn drop(&mut self) {
        drop(self.process.stdin.take());
        let _ = self.process.wait();
        let _ = std::fs::remove_file(&self.program);
    }
}
