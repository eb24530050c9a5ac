//! What each command does.

use noontrough::{Answer, ClashAnswer, MAX_CLASH, MAX_TEXT};
use noontrough_assembler::show;
use noontrough_reference::table::Table;

use crate::afm;
use crate::arguments::{Call, Command};
use crate::clashes;
use crate::descriptors::OUTPUT;
use crate::failure::Failure;
use crate::files::{self, Place};
use crate::program::{self, Program};
use crate::refusals::{told, wrong_sizes, Text, Texts};

/// What is to be written, and what is to be told once it is.
pub struct Done {
    pub bytes: Vec<u8>,
    pub told: Option<String>,
}

pub fn run(call: &Call) -> Result<Done, Failure> {
    spare_inputs(call)?;
    let program = || program::load(&call.files[0]);
    let bytes = match call.command {
        Command::Check => check(&program()?),
        Command::Get => get(&program()?, &call.files[1]),
        Command::Put => return put(&program()?, &call.files[1], &call.files[2]),
        Command::Create => create(&program()?, &call.files[1]),
        Command::Clash => return clash(&program()?),
        Command::AfmImport => afm::import(&text(&call.files[0])?),
        Command::AfmExport => afm::export(&text(&call.files[0])?),
        Command::Assemble => assemble(program()?),
        Command::Show => shown(&program()?),
        Command::Where => origin(&program()?, call.node.unwrap_or(0)),
    };
    bytes.map(|bytes| Done { bytes, told: None })
}

/// The result must not take the place of a file that it was made from: a sheet in
/// the place of its source would lose what it hides. Only a new source may take
/// that of the old one, and not by the shell, which empties it first.
fn spare_inputs(call: &Call) -> Result<(), Failure> {
    let is_renamed = call.output.descriptor(OUTPUT).is_none();
    let may_be_replaced = |index: usize| call.command == Command::Put && index == 2 && is_renamed;
    let lost = call
        .files
        .iter()
        .enumerate()
        .find(|&(index, input)| !may_be_replaced(index) && files::is_same_file(&call.output, input));
    let Some((_, input)) = lost else { return Ok(()) };
    let name = input.name();
    Err(Failure::Trouble(if is_renamed {
        format!("noontrough: the result would replace {name}, which it is made from")
    } else {
        format!(
            "noontrough: the output goes into {name}, which the result is made from; \
             a shell's '>' empties a file first, so use -o and its name"
        )
    }))
}

fn check(program: &Program) -> Result<Vec<u8>, Failure> {
    let count = length(program, &Texts::default(), noontrough::check(&program.table))?;
    // The engine has said that the program is right, so the reference reads it too.
    let table = Table::read(&program.table).ok();
    let positions = table.and_then(|table| table.measures.last().copied());
    let sides = positions.map_or_else(String::new, |m| format!(" {} {}", m.source_positions, m.sheet_positions));
    Ok(format!("ok {count}{sides}\n").into_bytes())
}

fn get(program: &Program, source: &Place) -> Result<Vec<u8>, Failure> {
    let texts = Texts { source: Some(text(source)?), sheet: None };
    given(program, &texts, |out| noontrough::get(&program.table, texts.source(), out))
}

fn put(program: &Program, sheet: &Place, source: &Place) -> Result<Done, Failure> {
    let texts = Texts { sheet: Some(text(sheet)?), source: Some(text(source)?) };
    let mut tally = None;
    let bytes = given(program, &texts, |out| {
        let answer = noontrough::put(&program.table, texts.sheet(), texts.source(), out);
        tally = answer.tally();
        answer.into()
    })?;
    Ok(Done { bytes, told: tally.map(|tally| tally.to_string()) })
}

fn create(program: &Program, sheet: &Place) -> Result<Vec<u8>, Failure> {
    let texts = Texts { sheet: Some(text(sheet)?), source: None };
    given(program, &texts, |out| noontrough::create(&program.table, texts.sheet(), out))
}

fn clash(program: &Program) -> Result<Done, Failure> {
    let mut out = vec![0; MAX_CLASH];
    match noontrough::clash(&program.table, &mut out) {
        ClashAnswer::Clash(clash) => {
            Ok(Done { bytes: clash.text.to_vec(), told: Some(clashes::told(program, &clash)) })
        }
        ClashAnswer::NoClash => {
            let name = program.place.name();
            Err(Failure::Refused(format!("{name}: there is no clash; the engine takes this program")))
        }
        ClashAnswer::Refusal { number, node } => Err(Failure::Refused(told(program, &Texts::default(), number, node))),
    }
}

fn text(place: &Place) -> Result<Text, Failure> {
    Ok(Text { name: place.name(), bytes: files::read(place)? })
}

/// The text that a call gives.
fn given(program: &Program, texts: &Texts, call: impl FnOnce(&mut [u8]) -> Answer) -> Result<Vec<u8>, Failure> {
    let mut out = vec![0; MAX_TEXT];
    let length = length(program, texts, call(&mut out))?;
    out.truncate(length);
    Ok(out)
}

fn length(program: &Program, texts: &Texts, answer: Answer) -> Result<usize, Failure> {
    match answer {
        Answer::Result { length } => Ok(length),
        Answer::Refusal { number, node } => Err(Failure::Refused(told(program, texts, number, node))),
    }
}

fn assemble(program: Program) -> Result<Vec<u8>, Failure> {
    if program.is_text() {
        return Ok(program.table);
    }
    let no_text = || format!("{}: this is a table; 'show' writes its text", program.place.name());
    Err(Failure::Refused(wrong_sizes(&program).unwrap_or_else(no_text)))
}

fn shown(program: &Program) -> Result<Vec<u8>, Failure> {
    let text = show(&program.table);
    text.map(String::into_bytes).map_err(|_| Failure::Refused(wrong_sizes(program).unwrap_or_default()))
}

fn origin(program: &Program, node: usize) -> Result<Vec<u8>, Failure> {
    if let Some(wrong) = wrong_sizes(program) {
        return Err(Failure::Refused(wrong));
    }
    let origins = program.assembled.as_ref().map_or(&[][..], |assembled| &assembled.origins);
    let Some(origin) = origins.get(node) else {
        let last = origins.len().saturating_sub(1);
        let message = format!("{}: there is no node {node}; they are 0 to {last}", program.place.name());
        return Err(Failure::Refused(message));
    };
    if !program.is_text() {
        let shown = show(&program.table).unwrap_or_default();
        let line = shown.lines().nth(origin.line - 1).unwrap_or_default();
        return Ok(format!("{}: node {node} is '{line}'\n", program.place.name()).into_bytes());
    }
    let beside =
        if origin.is_named { String::new() } else { format!(", which '{}' makes beside its own", origin.name) };
    Ok(format!("{}: node {node} is {}{beside}\n", program.place_of(node), program.name_of(node)).into_bytes())
}
