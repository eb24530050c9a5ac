//! An independent implementation of lens programs over sheets and sources.
//!
//! It exists to be compared with the sheet engine. Both follow the same papers
//! ("document 01" and the requests of "document 02") and share no code and, where
//! there is a choice, no method: this one uses Thompson automata with free moves,
//! plain vectors and whole results in memory, and prefers the obvious way to the
//! fast one. It is still exact for texts of any length: whether a text has two cuts
//! is decided on pairs of automaton states, never by trying texts.
//!
//! Reading order:
//!
//! | Module | Holds |
//! |---|---|
//! | [`answer`] | what a call answers, and the numbers of the refusals |
//! | [`class`] | sets of bytes: what may stand at a position |
//! | [`table`] | bytes to nodes, the limits, the first round (1 to 5) |
//! | [`automaton`] | one automaton for each node and side; belonging to a language |
//! | [`ambiguity`] | two cuts of one text, and texts of two languages |
//! | [`program`] | the second round (6 to 11); the only cut of a text |
//! | [`lens`] | get, key, book, put and create |
//! | [`clash`] | the text that shows a refusal 7 to 11 |
//! | [`reach`] | how far a text that does not fit could be read |
//! | [`calls`] | the calls and their order of refusals (12 to 17) |
//! | [`afm`] | the calls without a program, import and export (12, 16, 18, 19) |
//! | [`generator`] | seeded random programs, texts and calls |
//! | [`walk`] | the parts of a text by the nodes that read them |
//! | [`census`] | what the programs and calls of a comparison are like |
//! | [`trial`] | any implementation compared with this one, call by call |
//! | [`afm_trial`] | the same for import and export, and their two claims |
//! | [`demand3`] | the clauses of demand 3, tried on any implementation |
//! | [`tallies`] | what must hold of a put's tally, tried on any implementation |

pub mod afm;
pub mod afm_trial;
pub mod ambiguity;
pub mod answer;
pub mod automaton;
pub mod calls;
pub mod census;
pub mod clash;
pub mod class;
pub mod demand3;
pub mod generator;
pub mod lens;
pub mod program;
pub mod reach;
pub mod table;
pub mod tallies;
pub mod trial;
pub mod walk;

pub use answer::{Answer, ClashAnswer, Put, PutAnswer, Refusal, Shown, Tally};
pub use calls::{Calls, Reference, Remembering};
pub use program::Program;
