//! Seeded random programs, texts and calls.
//!
//! | Module | Draws |
//! |---|---|
//! | [`random`] | numbers, from a seed |
//! | [`draft`] | nothing: it writes tables node by node |
//! | [`programs`] | accepted programs of varied shape |
//! | [`unions`] | nested unions whose sheets overlap |
//! | [`sets`] | classes that are not one run, and programs around them |
//! | [`counted_arms`] | unions whose arms read one sheet as different entries |
//! | [`empties`] | programs with empty leaves |
//! | [`depths`] | programs nested deep, and texts in which the way is not forced |
//! | [`several_matches`] | programs with several matches in a part |
//! | [`long_entries`] | calls with old entries whose sheets are over 4,096 bytes, or whose keys come to much |
//! | [`many_empty`] | calls with up to 126 empty matches in a part |
//! | [`keys`] | calls with old entries whose keys are much alike |
//! | [`padded_names`] | programs whose key text may have spaces at its end |
//! | [`padded_entries`] | calls with old entries whose keys are long, and short without their trailing spaces |
//! | [`faults`] | programs refused with a wanted number |
//! | [`clashes`] | programs that clash, by texts of all lengths |
//! | [`texts`] | sources, sheets, edits, garbage |
//! | [`cases`] | whole calls, with buffers of every interesting size |
//! | [`afm`] | sections and sheets for import and export, of their form and nearly so |
//! | [`small`] | calls small enough to be evaluated from definitions |

pub mod afm;
pub mod cases;
pub mod clashes;
pub mod counted_arms;
pub mod depths;
pub mod draft;
pub mod empties;
pub mod faults;
pub mod keys;
pub mod long_entries;
pub mod many_empty;
pub mod padded_entries;
pub mod padded_names;
pub mod programs;
pub mod random;
pub mod sets;
pub mod several_matches;
pub mod small;
pub mod texts;
pub mod unions;
