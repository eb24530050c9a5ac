//! Lens programs as text.
//!
//! A program table is bytes, and nobody writes 65 bytes by hand. Here a program
//! is a text of definitions, each with a name:
//!
//! ```
//! let short = r#"
//!     label   = key [A-Z]+                # of the entry AB1; the sheet shows AB;
//!     remark  = const [0-9]* "" "0"
//!     entry   = match (lens join label remark (copy ";"))
//!     entries = entry*
//! "#;
//!
//! // The same nodes with one a line, in the same order.
//! let long = r#"
//!     capital  = range 'A' 'Z'
//!     capitals = repeat capital
//!     name     = join capital capitals
//!     label    = key name
//!     digit    = range '0' '9'
//!     digits   = repeat digit
//!     nothing  = word ""
//!     nought   = word "0"
//!     remark   = const digits nothing nought
//!     mark     = word ";"
//!     end      = copy mark
//!     rest     = lens join remark end
//!     line     = lens join label rest
//!     entry    = match line
//!     entries  = lens repeat entry
//! "#;
//! let table = |text: &str| noontrough_assembler::assemble(text.as_bytes()).unwrap().table;
//! assert_eq!(table(short), table(long));
//! ```
//!
//! The last definition is the whole program. A definition ends with its line,
//! unless a parenthesis is open: then it goes on in the next one. `#` begins a
//! comment.
//!
//! ```text
//! line       := name '=' expression | pool "text"
//! expression := kind operand*            word, range, join, union, repeat, set, copy, const, key,
//!                                        lens join, lens union, lens repeat, match, raw
//!             | operand
//! operand    := primary suffix*
//! primary    := name | "text" | [set] | ( expression )
//! suffix     := '*' | '+' | '?' | {n} | {n,m} | {n,}
//! ```
//!
//! A name at the beginning of an expression is a kind if it is one of their
//! words; all other names are those of definitions above. Which nodes a
//! definition makes is told in [`assembly`], what a set holds in `sets.rs`.
//!
//! [`assemble`] turns a text into the table's bytes, [`show`] prints the text of
//! a table, and assembling what was shown gives exactly the same bytes. It shows
//! one node a line and no short forms. Every table whose sizes are right can be
//! shown, also one that the engine refuses. [`too_large`] tells what makes a
//! node too large, for the engine's refusal 5.
//!
//! This is plain Rust and not part of the proved engine, since it is
//! convenience only: the engine checks the bytes of a program on every call,
//! whoever made them. For the same reason nothing is checked here that the
//! engine checks. The assembler turns down only what has no bytes: a line that
//! can't be read, a name that is not known, a table that would be too large for
//! its own sizes.
//!
//! | Module | Holds |
//! |---|---|
//! | [`place`] | lines and columns, and mistakes there |
//! | [`kinds`] | the kinds of nodes, their words and their operands |
//! | [`mod@line`] | the tokens of one line; quoting and escapes |
//! | [`sets`] | sets of bytes in brackets |
//! | `statements` | the lines of a definition, together |
//! | `syntax` | from tokens to a small tree |
//! | [`assembly`] | from the tree to nodes |
//! | `draft` | the nodes and the pool so far; which nodes are shared |
//! | `words` | what messages call a node |
//! | [`costs`] | what lines and nodes cost |
//! | [`display`] | from bytes to text |

pub mod assembly;
pub mod costs;
pub mod display;
mod draft;
pub mod kinds;
pub mod line;
pub mod place;
pub mod sets;
mod statements;
mod syntax;
mod words;

pub use assembly::{assemble, Assembled, Origin};
pub use costs::too_large;
pub use display::{show, Parts, WrongSizes};
pub use place::{Mistake, Place};
