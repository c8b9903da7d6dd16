//! The text language: catalogues as UTF-8 text, one statement a line.
//!
//! ```text
//! line = ["kind" NAME {"," NAME} | "role" NAME {"," NAME} | "let" NAME "=" expr
//!      | ROLE ["then" ROLE] "<" ROLE | expr ("<" | "=") expr] ["#" ..]
//! expr = term {"and" term}    term = KIND | LET | "any" | ROLE "some" term | "(" expr ")"
//! ```
//!
//! A name is a letter and then letters, digits, `-` and `_`; or any characters but control ones, in
//! quotes, with `\"` and `\\`. Kinds, roles and lets share one set of names, each declared once and
//! before its use. `and` groups to the left, and `some` binds tighter.
//!
//! Records are numbered as first met, parts first. Composites are equal if they are the same with
//! every `let` written out; one that is written out is the lowest record equal to it, and `let`
//! makes a new record. `=` is two axioms, and an axiom or role axiom said twice counts once.
//!
//! - [`compile()`]: text to catalogue, [`compile_split`]: with right sides split; [`print()`]: catalogue to text; [`owl()`]: catalogue to OWL
//! - [`Reader`]: what stands on a command line, read by the same parser, and its records
//! - [`used`], [`repeated`], [`splittable`]: what a text could do without
//! - [`extended`], [`entered`]: records and kinds that are added

mod compile;
mod draft;
mod expression;
mod faults;
mod lexer;
mod names;
mod nearest;
mod owl;
mod parser;
mod print;
mod resolve;
mod scope;
mod split;
mod statement;
mod uses;

pub use compile::{Compiled, compile, compile_split, repeated, split};
pub use expression::Expression;
pub use faults::{Failure, Fault};
pub use names::{Names, is_name, quoted};
pub use nearest::nearest;
pub use owl::owl;
pub use print::{Line, print, statements};
pub use resolve::{Extended, Reader, entered, extended, in_force, written};
pub use split::splittable;
pub use uses::{used, used_roles};
