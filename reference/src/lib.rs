//! A classifier for EL+ catalogues over plain sets, to compare other
//! classifiers with. It is simple rather than fast, and shares no code with
//! what it is compared to.
//!
//! - `catalogue`: the file format and the checks on it (questions 1 to 9)
//! - `rules`: expressions, inferences, role reach, occurrence
//! - `application`: finding the inferences that apply
//! - `rounds`: the sets of the papers, word for word, for small catalogues
//! - `expressions`: a set of pairs and links, indexed by partition
//! - `saturation`: the least set, by a worklist
//! - `change`: over-deletion, repair and addition
//! - `store`: the bytes of a store
//! - `calls`: the public calls, each with its checks in order
//! - `exports`: those that C and Rust call
//! - `listing`: the text of the listing program
//! - `programs`, `fixed`, `rows`, `edits`, `running`: the text of the check
//!   programs
//! - `checksum`: the checksum that they print
//! - `examples`: built-in catalogues
//! - `inputs`, `edit_cases`, `limit_cases`, `edit_script`, `running_cases`: inputs
//!   of programs
//! - `random`: random numbers and small catalogues
//! - `expected`: expected outputs of programs

pub mod application;
pub mod calls;
pub mod catalogue;
pub mod change;
pub mod checksum;
pub mod edit_cases;
mod edit_script;
pub mod edits;
pub mod examples;
pub mod expected;
pub mod exports;
pub mod expressions;
pub mod fixed;
pub mod inputs;
mod limit_cases;
pub mod listing;
pub mod programs;
pub mod random;
pub mod rounds;
pub mod rows;
pub mod rules;
pub mod running;
pub mod running_cases;
pub mod saturation;
pub mod store;
