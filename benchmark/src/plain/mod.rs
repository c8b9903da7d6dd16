//! The calls in plain Rust, to compare times with. Nothing is proved here.
//!
//! - `classify`: classification by whole bit rows, as the library does it
//! - `indexed`: the same by indices of what each new bit gives
//! - `reading`: lookup, listing, row and write, with their questions

pub mod classify;
pub mod indexed;
mod parts;
pub mod reading;

pub use classify::classify;
