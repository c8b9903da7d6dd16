//! What the calls cost.
//!
//! - `classify`: beside plain Rust
//! - `edits`: changes, beside classify
//! - `reading`: the calls that read a store, beside plain Rust

pub mod classify;
pub mod edits;
pub mod reading;
