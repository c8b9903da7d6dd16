//! The library's calls beside others, to time them.
//!
//! - `catalogues`: what is measured: files, and families made at a size
//! - `plain`: classification and the calls that read a store, in plain Rust
//! - `rows`: counting and searching bit rows, by words and byte by byte
//! - `statistics`, `timing`: medians and growth; calls timed in turn
//! - `measures`: what each call costs
//! - `processes`, `whole`, `memory`: whole processes, their time and memory
//! - `results`, `page`, `machine`: all that `./bench` measures, and what it writes
//! - `scratch`: temporary files

pub mod catalogues;
pub mod machine;
pub mod measures;
pub mod memory;
pub mod page;
pub mod plain;
pub mod processes;
pub mod results;
pub mod rows;
pub mod scratch;
pub mod statistics;
pub mod timing;
pub mod whole;
