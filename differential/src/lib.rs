//! The library against the reference: the same calls on equal buffers, step by step, every byte
//! compared.
//!
//! - `case`: calls, buffers, and a case: a catalogue and a list of calls
//! - `side`: who makes the calls: the reference, the exported functions, the typed calls
//! - `run`: a case made by the reference and by others, up to the first difference
//! - `shrink`, `report`: the shortest list of calls that differs, and what is printed of it
//! - `tally`: how many calls were made and how they were answered
//! - `catalogues`, `damages`, `lists`, `cases`: cases by their seed
//! - `batch`: seeds in a row, until so many calls are made
//! - `calls`: the crate's calls with the reference's arguments and results
//! - `memcheck`, `lent`: random calls in heap blocks of exact length, to be run under valgrind

#![deny(unsafe_code)]

pub mod batch;
pub mod calls;
pub mod case;
pub mod cases;
pub mod catalogues;
pub mod damages;
pub mod lent;
pub mod lists;
#[allow(unsafe_code)]
pub mod memcheck;
pub mod report;
pub mod run;
pub mod shrink;
pub mod side;
pub mod tally;
