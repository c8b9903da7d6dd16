//! Measures the library against plain Rust, and rows by words against rows byte
//! by byte, both in one run.
//!
//!     times                     classify of the files in ../data, edits, reading, rows
//!     times classify [FILE..]   classify of these files, or of those in ../data
//!     times edits               changes by one list and by two, beside classify
//!     times reading             lookup, listing, row and write: nanoseconds
//!     times rows                rows of 64 bytes by words and byte by byte: nanoseconds
//!     times instructions        all of these: instructions, counted by callgrind
//!     times instructions rows   those of the rows alone

mod classify;
mod counting;
mod edits;
mod reading;
mod rows;

use std::process::ExitCode;

/// How many averages there are of a short call.
const ROUNDS: usize = 100;

fn main() -> ExitCode {
    let arguments: Vec<String> = std::env::args().skip(1).collect();
    let words: Vec<&str> = arguments.iter().map(String::as_str).collect();
    match words[..] {
        [] => {
            classify::time(&[]);
            println!();
            edits::times();
            println!();
            reading::times();
            rows::times();
        }
        ["classify", ref files @ ..] => classify::time(files),
        ["edits"] => edits::times(),
        ["reading"] => reading::times(),
        ["rows"] => rows::times(),
        ["instructions"] => {
            classify::instructions();
            println!();
            edits::instructions();
            println!();
            reading::instructions();
            rows::instructions();
        }
        ["instructions", "rows"] => rows::instructions(),
        // What callgrind runs.
        ["read", ref case @ ..] => reading::repeat(case),
        ["edit", kind, name, which] => edits::once(kind, name, which),
        ["once", side, file] => classify::once(side, file),
        ["row", row, task, way] => rows::once([row, task, way]),
        _ => {
            eprintln!("times [classify [FILE..] | edits | reading | rows | instructions [rows]]");
            return ExitCode::from(2);
        }
    }
    ExitCode::SUCCESS
}
