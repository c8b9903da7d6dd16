//! Measures all calls on all catalogues, and writes docs/BENCHMARKS.md's measured
//! part and docs/benchmarks.svg.
//!
//!     bench [quick] [--print]

use benchmark::catalogues;
use benchmark::measures::classify::{self, SIDES};
use benchmark::memory::NOBODY;
use benchmark::page::{self, calls, tables};
use benchmark::processes;
use benchmark::results::{Budgets, Results};
use std::path::Path;
use std::process::ExitCode;

const USAGE: &str = "bench [quick] [--print]";

/// Measures, and writes or prints.
fn run(budgets: Budgets, print: bool) -> Result<(), String> {
    let results = Results::measure(budgets, &|next| eprintln!("{next}"));
    let measured = tables::measured(&results);
    if print {
        println!("{measured}");
        return Ok(());
    }
    let docs = Path::new(env!("CARGO_MANIFEST_DIR")).join("../docs");
    let document = docs.join("BENCHMARKS.md");
    let said = |error| format!("{}: {error}", document.display());
    let text = std::fs::read_to_string(&document).map_err(said)?;
    let text = page::replaced(&text, &measured).ok_or("the two lines around the measured part")?;
    std::fs::write(&document, text).map_err(said)?;
    std::fs::write(docs.join("benchmarks.svg"), calls::plotted(&results)).map_err(said)
}

/// Reads a file, and classifies it once by a side; by nobody, only reads it.
fn once(name: &str, file: &str) {
    let bytes = catalogues::at(Path::new(file)).bytes;
    match SIDES.iter().find(|(_, side, _)| *side == name) {
        Some(&(side, ..)) => classify::once(side, &bytes),
        None => assert_eq!(name, NOBODY, "who classifies"),
    }
}

fn main() -> ExitCode {
    let arguments: Vec<String> = std::env::args().skip(1).collect();
    let words: Vec<&str> = arguments.iter().map(String::as_str).collect();
    let result = match words[..] {
        [] => run(Budgets::FULL, false),
        ["--print"] => run(Budgets::FULL, true),
        ["quick"] => run(Budgets::QUICK, false),
        ["quick", "--print"] => run(Budgets::QUICK, true),
        // What the benchmark starts.
        ["once", name, file] => {
            once(name, file);
            Ok(())
        }
        ["process", program, ref arguments @ ..] => {
            processes::measure(program, arguments).map_err(|error| error.to_string())
        }
        _ => Err(format!("usage: {USAGE}")),
    };
    match result {
        Ok(()) => ExitCode::SUCCESS,
        Err(said) => {
            eprintln!("bench: {said}");
            ExitCode::FAILURE
        }
    }
}
