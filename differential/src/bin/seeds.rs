//! Compares the library with the reference on cases made at random.
//!
//!     seeds calls COUNT [FROM [THREADS]]   seeds from FROM on, until COUNT calls are made
//!     seeds show SEED                      the case of a seed, and whether it differs

use differential::batch::{Goal, run_batch, run_seed};
use differential::cases::case;
use differential::report::case_text;
use differential::side::LIBRARY;
use differential::tally::Tally;
use std::io::{ErrorKind, Write};
use std::process::ExitCode;
use std::time::Instant;

const USAGE: &str = "usage: seeds calls COUNT [FROM [THREADS]] | seeds show SEED";

fn main() -> ExitCode {
    let arguments: Vec<String> = std::env::args().skip(1).collect();
    let words: Vec<&str> = arguments.iter().map(String::as_str).collect();
    let numbers: Vec<Option<u64>> = words.iter().skip(1).map(|word| word.parse().ok()).collect();
    match (words.first(), &numbers[..]) {
        (Some(&"show"), [Some(seed)]) => show(*seed),
        (Some(&"calls"), [Some(count)]) => calls(*count, 0, 1),
        (Some(&"calls"), [Some(count), Some(from)]) => calls(*count, *from, 1),
        (Some(&"calls"), [Some(count), Some(from), Some(threads @ 1..)]) => {
            calls(*count, *from, *threads)
        }
        _ => {
            eprintln!("{USAGE}");
            ExitCode::from(2)
        }
    }
}

/// Prints a text. That its reader ended, as `head` does, is no fault.
fn print(text: &str) {
    match std::io::stdout().write_all(text.as_bytes()) {
        Err(error) if error.kind() == ErrorKind::BrokenPipe => {}
        printed => printed.expect("standard output"),
    }
}

/// Prints a case, and then the difference, if there is one.
fn show(seed: u64) -> ExitCode {
    print(&case_text(&case(seed)));
    let mut tally = Tally::default();
    let done = run_seed(seed, &LIBRARY, &mut tally);
    finish(done.map(|()| tally))
}

fn calls(count: u64, from: u64, threads: u64) -> ExitCode {
    let begin = Instant::now();
    let goal = Goal::Calls(count as usize);
    let code = finish(run_batch(&LIBRARY, from, goal, threads as usize));
    print(&format!("{} s\n", begin.elapsed().as_secs()));
    code
}

fn finish(done: Result<Tally, Box<differential::report::Report>>) -> ExitCode {
    match done {
        Ok(tally) => {
            print(&format!("{tally}no difference\n"));
            ExitCode::SUCCESS
        }
        Err(report) => {
            print(&format!("{report}\n"));
            ExitCode::FAILURE
        }
    }
}
