//! Random calls in heap blocks of exactly the lengths lent, to be run under valgrind:
//!
//!     valgrind --quiet --error-exitcode=9 lent trials COUNT SECONDS
//!     valgrind --quiet --error-exitcode=9 lent fault read|write|undefined
//!
//! The first makes COUNT calls, or as many as it can in SECONDS, a tenth at the least. The second
//! makes one that valgrind must report: with a catalogue or a work space that is lent one byte
//! longer than its block, or a lookup in a store that is undefined.

use differential::lent::Trial;
use differential::memcheck;
use differential::tally::Tally;
use girvotal::exported::{check, classify, lookup};
use reference::calls::{classified, sizes};
use reference::examples;
use std::process::ExitCode;
use std::time::Instant;

fn main() -> ExitCode {
    let arguments: Vec<String> = std::env::args().skip(1).collect();
    let words: Vec<&str> = arguments.iter().map(String::as_str).collect();
    let number = |word: &str| word.parse().ok();
    let done = match words[..] {
        _ if !memcheck::running() => Err("to be run under valgrind".to_string()),
        ["trials", count, seconds] => match (number(count), number(seconds)) {
            (Some(count), Some(seconds)) => trials(count, seconds),
            _ => Err("two numbers are asked for".to_string()),
        },
        ["fault", which] => fault(which),
        _ => Err("lent trials COUNT SECONDS | lent fault read|write|undefined".to_string()),
    };
    match done {
        Ok(text) => {
            print!("{text}");
            ExitCode::SUCCESS
        }
        Err(text) => {
            eprintln!("lent: {text}");
            ExitCode::FAILURE
        }
    }
}

/// Calls on a large catalogue, and then on small ones by their seed.
fn trials(count: u64, seconds: u64) -> Result<String, String> {
    let begin = Instant::now();
    let tally = &mut Tally::default();
    for trial in Trial::large() {
        let name = trial.call.name();
        let returned = trial.make(tally)?;
        if returned != 0 {
            return Err(format!("{name} of 512 concepts is refused by {returned}"));
        }
    }
    for seed in 0..count {
        if begin.elapsed().as_secs() >= seconds {
            if seed < count / 10 {
                return Err(format!("only {seed} of {count} calls in {seconds} seconds"));
            }
            break;
        }
        let made = Trial::new(seed).make(tally);
        made.map_err(|what| format!("seed {seed}: {what}"))?;
    }
    Ok(format!("{} s, {tally}", begin.elapsed().as_secs()))
}

/// A call that valgrind must report.
fn fault(which: &str) -> Result<String, String> {
    let bytes = examples::w1().bytes();
    let sizes = sizes(&bytes).expect("an accepted catalogue");
    let mut answer = [0; 4];
    match which {
        "read" => {
            let mut short = bytes[..bytes.len() - 1].to_vec().into_boxed_slice();
            check(memcheck::one_more(&mut short), &mut answer);
        }
        "write" => {
            let mut store = vec![0; sizes.store];
            let mut short = vec![0; sizes.work - 1].into_boxed_slice();
            let work = memcheck::one_more(&mut short);
            classify(&bytes, &mut store, work, &mut answer);
        }
        "undefined" => {
            let (_, mut store) = classified(&bytes).expect("an accepted catalogue");
            memcheck::make_undefined(&mut store);
            lookup(&bytes, 0, 3, &store, &mut answer);
        }
        _ => return Err(format!("no fault is called {which}")),
    }
    Ok(format!("{} errors\n", memcheck::errors()))
}
