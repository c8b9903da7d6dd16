//! The command: lists, checks and classifies catalogues, and regenerates
//! expected outputs. An answer, also a refusal, ends with status 0.

use reference::catalogue::{Catalogue, Refusal};
use reference::checksum::fnv1a;
use reference::{calls, examples, expected, listing};
use std::io::{self, Read, Write};
use std::path::Path;
use std::process::ExitCode;

const USAGE: &str = "usage:
  reference list FILE        what the listing program prints
  reference check FILE       accepted, or refused with number and record
  reference classify FILE    pairs, links and the store's checksum
  reference expected [ROOT]  write crates/NAME/stdout of known programs
  reference inputs [ROOT]    write crates/NAME/stdin or data of some of them
  reference catalogue NAME   a built-in catalogue's bytes
FILE may be - for standard input. Catalogues:";

fn main() -> ExitCode {
    let arguments: Vec<String> = std::env::args().skip(1).collect();
    let words: Vec<&str> = arguments.iter().map(String::as_str).collect();
    let done = match words[..] {
        ["list", file] => input(file).map(|bytes| listing::text(&bytes).into_bytes()),
        ["check", file] => input(file).map(|bytes| check(&bytes).into_bytes()),
        ["classify", file] => input(file).map(|bytes| classify(&bytes).into_bytes()),
        ["expected"] => expected::regenerate(Path::new(".")).map(report),
        ["expected", root] => expected::regenerate(Path::new(root)).map(report),
        ["inputs"] => expected::regenerate_inputs(Path::new(".")).map(report),
        ["inputs", root] => expected::regenerate_inputs(Path::new(root)).map(report),
        ["catalogue", name] => example(name),
        _ => Err(io::Error::new(io::ErrorKind::InvalidInput, usage())),
    };
    match done.and_then(|output| io::stdout().write_all(&output)) {
        Ok(()) => ExitCode::SUCCESS,
        Err(error) => {
            eprintln!("{error}");
            ExitCode::from(2)
        }
    }
}

fn usage() -> String {
    let names = examples::EXAMPLES
        .iter()
        .map(|(name, _)| format!(" {name}"));
    USAGE.to_string() + &names.collect::<String>()
}

fn input(file: &str) -> io::Result<Vec<u8>> {
    let mut bytes = vec![];
    if file == "-" {
        io::stdin().read_to_end(&mut bytes)?;
    } else {
        bytes = std::fs::read(file)?;
    }
    Ok(bytes)
}

fn refused(refusal: Refusal) -> String {
    format!("refused {} {}\n", refusal.number, refusal.record)
}

fn check(bytes: &[u8]) -> String {
    match Catalogue::read(bytes) {
        Ok(_) => "accepted\n".to_string(),
        Err(refusal) => refused(refusal),
    }
}

fn classify(bytes: &[u8]) -> String {
    match calls::classified(bytes) {
        Ok((counts, store)) => {
            let checksum = fnv1a(&store);
            format!(
                "pairs {} links {} checksum {checksum}\n",
                counts.pairs, counts.links
            )
        }
        Err(refusal) => refused(refusal),
    }
}

fn report(lines: Vec<String>) -> Vec<u8> {
    let ended = lines.iter().map(|line| format!("{line}\n"));
    ended.collect::<String>().into_bytes()
}

fn example(name: &str) -> io::Result<Vec<u8>> {
    match examples::named(name) {
        Some(catalogue) => Ok(catalogue.bytes()),
        None => Err(io::Error::new(io::ErrorKind::NotFound, usage())),
    }
}
