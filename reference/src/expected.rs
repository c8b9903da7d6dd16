//! Expected outputs of programs. A program crate NAME is run on
//! `crates/NAME/stdin` (nothing where there is no such file) or on the files of
//! `crates/NAME/data` in turn, and must write what `crates/NAME/stdout` holds.

use crate::edits;
use crate::fixed;
use crate::inputs;
use crate::listing;
use crate::programs;
use crate::rows;
use crate::running;
use std::fs;
use std::io;
use std::path::Path;

/// Makes what a program writes from a file that it reads.
pub type Output = fn(&[u8]) -> String;

/// A program's standard input.
const STDIN: &[&str] = &["stdin"];

/// The program crates, one line each.
pub const PROGRAMS: &[(&str, &[&str], Output)] = &[
    // crate, the files that it reads, and what it prints for each
    ("listing", STDIN, listing::text),
    ("gate_listings", inputs::LISTED, listing::text),
    ("gate_rows", STDIN, rows::text),
    ("gate_catalogue", STDIN, programs::gate_catalogue),
    ("gate_structure", STDIN, fixed::gate_structure),
    ("gate_store", STDIN, fixed::gate_store),
    ("gate_classification", STDIN, programs::gate_classification),
    ("gate_lookups", STDIN, programs::gate_lookups),
    ("gate_calls", STDIN, programs::gate_calls),
    ("gate_edits", STDIN, edits::text),
    ("gate_running", STDIN, running::text),
];

/// Writes the input of every program crate below `root` whose input is made
/// here; one line of report for each.
pub fn regenerate_inputs(root: &Path) -> io::Result<Vec<String>> {
    let make = |&(name, file, input): &(&str, &str, inputs::Input)| {
        let bytes = input(&root.join("data"))?;
        let state = replace(&root.join("crates").join(name), file, &bytes)?;
        Ok(format!("{name} {file} {state}"))
    };
    inputs::PROGRAMS.iter().map(make).collect()
}

/// Writes the expected output of every known program crate below `root`; one
/// line of report for each.
pub fn regenerate(root: &Path) -> io::Result<Vec<String>> {
    let make = |&(name, files, output): &(&str, &[&str], Output)| {
        let folder = root.join("crates").join(name);
        let mut text = String::new();
        for file in files {
            text += &output(&read(&folder.join(file))?);
        }
        let state = replace(&folder, "stdout", text.as_bytes())?;
        Ok(format!("{name} {state}"))
    };
    PROGRAMS.iter().map(make).collect()
}

/// A file's bytes; none where there is no such file.
fn read(file: &Path) -> io::Result<Vec<u8>> {
    match fs::read(file) {
        Err(error) if error.kind() == io::ErrorKind::NotFound => Ok(vec![]),
        other => other,
    }
}

/// Writes a file of a crate, if it has other bytes.
fn replace(folder: &Path, file: &str, bytes: &[u8]) -> io::Result<&'static str> {
    if !folder.is_dir() {
        return Ok("absent");
    }
    let file = folder.join(file);
    if fs::read(&file).is_ok_and(|present| present == bytes) {
        return Ok("unchanged");
    }
    fs::write(file, bytes)?;
    Ok("written")
}
