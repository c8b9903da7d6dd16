//! Memory: what a process has resident that classifies once, and the stack that
//! the calls take.

use crate::measures::classify::SIDES;
use crate::processes;
use crate::results::{Costs, Measured};
use crate::scratch::Scratch;
use reference::catalogue::MAX_CONCEPTS;
use std::path::Path;
use std::process::Command;

/// The word for a process that reads the file and does not classify.
pub const NOBODY: &str = "nobody";

/// The most bytes that a process had resident: that reads the catalogue and no
/// more, and that classifies it once by each side that was timed. And the bytes lent.
pub struct Peaks {
    pub family: &'static str,
    pub lent: usize,
    pub reading: f64,
    pub by_side: [Option<f64>; 3],
}

/// The most bytes resident of this program as it classifies a file once.
fn peak(side: &str, file: &str) -> f64 {
    let this = std::env::current_exe().expect("this program");
    let ran = processes::run(&this.display().to_string(), &["once", side, file]);
    let ran = ran.unwrap_or_else(|| panic!("{side}: no process"));
    assert_eq!(ran.status, 0, "{side}: exit status");
    ran.peak
}

/// The families that were measured at the largest size, each with the file of its
/// catalogue there and what that cost.
fn largest<'a>(
    families: &'a [Measured],
    scratch: &Scratch,
) -> Vec<(&'a Costs, &'static str, String)> {
    let file = |measured: &'a Measured| {
        let family = measured.family;
        let costs = measured.at(MAX_CONCEPTS)?;
        let bytes = family.named(MAX_CONCEPTS).bytes;
        Some((costs, family.name, scratch.file(family.name, &bytes)))
    };
    families.iter().filter_map(file).collect()
}

/// Of each family that was measured at the largest size.
pub fn peaks(families: &[Measured]) -> Vec<Peaks> {
    let scratch = Scratch::new();
    let of = |(costs, family, file): (&Costs, &'static str, String)| Peaks {
        family,
        lent: costs.lent,
        reading: peak(NOBODY, &file),
        by_side: SIDES.map(|(side, name, _)| {
            let timed = costs.classify.of(side).is_some();
            timed.then(|| peak(name, &file))
        }),
    };
    largest(families, &scratch).into_iter().map(of).collect()
}

/// The most bytes of stack that each call took on any of these families, or on the
/// catalogue with the deepest parts: by `c/stack.c`.
pub fn stacks(families: &[Measured]) -> Vec<(String, usize)> {
    let scratch = Scratch::new();
    let files = largest(families, &scratch)
        .into_iter()
        .map(|(_, _, file)| file);
    let program = Path::new(env!("CARGO_MANIFEST_DIR")).join("../target/stack");
    let output = Command::new(program)
        .args(files)
        .output()
        .expect("target/stack runs");
    assert!(output.status.success(), "target/stack ends with 0");
    let text = String::from_utf8(output.stdout).expect("names and numbers");
    let line = |line: &str| {
        let (call, bytes) = line.split_once(' ').expect("a name and a number");
        (call.to_string(), bytes.parse().expect("a number of bytes"))
    };
    text.lines().map(line).collect()
}
