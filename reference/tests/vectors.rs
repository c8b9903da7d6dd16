//! Runs every step of every vector file, and compares the answers, the buffers
//! and the listing program's text. `support/vectors.rs` says which folder is read.

#[path = "support/vectors.rs"]
mod vectors;

use reference::listing;
use std::path::Path;
use vectors::{Calls, Vector, files, run_folder};

struct Reference;

impl Calls for Reference {}

#[test]
fn every_step_of_every_file() {
    run_folder(|vector: &Vector| {
        if let Some(text) = vector.program() {
            assert_eq!(listing::text(&vector.catalogue), text, "listing program");
        }
        vector.run(&Reference, |_| {})
    });
}

#[test]
#[should_panic(expected = "the vectors' folder")]
fn a_missing_folder_fails() {
    files(Path::new("no such folder"));
}

#[test]
#[should_panic(expected = "no vectors in the folder")]
fn a_folder_without_vectors_fails() {
    files(&Path::new(env!("CARGO_MANIFEST_DIR")).join("src"));
}
