//! Links the functions on rows, which `./staticlib bench_rows` writes.

#[path = "../rust/archive.rs"]
mod archive;

use std::path::Path;

/// The functions that the archive must have.
const FUNCTIONS: [&str; 4] = ["words_count", "words_next", "bytes_count", "bytes_next"];

fn main() {
    let root = std::env::var("CARGO_MANIFEST_DIR").expect("cargo sets it");
    let folder = Path::new(&root).join("../target/staticlib");
    let advice = "run `./staticlib bench_rows` in the repository's root";
    archive::link(&folder, "bench_rows", &FUNCTIONS, advice);
}
