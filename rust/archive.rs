//! Linking an archive from a build script.

use std::path::Path;

/// Links an archive that has these functions, or says how it is made.
pub fn link(folder: &Path, name: &str, functions: &[&str], advice: &str) {
    let path = folder.join(format!("lib{name}.a"));
    let shown = path.display();
    println!("cargo::rerun-if-changed={shown}");
    let Ok(bytes) = std::fs::read(&path) else {
        println!("cargo::error={shown} is missing: {advice}");
        return;
    };
    for function in functions {
        let named = |part: &[u8]| part == function.as_bytes();
        if !bytes.windows(function.len()).any(named) {
            println!("cargo::error={shown} has no {function}: {advice}");
        }
    }
    println!("cargo::rustc-link-search=native={}", folder.display());
    println!("cargo::rustc-link-lib=static={name}");
}
