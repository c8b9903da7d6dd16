//! Links the archive of the exported functions: `libgirvotal.a` in the folder that
//! `GIRVOTAL_LIB_DIR` names, or the one that `./staticlib exports` writes.

mod archive;

use std::path::Path;

/// The functions that the archive must have, of a table of calls.
macro_rules! calls {
    ($($(#[$doc:meta])* $name:ident($($parameters:tt)*);)*) => {
        const FUNCTIONS: &[&str] = &[$(concat!("girvotal_", stringify!($name))),*];
    };
}

include!("src/table.rs");

fn main() {
    println!("cargo::rerun-if-env-changed=GIRVOTAL_LIB_DIR");
    let root = std::env::var_os("CARGO_MANIFEST_DIR").expect("cargo sets it");
    let root = Path::new(&root);
    let (folder, name, advice) = match std::env::var_os("GIRVOTAL_LIB_DIR") {
        Some(folder) => (
            root.join(folder),
            "girvotal",
            "GIRVOTAL_LIB_DIR names its folder",
        ),
        None => (
            root.join("../target/staticlib"),
            "exports",
            "run `./staticlib exports` in the repository's root",
        ),
    };
    archive::link(&folder, name, FUNCTIONS, advice);
}
