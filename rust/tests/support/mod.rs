//! The catalogues in `data`.

use std::path::Path;

/// The file of a name.
pub fn file(name: &str) -> Vec<u8> {
    let path = Path::new(env!("CARGO_MANIFEST_DIR")).join("../data");
    let path = path.join(name).with_extension("bin");
    std::fs::read(&path).unwrap_or_else(|error| panic!("{}: {error}", path.display()))
}

/// Every file, with its name.
pub fn files() -> Vec<(String, Vec<u8>)> {
    let folder = Path::new(env!("CARGO_MANIFEST_DIR")).join("../data");
    let entries = std::fs::read_dir(folder).expect("the folder of catalogues");
    let names = entries.filter_map(|entry| {
        let path = entry.expect("an entry").path();
        let name = path.file_stem()?.to_str()?.to_string();
        (path.extension()? == "bin").then_some(name)
    });
    let files: Vec<_> = names.map(|name| (name.clone(), file(&name))).collect();
    assert!(files.len() >= 14, "the catalogues of the repository");
    files
}
