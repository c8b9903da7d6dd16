//! The programs' files: inputs and expected outputs are those that are made
//! here.

use reference::checksum::fnv1a;
use reference::{expected, inputs};
use std::fs;
use std::path::{Path, PathBuf};

fn root() -> PathBuf {
    Path::new(env!("CARGO_MANIFEST_DIR")).join("..")
}

/// A file of a crate; nothing where there is none.
fn file(name: &str, file: &str) -> Vec<u8> {
    let path = root().join("crates").join(name).join(file);
    fs::read(path).unwrap_or_default()
}

/// Values that the authors of FNV publish.
#[test]
fn checksums() {
    assert_eq!(fnv1a(b""), 0x811c_9dc5);
    assert_eq!(fnv1a(b"a"), 0xe40c_292c);
    assert_eq!(fnv1a(b"foobar"), 0xbf9c_f968);
}

#[test]
fn inputs_are_made_here() {
    for (name, place, input) in inputs::PROGRAMS {
        let made = input(&root().join("data")).expect("the catalogues of data/");
        assert!(made == file(name, place), "{name} {place}");
    }
}

#[test]
fn outputs_are_made_here() {
    for (name, places, output) in expected::PROGRAMS {
        let texts = places.iter().map(|place| output(&file(name, place)));
        let made: String = texts.collect();
        assert!(made.as_bytes() == file(name, "stdout"), "{name}");
    }
}
