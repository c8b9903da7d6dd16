//! The catalogues that are measured: files, and families that are made at a size.
//!
//! - `shapes`: at random, in the shapes of `data/timing-*.bin`
//! - `adversarial`: laid out against the library's method
//! - `rings`: rings of links that something goes round

pub mod adversarial;
pub mod rings;
pub mod shapes;

use reference::catalogue::Catalogue;
use std::path::Path;

/// A catalogue's bytes, and what it is called.
pub struct Named {
    pub name: String,
    pub bytes: Vec<u8>,
}

/// Files in the repository's `data` that are measured.
pub const FILES: [&str; 9] = [
    "w1",
    "dag-0",
    "chain-0",
    "composed-0",
    "bookings-2",
    "bookings-0",
    "timing-sparse",
    "timing-medium",
    "timing-dense",
];

/// The file of that name in the repository's `data`.
pub fn file(name: &str) -> Named {
    let folder = Path::new(env!("CARGO_MANIFEST_DIR")).join("../data");
    Named {
        name: name.to_string(),
        ..at(&folder.join(name).with_extension("bin"))
    }
}

/// The file at a path.
pub fn at(path: &Path) -> Named {
    let bytes = std::fs::read(path).unwrap_or_else(|error| panic!("{}: {error}", path.display()));
    Named {
        name: path.display().to_string(),
        bytes,
    }
}

/// The numbers of concepts that a family is measured at. The rows of 100, 200, 400
/// and 504 are no whole number of words.
pub const SIZES: [usize; 8] = [64, 100, 128, 200, 256, 400, 504, 512];

/// The same with 511 for 504, whose rows have a spare bit.
const WITH_SPARE_BIT: [usize; 8] = [64, 100, 128, 200, 256, 400, 511, 512];

/// The sizes by which growth is told: each is twice the one before.
pub const DOUBLINGS: [usize; 4] = [64, 128, 256, 512];

/// Catalogues of one kind, of any of the sizes.
pub struct Family {
    pub name: &'static str,
    pub about: &'static str,
    pub make: fn(usize) -> Catalogue,
    /// What it is measured at, rising.
    pub sizes: &'static [usize],
}

impl Family {
    /// One of the usual sizes.
    const fn new(name: &'static str, about: &'static str, make: fn(usize) -> Catalogue) -> Family {
        Family {
            name,
            about,
            make,
            sizes: &SIZES,
        }
    }

    /// The catalogue of that many concepts.
    pub fn named(&self, concepts: usize) -> Named {
        Named {
            name: format!("{}, {concepts}", self.name),
            bytes: (self.make)(concepts).bytes(),
        }
    }
}

/// All families.
pub const FAMILIES: &[Family] = &[
    Family::new(
        "sparse",
        "at random, in the shape of `data/timing-sparse.bin`",
        |concepts| shapes::SPARSE.catalogue(concepts),
    ),
    Family::new(
        "medium",
        "in the shape of `data/timing-medium.bin`",
        |concepts| shapes::MEDIUM.catalogue(concepts),
    ),
    Family::new(
        "dense",
        "in the shape of `data/timing-dense.bin`",
        |concepts| shapes::DENSE.catalogue(concepts),
    ),
    Family::new(
        "all equal",
        "kinds and existentials in one circle of axioms; 16 roles in a circle of inclusions, \
         64 compositions, each of another pair of roles",
        adversarial::all_equal,
    ),
    Family::new(
        "full",
        "the same, but the first role composed with itself gives every role",
        adversarial::full,
    ),
    Family::new(
        "one bit a sweep",
        "a circle of links against the order in which concepts are processed: each pass over \
         them finds one new kind above one of them",
        adversarial::one_bit_a_sweep,
    ),
    Family::new(
        "crowd",
        "a ring of links that existentials go round: each one that has come round gives the next",
        |concepts| rings::marked(concepts, 0),
    ),
    Family::new(
        "ring",
        "the same, with 12 roles more that link everything in the ring with everything",
        |concepts| rings::marked(concepts, 12),
    ),
    Family::new(
        "tokens",
        "a ring that one link goes round, one place for each concept processed, to another \
         concept in each round and by six roles in turn; every role lies within one that links \
         everything with everything",
        rings::tokens,
    ),
    Family::new(
        "tokens2",
        "the same with a second way to the first link: without one of them all is deleted, and \
         returns",
        rings::tokens_by_two_ways,
    ),
    Family::new(
        "shared parts",
        "conjunctions and existentials, each of the ones just before it: written out, the last \
         is exponential",
        adversarial::shared_parts,
    ),
    Family {
        sizes: &WITH_SPARE_BIT,
        ..Family::new(
            "deep parts",
            "the same, with up to 4,096 axioms, each of a concept and of one just below it: \
             what a lookup asks of the store takes long",
            adversarial::deep_parts,
        )
    },
    Family::new(
        "long chains",
        "links along a chain by a transitive role, each by one axiom",
        adversarial::long_chains,
    ),
];

/// The family of that name.
pub fn family(name: &str) -> Option<&'static Family> {
    FAMILIES.iter().find(|family| family.name == name)
}
