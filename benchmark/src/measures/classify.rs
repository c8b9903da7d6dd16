//! What classify costs, the library's and plain Rust's.

use crate::plain::{self, indexed};
use crate::statistics::Sample;
use crate::timing::{self, Budget};
use girvotal::{Counts, Site};
use std::hint::black_box;

/// Who classifies: the library, or plain Rust in one of two ways.
#[derive(Clone, Copy, Debug, PartialEq)]
pub enum Side {
    Library,
    /// By whole rows, without an index.
    Sweeping,
    /// By indices of what each new bit gives.
    Indexed,
}

/// All of them, each with a name and with its function in the symbols of a program.
pub const SIDES: [(Side, &str, &str); 3] = [
    (Side::Library, "library", "girvotal_classify"),
    (
        Side::Sweeping,
        "sweeping",
        "benchmark::plain::classify::classify*",
    ),
    (
        Side::Indexed,
        "indexed",
        "benchmark::plain::indexed::classify*",
    ),
];

/// All of them, to be timed in turn.
pub const ALL: [Side; 3] = [Side::Library, Side::Sweeping, Side::Indexed];

/// Classifies once.
pub fn once(side: Side, bytes: &[u8]) {
    match side {
        Side::Library => drop(black_box(site(bytes))),
        Side::Sweeping => drop(black_box(plain::classify(bytes))),
        Side::Indexed => drop(black_box(indexed::classify(bytes))),
    }
}

/// Milliseconds of classify of one catalogue; of plain Rust where it was run.
pub struct Cost {
    pub counts: Counts,
    pub library: Sample,
    pub sweeping: Option<Sample>,
    pub indexed: Option<Sample>,
}

impl Cost {
    /// The better one of plain Rust.
    pub fn plain(&self) -> Option<Sample> {
        let run = [self.sweeping, self.indexed].into_iter().flatten();
        run.min_by(|one, other| one.median.total_cmp(&other.median))
    }

    /// A side's, if it was run.
    pub fn of(&self, side: Side) -> Option<Sample> {
        match side {
            Side::Library => Some(self.library),
            Side::Sweeping => self.sweeping,
            Side::Indexed => self.indexed,
        }
    }
}

/// A catalogue, classified by the library.
pub fn site(bytes: &[u8]) -> Site {
    Site::classify(bytes.to_vec()).expect("an accepted catalogue")
}

/// Times some sides in turn, the library among them, which has classified the catalogue
/// before; and compares what they leave.
pub fn time(name: &str, site: &mut Site, sides: &[Side], budget: Budget) -> Cost {
    let bytes = &site.catalogue().bytes().to_vec();
    let (mut counts, mut left) = (None, vec![None; sides.len()]);
    let times = timing::in_turn(budget, sides.len(), |i| match sides[i] {
        Side::Library => counts = Some(black_box(site.reclassify().expect("accepted"))),
        Side::Sweeping => left[i] = Some(black_box(plain::classify(bytes))),
        Side::Indexed => left[i] = Some(black_box(indexed::classify(bytes))),
    });
    let counts = counts.expect("the library's");
    for (store, by_plain) in left.into_iter().flatten() {
        assert!(site.store() == store, "{name}: the same store");
        let by_plain = [by_plain.pairs, by_plain.links];
        assert_eq!([counts.pairs, counts.links], by_plain, "{name}");
    }
    let samples: Vec<Sample> = times.into_iter().map(Sample::of).collect();
    let sample = |side| Some(samples[sides.iter().position(|&run| run == side)?]);
    Cost {
        counts,
        library: sample(Side::Library).expect("the library's"),
        sweeping: sample(Side::Sweeping),
        indexed: sample(Side::Indexed),
    }
}
