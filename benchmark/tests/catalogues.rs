//! The catalogues that are measured are what they are said to be.

use benchmark::catalogues::adversarial::circle_and_marks;
use benchmark::catalogues::{FAMILIES, FILES, SIZES, family, file};
use benchmark::measures::edits::{classified, time_one_axiom};
use benchmark::plain::classify::sweeps;
use benchmark::plain::{self, indexed};
use benchmark::timing::Budget;
use reference::catalogue::{Catalogue, Concept, MAX_AXIOMS};
use reference::checksum::fnv1a;

/// A family's catalogue, which is accepted.
fn made(name: &str, size: usize) -> Catalogue {
    let bytes = family(name).expect("a family").named(size).bytes;
    Catalogue::read(&bytes).expect("an accepted catalogue")
}

#[test]
fn every_one_is_accepted_and_has_its_size() {
    for family in FAMILIES {
        for &size in family.sizes {
            let named = family.named(size);
            let checked = girvotal::Catalogue::new(&named.bytes);
            let checked = checked.unwrap_or_else(|refusal| panic!("{}: {refusal}", named.name));
            assert_eq!(checked.concepts(), size, "{}", named.name);
            assert!(checked.axioms().len() > 0, "{}", named.name);
            assert!(
                family.named(size).bytes == named.bytes,
                "{}: the same again",
                named.name
            );
        }
    }
    assert_eq!(family("none of these").map(|family| family.name), None);
}

/// How many records are kinds, conjunctions and existentials.
fn kinds(catalogue: &Catalogue) -> [usize; 3] {
    let count = |wanted: fn(&Concept) -> bool| {
        let records = catalogue.concepts.iter();
        records.filter(|concept| wanted(concept)).count()
    };
    [
        count(|concept| *concept == Concept::Atomic),
        count(|concept| matches!(concept, Concept::Conjunction(..))),
        count(|concept| matches!(concept, Concept::Existential(..))),
    ]
}

/// The random shapes at 512 have what the files have, but for a third.
#[test]
fn the_shapes_of_the_files() {
    for name in ["sparse", "medium", "dense"] {
        let named = file(&format!("timing-{name}"));
        let expected = Catalogue::read(&named.bytes).expect("an accepted catalogue");
        let ours = made(name, 512);
        assert_eq!(ours.roles, expected.roles, "{name}");
        assert_eq!(ours.inclusions.len(), expected.inclusions.len(), "{name}");
        assert_eq!(
            ours.compositions.len(),
            expected.compositions.len(),
            "{name}"
        );
        let near = |what: &str, ours: usize, expected: usize| {
            let third = expected.div_ceil(3);
            assert!(
                ours.abs_diff(expected) <= third,
                "{name}: {what} {ours}, {expected}"
            );
        };
        near("axioms", ours.axioms.len(), expected.axioms.len());
        for (ours, expected) in kinds(&ours).into_iter().zip(kinds(&expected)) {
            near("records", ours, expected);
        }
        let [ours, expected] = [ours.bytes(), named.bytes].map(|bytes| plain::classify(&bytes).1);
        near("pairs", ours.pairs, expected.pairs);
        near("links", ours.links, expected.links);
    }
}

/// Every concept lies under every one, with links by each role to all atomics.
#[test]
fn all_are_equal() {
    for size in SIZES {
        for name in ["all equal", "full"] {
            let (_, counts) = indexed::classify(&made(name, size).bytes());
            assert_eq!(
                [counts.pairs, counts.links],
                [size * size, 16 * size * (size / 2)],
                "{name}, {size}"
            );
        }
    }
}

/// The length and the checksum of each catalogue that a program in another language
/// makes as well, as it makes them.
#[test]
fn the_bytes_of_another_program() {
    let expected = [
        ("tokens", 64, 622, 0x049a941b),
        ("tokens", 100, 838, 0x73c3503f),
        ("tokens", 512, 3310, 0xbd70ae9e),
        ("tokens2", 64, 630, 0xd5fe9cbe),
        ("tokens2", 100, 846, 0x7d6d04e6),
        ("tokens2", 512, 3318, 0xf84217cb),
        ("ring", 64, 560, 0x38783db8),
        ("ring", 100, 812, 0x67d8f806),
        ("ring", 512, 3696, 0x00ebb4d1),
        ("crowd", 64, 480, 0xcdf10bd6),
        ("crowd", 100, 732, 0xb95d4032),
        ("crowd", 512, 3616, 0x156ad5de),
        ("full", 64, 1108, 0xe2e497e4),
        ("full", 100, 1468, 0x582fe98e),
        ("full", 512, 5588, 0x6cb3f271),
        ("deep parts", 64, 8468, 0x1820468d),
        ("deep parts", 100, 17_004, 0xf28a8c02),
        ("deep parts", 511, 19_470, 0x7e1b9871),
    ];
    for (name, size, length, checksum) in expected {
        let bytes = made(name, size).bytes();
        assert_eq!(
            [bytes.len(), fnv1a(&bytes) as usize],
            [length, checksum],
            "{name}, {size}"
        );
    }
}

/// Each of the token's six roles and both full ones link everything in the ring with
/// everything.
#[test]
fn tokens_go_everywhere() {
    for (name, beside) in [("tokens", 2), ("tokens2", 3)] {
        let size = 64;
        let ring = size - beside;
        let (_, counts) = indexed::classify(&made(name, size).bytes());
        assert!(counts.links >= 8 * ring * ring, "{name}: {}", counts.links);
    }
}

/// Without one of the two ways to the token, all its links are removed, and return.
#[test]
fn tokens_return() {
    let catalogue = made("tokens2", 64);
    let mut site = classified(&catalogue);
    let [left, right] = [0, 62].map(girvotal::Concept);
    let changed = site.change(&[girvotal::Axiom { left, right }], &[]);
    let changed = changed.expect("an axiom of the catalogue");
    assert!(changed.removed > 6 * 61 * 61, "{}", changed.removed);
    assert_eq!(changed.removed, changed.returned);
}

/// Every concept in the ring lies under every mark; with full roles, it has links by
/// them to every other.
#[test]
fn marks_go_round() {
    for (name, full, sizes) in [("crowd", 0, &SIZES[..]), ("ring", 12, &SIZES[..4])] {
        for &size in sizes {
            let marks = size / 4;
            let ring = size - 2 * marks - 1;
            let (_, counts) = indexed::classify(&made(name, size).bytes());
            assert!(
                counts.pairs >= marks * ring,
                "{name}, {size}: {}",
                counts.pairs
            );
            assert!(
                counts.links >= full * ring * ring,
                "{name}, {size}: {}",
                counts.links
            );
        }
    }
}

/// A chain of parts through every record, as many axioms as may be, and a row of
/// axioms for every concept but the first.
#[test]
fn parts_are_deep() {
    for size in [100, 511] {
        let catalogue = made("deep parts", size);
        let over = |(i, concept): (usize, &Concept)| concept.parts().contains(&(i - 1));
        let mut composites = catalogue.concepts.iter().enumerate().skip(2);
        assert!(composites.all(over), "{size}");
        assert_eq!(catalogue.axioms.len(), MAX_AXIOMS, "{size}");
        let left = |concept| catalogue.axioms.iter().any(|axiom| axiom.0 == concept);
        assert!((1..size).all(left), "{size}");
    }
}

/// Each of the marks goes round the whole circle, one place in a sweep.
#[test]
fn one_bit_takes_a_sweep() {
    for size in SIZES {
        let [circle, marks] = circle_and_marks(size);
        let bytes = made("one bit a sweep", size).bytes();
        assert!(
            sweeps(&bytes) >= marks * (circle - 1),
            "{size}: {}",
            sweeps(&bytes)
        );
        let (_, counts) = plain::classify(&bytes);
        assert!(
            counts.pairs >= 2 * marks * (circle - 1),
            "{size}: {}",
            counts.pairs
        );
    }
    assert!(circle_and_marks(512)[0] * circle_and_marks(512)[1] > 10_000);
    assert!(
        FILES.iter().all(|name| sweeps(&file(name).bytes) <= 10),
        "the files take few"
    );
}

/// Written out, the last record has more parts than there are numbers of 64 bits.
#[test]
fn parts_are_shared() {
    let catalogue = made("shared parts", 512);
    let mut parts: Vec<f64> = vec![];
    for concept in &catalogue.concepts {
        let of_parts = concept.parts().into_iter().map(|part| parts[part]);
        parts.push(1.0 + of_parts.sum::<f64>());
    }
    assert!(parts[511] > 2f64.powi(64), "{}", parts[511]);
    assert!(kinds(&catalogue)[2] > 10, "existentials among them");
}

/// Every kind of the chain has a link to every later one.
#[test]
fn chains_are_long() {
    for size in SIZES {
        let length = size / 2 - 1;
        let (_, counts) = plain::classify(&made("long chains", size).bytes());
        assert!(
            counts.links >= length * (length + 1) / 2,
            "{size}: {}",
            counts.links
        );
    }
}

/// Changes are by as many axioms as there are rounds, or by all, each as often.
#[test]
fn changes_by_one_axiom() {
    let timed = |name: &str, budget| {
        let catalogue = made(name, 64);
        let mut site = classified(&catalogue);
        let cost = time_one_axiom(name, &catalogue, &mut site, budget);
        assert_eq!(cost.withdraw.runs, cost.add.runs);
        [cost.axioms, cost.add.runs]
    };
    assert_eq!(made("shared parts", 64).axioms.len(), 3);
    assert_eq!(
        [2, 3, 5, 6].map(|rounds| timed("shared parts", Budget::exactly(rounds))),
        [[2, 2], [3, 3], [3, 6], [3, 6]]
    );
    assert_eq!(timed("sparse", Budget::exactly(7)), [7, 7]);
    let exceeded = Budget {
        milliseconds: 0.0,
        ..Budget::exactly(2)
    };
    assert_eq!(
        timed("shared parts", exceeded),
        [2, 2],
        "the first among them"
    );
}
