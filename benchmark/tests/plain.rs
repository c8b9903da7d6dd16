//! Plain Rust, which times are compared with, does what the library does.

use benchmark::catalogues::FAMILIES;
use benchmark::plain::{classify, indexed, reading};
use girvotal::{Concept, Site};
use reference::calls;
use reference::catalogue::{Catalogue, Refusal};
use reference::examples;
use reference::random::Random;

/// A refusal as plain Rust says it.
fn refusal(refusal: girvotal::Refusal) -> Refusal {
    Refusal {
        number: refusal.question.number(),
        record: refusal.record,
    }
}

/// Compares the store and the counts of both ways with the library's.
fn compare_classify(name: &str, bytes: &[u8]) -> Site {
    let mut site = Site::classify(bytes.to_vec()).expect("an accepted catalogue");
    let counts = site.reclassify().expect("an accepted catalogue");
    for (store, by_plain) in [classify(bytes), indexed::classify(bytes)] {
        assert!(store == site.store(), "{name}: store");
        assert_eq!(
            [by_plain.pairs, by_plain.links],
            [counts.pairs, counts.links],
            "{name}"
        );
    }
    site
}

/// Compares the calls that read, of some concepts.
fn compare_reading(name: &str, bytes: &[u8], site: &mut Site) {
    let n = site.catalogue().concepts();
    let store = site.store().to_vec();
    let some = || (0..=n).step_by(1 + n / 40);
    let concept = |number: usize| Concept(u16::try_from(number).expect("a number"));
    for d in some() {
        for c in some() {
            let looked = reading::lookup(bytes, c, d, &store);
            let expected = site.lookup(concept(c), concept(d)).map_err(refusal);
            assert_eq!(looked, expected, "{name}: {c} {d}");
            if let Ok(yes) = looked {
                assert_eq!(reading::bit(bytes, c, d, &store), yes, "{name}: {c} {d}");
            }
        }
        let row = site.row(concept(d)).map_err(refusal).map(|row| {
            let offset = row.bytes().as_ptr().addr() - site.store().as_ptr().addr();
            (offset, row.bytes().len())
        });
        assert_eq!(reading::row(bytes, d, &store), row, "{name}: row {d}");
        let mut list = vec![0; 2 * n];
        let count = reading::listing(bytes, d, &store, &mut list);
        let listed = site.list(concept(d)).map_err(refusal);
        let length = listed.as_ref().map(Vec::len).map_err(|&refusal| refusal);
        assert_eq!(count, length, "{name}: listing {d}");
        let entries = list
            .chunks(2)
            .map(|entry| u16::from_le_bytes([entry[0], entry[1]]));
        if let Ok(listed) = listed {
            let expected = listed.iter().map(|concept| concept.0);
            assert!(
                entries.take(listed.len()).eq(expected),
                "{name}: listing {d}"
            );
        }
    }
    let mut output = vec![0; bytes.len()];
    assert_eq!(
        reading::write(bytes, &store, &mut output),
        Ok(bytes.len()),
        "{name}"
    );
    assert!(output == bytes, "{name}: written");
}

/// Compares the check of a catalogue, and of its bytes without the first.
fn compare_check(name: &str, bytes: &[u8]) {
    for bytes in [bytes, &bytes[1..]] {
        let checked = girvotal::Catalogue::new(bytes).map_err(refusal);
        let store = checked.map(|catalogue| catalogue.sizes().store);
        assert_eq!(reading::check(bytes), store, "{name}");
    }
}

#[test]
fn the_built_in_catalogues() {
    for (name, make) in examples::EXAMPLES {
        let catalogue: Catalogue = make();
        let bytes = catalogue.bytes();
        let mut site = compare_classify(name, &bytes);
        compare_reading(name, &bytes, &mut site);
        compare_check(name, &bytes);
    }
}

/// Families that plain Rust takes many seconds for, and the size up to which it is
/// run here.
const SLOW: [(&str, usize); 3] = [("tokens", 64), ("tokens2", 64), ("ring", 200)];

#[test]
fn what_is_measured() {
    for family in FAMILIES {
        let slow = SLOW.iter().find(|(name, _)| *name == family.name);
        let most = slow.map_or(usize::MAX, |(_, most)| *most);
        for &size in family.sizes.iter().filter(|&&size| size <= most) {
            let named = family.named(size);
            compare_classify(&named.name, &named.bytes);
        }
    }
}

/// Both ways and the reference, which shares no code with them.
#[test]
fn small_random_catalogues_beside_the_reference() {
    let mut random = Random::new(14);
    for case in 0..400 {
        let bytes = random.catalogue(24).bytes();
        let (counts, expected) = calls::classified(&bytes).expect("an accepted catalogue");
        for (store, by_plain) in [classify(&bytes), indexed::classify(&bytes)] {
            assert!(store == expected, "case {case}: store");
            assert_eq!(by_plain, counts, "case {case}");
        }
    }
}
