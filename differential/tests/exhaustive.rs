//! Small catalogues with every byte changed and every length cut, stores with every bit turned,
//! buffers and lists of every length: the library does what the reference does.

mod support;

use differential::case::{Call, Damage, Lengths, Step};
use differential::catalogues::{Shape, catalogue};
use differential::tally::Tally;
use reference::catalogue::{Axiom, Catalogue, Concept, MAX_CONCEPTS, MAX_ROLES, list};
use reference::examples;
use reference::random::Random;
use support::{agree, all, call, edits, make, on, on_classified, reading};

/// Small catalogues of every shape.
fn catalogues() -> Vec<Catalogue> {
    let roles = Catalogue {
        concepts: vec![
            Concept::Atomic,
            Concept::Top,
            Concept::Existential(1, 0),
            Concept::Conjunction(0, 2),
        ],
        roles: 2,
        inclusions: vec![(0, 1), (1, 1)],
        compositions: vec![(0, 0, 1), (1, 0, 0)],
        axioms: vec![(0, 2), (3, 0), (3, 1)],
    };
    let more = [examples::w1, examples::w7, examples::w8, examples::w9];
    let more = more.iter().map(|make| make());
    let tops = examples::tops();
    more.chain([examples::example4(), tops.bare(), tops, roles])
        .collect()
}

/// Tiny catalogues of some shapes.
fn tiny() -> Vec<Catalogue> {
    let random = &mut Random::new(14);
    let shapes = [Shape::Mixed, Shape::Doubles, Shape::Chain, Shape::Equal];
    let made = shapes.map(|shape| catalogue(random, shape, 3));
    made.into_iter().collect()
}

/// Prints the counts of a test; there are at least so many calls.
fn done(name: &str, tally: &Tally, least: usize) {
    println!("agreed, {name}: {}", tally.summary());
    assert!(tally.calls() >= least, "{name}: {} calls", tally.calls());
}

#[test]
fn every_byte_of_a_catalogue_changed() {
    let tally = &mut Tally::default();
    for catalogue in catalogues() {
        let bytes = catalogue.bytes();
        for (at, byte) in bytes.iter().enumerate() {
            let mut case = on_classified(&format!("byte {at} changed"), &catalogue);
            for mask in [1, 2, 3, 4, 7, 128, 255] {
                all(&mut case, &Damage::byte(at, byte ^ mask));
            }
            agree(&case, tally);
        }
    }
    done("every byte changed", tally, 50_000);
}

#[test]
fn every_byte_at_every_value() {
    let tally = &mut Tally::default();
    for catalogue in tiny() {
        for at in 0..catalogue.bytes().len() {
            let mut case = on_classified(&format!("byte {at} at every value"), &catalogue);
            for value in 0..=u8::MAX {
                all(&mut case, &Damage::byte(at, value));
            }
            agree(&case, tally);
        }
    }
    done("every byte at every value", tally, 500_000);
}

#[test]
fn every_length_of_a_catalogue() {
    let tally = &mut Tally::default();
    for catalogue in catalogues().iter().chain(&tiny()) {
        let mut case = on_classified("every length", catalogue);
        for length in 0..=case.catalogue.len() + 2 {
            all(&mut case, &Damage::length(length));
            let total = [(0, length as u8), (1, (length / 256) as u8)];
            let mended = Damage {
                bytes: total.to_vec(),
                length: Some(length),
            };
            all(&mut case, &mended);
        }
        agree(&case, tally);
    }
    done("every length of a catalogue", tally, 10_000);
}

/// The catalogues in `data`.
fn files() -> Vec<Vec<u8>> {
    let folder = concat!(env!("CARGO_MANIFEST_DIR"), "/../data");
    let entries = std::fs::read_dir(folder).expect("the folder of catalogues");
    let paths = entries.map(|entry| entry.expect("an entry").path());
    let catalogues = paths.filter(|path| path.extension().is_some_and(|kind| kind == "bin"));
    let files: Vec<Vec<u8>> = catalogues
        .map(|path| std::fs::read(path).expect("a readable file"))
        .collect();
    assert!(files.len() >= 14, "the catalogues of the repository");
    files
}

/// Check of every file at every length, and of the small ones with every byte at
/// every value.
#[test]
fn check_of_damaged_files() {
    const SMALL: usize = 500;
    let tally = &mut Tally::default();
    for bytes in files() {
        let mut case = on("check of a file", &bytes, &[]);
        let lent = case.buffers.lengths();
        for length in 0..=bytes.len() {
            make(&mut case, Call::Check, &Damage::length(length), lent);
        }
        if bytes.len() <= SMALL {
            for at in 0..bytes.len() {
                for value in 0..=u8::MAX {
                    make(&mut case, Call::Check, &Damage::byte(at, value), lent);
                }
            }
        }
        agree(&case, tally);
    }
    done("check of damaged files", tally, 100_000);
}

/// Check of every count of concepts and roles, to past the limits.
#[test]
fn check_of_every_size() {
    let tally = &mut Tally::default();
    for concepts in 0..=MAX_CONCEPTS + 1 {
        for roles in 0..=MAX_ROLES + 1 {
            let catalogue = Catalogue {
                concepts: vec![Concept::Atomic; concepts],
                roles,
                ..examples::w7().bare()
            };
            let mut case = on("check of every size", &catalogue.bytes(), &[]);
            call(&mut case, Call::Check);
            agree(&case, tally);
        }
    }
    done("check of every size", tally, 9_000);
}

#[test]
fn every_bit_of_a_store_turned() {
    let tally = &mut Tally::default();
    for catalogue in catalogues().iter().chain(&tiny()) {
        let none = Damage::default();
        let whole = on_classified("every bit of a store", catalogue);
        let lent = whole.buffers.lengths();
        for bit in 0..8 * whole.buffers.store.len() {
            let mut case = whole.clone();
            case.buffers.store[bit / 8] ^= 1 << (bit % 8);
            let wrong = case.buffers.store.clone();
            reading(&mut case, &none);
            agree(&case, tally);
            for axiom in [(0, 1), (2, 0), (1, 1), (1, 2)] {
                let mut case = whole.clone();
                case.buffers.store.clone_from(&wrong);
                edits(&mut case, axiom, &none, lent);
                agree(&case, tally);
            }
        }
    }
    done("every bit of a store", tally, 50_000);
}

#[test]
fn every_length_of_a_buffer() {
    let tally = &mut Tally::default();
    let none = Damage::default();
    for catalogue in catalogues() {
        let mut case = on_classified("every length of a buffer", &catalogue);
        let whole = case.buffers.lengths();
        let lengths = |most: usize, lend: fn(Lengths, usize) -> Lengths| {
            (0..=most).map(move |length| lend(whole, length))
        };
        let stores = lengths(whole.store, |lent, store| Lengths { store, ..lent });
        let works = lengths(whole.work, |lent, work| Lengths { work, ..lent });
        let lists = lengths(whole.list, |lent, list| Lengths { list, ..lent });
        let outputs = lengths(whole.output, |lent, output| Lengths { output, ..lent });
        let answers = lengths(whole.answer, |lent, answer| Lengths { answer, ..lent });
        for lent in stores
            .chain(works)
            .chain(lists)
            .chain(outputs)
            .chain(answers)
        {
            let own = catalogue.axioms.first().copied();
            for axiom in own.into_iter().chain([(1, 0)]) {
                edits(&mut case, axiom, &none, lent);
            }
            for read in [Call::Lookup(0, 1), Call::List(0), Call::Row(0), Call::Write] {
                make(&mut case, read, &none, lent);
            }
            make(&mut case, Call::Check, &none, lent);
            make(&mut case, Call::Classify, &none, lent);
        }
        agree(&case, tally);
    }
    done("every length of a buffer", tally, 10_000);
}

/// Lists of every length up to past the longest, each alone and both.
#[test]
fn every_length_of_a_list() {
    let tally = &mut Tally::default();
    let catalogue = Catalogue {
        concepts: vec![Concept::Atomic; 70],
        axioms: (0..66).map(|i| (i, i + 1)).collect(),
        ..examples::w7()
    };
    let own = list(&catalogue.axioms);
    let new = list(&(0..66).map(|i| (i + 2, i)).collect::<Vec<Axiom>>());
    let whole = on_classified("every length of a list", &catalogue);
    for length in 0..=own.len() {
        let (own, new) = (&own[..length], &new[..length]);
        for [out, new] in [[own, &[]], [&[], new], [own, new], [new, own], [own, own]] {
            let mut case = whole.clone();
            let change = Call::Change {
                withdrawn: out.to_vec(),
                added: new.to_vec(),
            };
            call(&mut case, change);
            agree(&case, tally);
        }
    }
    done("every length of a list", tally, 1_000);
}

/// Numbers far above any concept are refused by 15, also where products with them would pass 64
/// bits.
#[test]
fn great_numbers() {
    let tally = &mut Tally::default();
    let mut case = on_classified("great numbers", &examples::w1());
    for great in [512, 65_535, 65_536, 1 << 32, usize::MAX / 8, usize::MAX] {
        let reading = [Call::Lookup(0, great), Call::Lookup(great, 0)];
        for read in reading
            .into_iter()
            .chain([Call::List(great), Call::Row(great)])
        {
            call(&mut case, read);
        }
        if great < 65_536 {
            call(&mut case, support::change(&[], &[(0, great)]));
        }
    }
    let calls = case.steps.iter();
    assert!(calls.clone().all(|step| matches!(step, Step::Make { .. })));
    agree(&case, tally);
    let by_15 = ["lookup", "list", "row", "change"].map(|call| tally.returned(call, 15));
    assert_eq!(by_15, [12, 6, 6, 2]);
}
