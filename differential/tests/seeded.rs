//! Thousands of cases made at random: the library does what the reference does, and every answer
//! that a call can give is met.

use differential::batch::{Goal, run_batch};
use differential::calls::axiom;
use differential::catalogues::{SHAPES, catalogue};
use differential::lists::Lists;
use differential::side::LIBRARY;
use differential::tally::{QUESTIONS, Tally};
use girvotal::{Axiom, Site};
use reference::catalogue::Catalogue;
use reference::random::Random;
use std::collections::BTreeSet;

/// How many seeds are run, and how many calls they make at least.
const SEEDS: u64 = 8_000;
const CALLS: usize = 150_000;

#[test]
fn thousands_of_seeds() {
    let threads = std::thread::available_parallelism().map_or(1, |count| count.get());
    let done = run_batch(&LIBRARY, 0, Goal::Seeds(SEEDS), threads);
    let tally = done.unwrap_or_else(|report| panic!("{report}"));
    println!("agreed, seeds: {tally}");
    assert!(tally.calls() >= CALLS && tally.cases as u64 == SEEDS);
    every_answer(&tally);
    every_group(&tally);
}

/// Each call was accepted, and refused by each of its questions and by no other.
fn every_answer(tally: &Tally) {
    assert_eq!(tally.unmet(), []);
    for (call, _) in QUESTIONS {
        assert!(tally.returned(call, 0) >= 1_000, "{call} accepted");
    }
    for effect in ["yes", "no", "removed", "returned", "gained", "both lists"] {
        assert!(tally.effect(effect) >= 1_000, "{effect}");
    }
}

/// Catalogues of every size and shape.
fn every_group(tally: &Tally) {
    for (group, least) in [
        ("tiny", 5_000),
        ("small", 500),
        ("middle", 50),
        ("large", 5),
    ] {
        assert!(tally.group(group) >= least, "{group}");
    }
    for shape in SHAPES {
        assert!(tally.group(shape.name()) >= 500, "{shape:?}");
    }
    let more = [
        ("full", 5),
        ("512 concepts", 2),
        ("rows of whole bytes", 1_000),
    ];
    for (group, least) in more {
        assert!(tally.group(group) >= least, "{group}");
    }
}

/// What changes in a row leave is what classifying the axioms in force gives, byte for byte.
#[test]
fn changes_leave_what_classify_gives() {
    let mut changes = 0;
    for seed in 0..400 {
        let random = &mut Random::new(seed);
        let shape = SHAPES[random.below(SHAPES.len())];
        let size = 1 + random.below(60);
        let catalogue = catalogue(random, shape, size);
        let mut site = Site::classify(catalogue.bytes()).expect("an accepted catalogue");
        let mut in_force: BTreeSet<_> = catalogue.axioms.iter().copied().collect();
        for _ in 0..10 {
            let lists = Lists::right(random, &catalogue, &in_force);
            let [out, new] = [&lists.withdrawn, &lists.added]
                .map(|list| list.iter().copied().map(axiom).collect::<Vec<Axiom>>());
            site.change(&out, &new).expect("an accepted change");
            in_force = lists.after(&in_force);
            changes += 1;
        }
        let axioms = in_force.into_iter().collect();
        let after = Catalogue {
            axioms,
            ..catalogue
        };
        assert_eq!(site.write(), Ok(after.bytes()), "seed {seed}: written");
        let fresh = Site::classify(after.bytes()).expect("an accepted catalogue");
        assert!(site.store() == fresh.store(), "seed {seed}: the store");
    }
    println!("agreed, with classify anew: {changes} changes in 400 rows");
}
