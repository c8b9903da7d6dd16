//! Catalogues made by a builder.

mod support;

use girvotal::{
    Axiom, Builder, CATALOGUE_MOST, Catalogue, Concept, LIST_MOST, Question, Record, Refusal, Role,
    STORE_MOST, Site, WORK_MOST,
};
use support::{file, files};

/// A builder with so many kinds and roles.
fn with(kinds: usize, roles: usize) -> Builder {
    let mut builder = Builder::new();
    for _ in 0..kinds {
        builder.kind();
    }
    for _ in 0..roles {
        builder.role();
    }
    builder
}

/// The first so many axioms between concepts below a number, last first.
fn axioms(count: u32, below: u32) -> impl Iterator<Item = Axiom> {
    let side = |number: u32| Concept(number as u16);
    (0..count).rev().map(move |i| Axiom {
        left: side(i / below),
        right: side(i % below),
    })
}

/// A builder as full as may be, but for what is left out.
fn full(kinds: usize, roles: usize, role_axioms: [usize; 2], count: u32) -> Builder {
    let mut builder = with(kinds, roles);
    for _ in 0..role_axioms[0] {
        builder.inclusion(Role(0), Role(15));
    }
    for _ in 0..role_axioms[1] {
        builder.composition(Role(0), Role(1), Role(15));
    }
    for axiom in axioms(count, 512) {
        builder.axiom(axiom.left, axiom.right);
    }
    builder
}

fn refused(question: Question, record: usize) -> Result<Vec<u8>, Refusal> {
    Err(Refusal { question, record })
}

#[test]
fn w1() {
    let mut builder = with(4, 3);
    let [has, supplies, offers] = [0, 1, 2].map(Role);
    builder.composition(has, supplies, offers);
    let [corner, pillar, electricity, powered] = [0, 1, 2, 3].map(Concept);
    let has_pillar = builder.existential(has, pillar);
    let supply = builder.existential(supplies, electricity);
    let offer = builder.existential(offers, electricity);
    assert_eq!([has_pillar, supply, offer], [4, 5, 6].map(Concept));
    for _ in 0..2 {
        builder.axiom(offer, powered);
        builder.axiom(pillar, supply);
        builder.axiom(corner, has_pillar);
    }
    assert_eq!(builder.build(), Ok(file("w1")), "sorted, each once");
}

#[test]
fn every_file_again() {
    for (name, bytes) in files() {
        let catalogue = Catalogue::new(&bytes).expect("an accepted catalogue");
        let mut builder = Builder::of(&catalogue);
        assert_eq!(builder.build(), Ok(bytes.clone()), "{name}");
        for axiom in catalogue.axioms() {
            builder.axiom(axiom.left, axiom.right);
        }
        assert_eq!(builder.build(), Ok(bytes.clone()), "{name}: twice");
    }
}

/// Records of every kind, equal ones too, are read as they were put.
#[test]
fn records() {
    let mut builder = with(1, 1);
    let (kind, role) = (Concept(0), Role(0));
    let records = [
        Record::Atomic,
        Record::Top,
        Record::Conjunction(kind, Concept(1)),
        Record::Existential(role, Concept(2)),
        Record::Top,
        Record::Conjunction(kind, Concept(1)),
        Record::Atomic,
    ];
    let added = [
        builder.top(),
        builder.conjunction(kind, Concept(1)),
        builder.existential(role, Concept(2)),
        builder.top(),
        builder.record(records[5]),
        builder.kind(),
    ];
    assert_eq!(added, [1, 2, 3, 4, 5, 6].map(Concept));
    let bytes = builder.build().expect("an accepted catalogue");
    let catalogue = Catalogue::new(&bytes).expect("an accepted catalogue");
    assert!(catalogue.records().eq(records));
    assert_eq!(catalogue.axioms().len(), 0);
}

/// At the limits a catalogue has the most bytes and asks for the most.
#[test]
fn at_the_limits() {
    let bytes = full(512, 16, [64, 64], 4096).build().expect("accepted");
    assert_eq!(bytes.len(), CATALOGUE_MOST);
    let catalogue = Catalogue::new(&bytes).expect("accepted");
    let sizes = catalogue.sizes();
    assert_eq!(
        [sizes.store, sizes.work, sizes.list, sizes.written],
        [STORE_MOST, WORK_MOST, LIST_MOST, CATALOGUE_MOST]
    );
    assert!(catalogue.axioms().is_sorted());
    let inclusion = catalogue.inclusions().next().expect("an inclusion");
    assert_eq!((inclusion.within, inclusion.around), (Role(0), Role(15)));
    assert!(Site::classify(bytes).is_ok());
}

#[test]
fn counts_over_the_limits() {
    for (name, builder) in [
        ("nothing", Builder::new()),
        ("no concept", with(0, 1)),
        ("513 kinds", with(513, 0)),
        ("17 roles", with(1, 17)),
        ("65 inclusions", full(1, 16, [65, 0], 0)),
        ("65 compositions", full(1, 16, [0, 65], 0)),
        ("4,097 axioms", full(512, 0, [0, 0], 4097)),
        ("70,000 kinds", with(70_000, 0)),
        ("70,000 roles", with(1, 70_000)),
        ("70,000 inclusions", full(1, 16, [70_000, 0], 0)),
        ("70,000 compositions", full(1, 16, [0, 70_000], 0)),
        ("70,000 axioms", full(512, 0, [0, 0], 70_000)),
    ] {
        assert_eq!(builder.build(), refused(Question::Counts, 0), "{name}");
    }
    let mut builder = with(65_537, 65_537);
    assert_eq!(builder.kind(), Concept(u16::MAX));
    assert_eq!(builder.role(), Role(u16::MAX));
}

/// What a builder gives with one thing more, which comes last of its section.
fn with_more<T>(put: impl FnOnce(&mut Builder) -> T) -> Result<Vec<u8>, Refusal> {
    let mut builder = with(2, 1);
    builder.inclusion(Role(0), Role(0));
    builder.composition(Role(0), Role(0), Role(0));
    builder.axiom(Concept(0), Concept(0));
    put(&mut builder);
    builder.build()
}

/// Numbers that are not there are refused, with their record.
#[test]
fn wrong_parts() {
    let (here, there) = (Concept(1), Concept(2));
    let (role, no_role) = (Role(0), Role(1));
    assert!(with_more(|b| b.existential(role, here)).is_ok());
    let fields = refused(Question::Fields, 2);
    assert_eq!(with_more(|b| b.existential(no_role, here)), fields);
    assert_eq!(with_more(|b| b.existential(role, there)), fields);
    assert_eq!(with_more(|b| b.conjunction(there, here)), fields);
    assert_eq!(with_more(|b| b.conjunction(here, there)), fields);
    let roles = refused(Question::Roles, 1);
    assert_eq!(with_more(|b| b.inclusion(role, no_role)), roles);
    assert_eq!(with_more(|b| b.inclusion(no_role, role)), roles);
    assert_eq!(with_more(|b| b.composition(role, no_role, role)), roles);
    let sides = refused(Question::Sides, 1);
    assert_eq!(with_more(|b| b.axiom(there, here)), sides);
    assert_eq!(with_more(|b| b.axiom(here, there)), sides);
}
