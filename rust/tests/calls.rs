//! The calls on lent buffers: what they answer and leave.

#[path = "support/lent.rs"]
mod lent;
mod support;

use girvotal::{Axiom, Builder, Concept, Record, Role, Sizes};
use lent::{Call, FILL, Lent, axiom, checked, kinds};
use support::{file, files};

#[test]
fn sizes_of_w1() {
    let sizes = Sizes {
        store: 35,
        work: 28,
        list: 14,
        written: 264,
    };
    assert_eq!(checked(&file("w1")).sizes(), sizes);
}

#[test]
fn every_call_on_every_file() {
    for (name, catalogue) in files() {
        let mut lent = Lent::classified(&catalogue);
        let n = checked(&catalogue).concepts() as u16;
        let some = || (0..=n).step_by(1 + usize::from(n) / 12);
        for second in some() {
            for first in some() {
                lent.make(Call::Lookup(first, second), &catalogue).ok();
            }
            lent.make(Call::List(second), &catalogue).ok();
            lent.make(Call::Row(second), &catalogue).ok();
        }
        let written = lent.make(Call::Write, &catalogue);
        assert_eq!(written, Ok([catalogue.len(), 0, 0, 0]), "{name}");
        assert!(lent.output.starts_with(&catalogue), "{name}");

        let fresh = lent.store.clone();
        let axioms: Vec<Axiom> = checked(&catalogue).axioms().take(64).collect();
        let out = lent.make(Call::Change(&axioms, &[]), &catalogue);
        let back = lent.make(Call::Change(&[], &axioms), &catalogue);
        assert!(out.is_ok() && back.is_ok(), "{name}");
        assert!(lent.store == fresh, "{name}: as it was");
    }
}

/// Two lists of the most axioms; the bytes past the touched concepts are kept.
#[test]
fn the_longest_lists() {
    let catalogue = kinds(66, (0..64).map(|i| axiom(i, i + 1)));
    let mut lent = Lent::classified(&catalogue);
    let own: Vec<Axiom> = checked(&catalogue).axioms().collect();
    let new: Vec<Axiom> = (0..64).map(|i| axiom(i, 65)).collect();
    let [_, _, _, touched] = lent
        .make(Call::Change(&own, &new), &catalogue)
        .expect("accepted");
    assert_eq!(touched, 64);
    assert_eq!(lent.list[2 * touched..], [FILL; 4]);
}

#[test]
fn lists_of_concepts() {
    let catalogue = &file("w1")[..];
    let mut lent = Lent::classified(catalogue);
    let (store, work, list) = (&mut lent.store, &mut lent.work, &mut lent.list);
    let w1 = checked(catalogue);
    let listed = girvotal::list(&w1, Concept(3), store, list).expect("accepted");
    assert_eq!((listed.len(), listed.is_empty()), (2, false));
    assert_eq!(listed.get(0), Some(Concept(0)));
    assert_eq!(listed.get(1), Some(Concept(3)));
    assert_eq!(listed.get(2), None);
    let mut concepts = Vec::new();
    for concept in listed {
        concepts.push(concept.0);
    }
    assert_eq!(concepts, [0, 3]);
    assert!(listed.iter().map(|concept| concept.0).eq([0, 3]));

    let supply = [axiom(1, 5)];
    let changed = girvotal::change(&w1, &supply, &[], store, work, list).expect("accepted");
    assert!(changed.touched.iter().map(|c| c.0).eq([0, 1, 4, 5]));
    let changed = girvotal::change(&w1, &[], &[], store, work, list).expect("accepted");
    assert!(changed.touched.is_empty());
    assert_eq!(changed.touched.get(0), None);
}

/// The pair rows of W1, as its store holds them.
#[test]
fn rows_of_w1() {
    let catalogue = &file("w1")[..];
    let lent = Lent::classified(catalogue);
    let rows = [89, 34, 4, 8, 88, 32, 72];
    for (concept, bits) in (0..).zip(rows) {
        let row = girvotal::row(&checked(catalogue), Concept(concept), &lent.store);
        let row = row.expect("accepted");
        assert_eq!(row.bytes(), [bits]);
        let above: Vec<u16> = (0..8).filter(|i| bits >> i & 1 == 1).collect();
        assert!(row.iter().map(|c| c.0).eq(above.iter().copied()));
        for other in (0..20).chain([u16::MAX]) {
            assert_eq!(row.contains(Concept(other)), above.contains(&other));
        }
    }
}

/// A row of the greatest width.
#[test]
fn a_row_of_512_bits() {
    let catalogue = kinds(512, [axiom(0, 255), axiom(0, 256), axiom(256, 511)]);
    let lent = Lent::classified(&catalogue);
    let row = girvotal::row(&checked(&catalogue), Concept(0), &lent.store).expect("accepted");
    assert_eq!(row.bytes().len(), 64);
    assert!(row.iter().map(|c| c.0).eq([0, 255, 256, 511]));
    assert!(row.contains(Concept(511)) && !row.contains(Concept(512)));
}

#[test]
fn what_a_catalogue_says() {
    let bytes = file("w1");
    let w1 = checked(&bytes);
    assert_eq!((w1.concepts(), w1.roles()), (7, 3));
    assert_eq!(w1.bytes(), bytes);
    let records: Vec<Record> = w1.records().collect();
    assert_eq!(records[..4], [Record::Atomic; 4]);
    assert_eq!(records[4], Record::Existential(Role(0), Concept(1)));
    assert_eq!(w1.record(Concept(6)), records.last().copied());
    assert_eq!(w1.record(Concept(7)), None);
    assert_eq!(w1.inclusions().len(), 0);
    let composition = w1.compositions().next().expect("a composition");
    let roles = [composition.first, composition.second, composition.result];
    assert_eq!(roles.map(|role| role.0), [0, 1, 2]);
    assert!(w1.axioms().eq([axiom(0, 4), axiom(1, 5), axiom(6, 3)]));
}

/// Conjunctions of conjunctions, as deep as may be.
fn deep() -> Vec<u8> {
    let mut builder = Builder::new();
    let kind = builder.kind();
    let last = (1..512).fold(kind, |part, _| builder.conjunction(part, part));
    builder.axiom(last, kind);
    builder.build().expect("an accepted catalogue")
}

/// No call takes more than 1 MiB of stack; the rest of the thread's is for this test.
#[test]
fn a_small_stack() {
    let calls = || {
        for catalogue in [deep(), file("timing-dense")] {
            let mut lent = Lent::classified(&catalogue);
            let axioms: Vec<Axiom> = checked(&catalogue).axioms().take(64).collect();
            for call in [
                Call::Lookup(0, 1),
                Call::List(0),
                Call::Row(0),
                Call::Write,
                Call::Change(&axioms, &[]),
            ] {
                let accepted = lent.make(call, &catalogue);
                assert!(accepted.is_ok(), "{call:?}: {accepted:?}");
            }
        }
    };
    let thread = std::thread::Builder::new().stack_size(1040 * 1024);
    thread.spawn(calls).expect("a thread").join().expect("done");
}
