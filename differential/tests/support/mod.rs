//! Cases made by hand: every call on one catalogue and store.

#![allow(dead_code, reason = "not every test makes every case")]

use differential::case::{Buffers, Call, Case, Damage, Lengths, Step};
use differential::report::reported;
use differential::side::LIBRARY;
use differential::tally::Tally;
use reference::calls::{classified, sizes};
use reference::catalogue::{Axiom, Catalogue, list};

/// How much longer the buffers are than what the catalogue asks for.
const SPARE: usize = 3;

/// An empty case on a store, with as much of each buffer as a catalogue asks for.
pub fn on(name: &str, catalogue: &[u8], store: &[u8]) -> Case {
    // A refused catalogue asks for nothing: as much as the store has is enough for a few calls.
    let asked = sizes(catalogue).map(|sizes| (sizes.work, sizes.list));
    let (work, list) = asked.unwrap_or((store.len(), store.len()));
    let mut buffers = Buffers::new(Lengths {
        store: 0,
        work: work + SPARE,
        list: list + SPARE,
        output: catalogue.len() + 50,
        answer: 6,
    });
    buffers.store = store.to_vec();
    Case {
        name: name.to_string(),
        groups: vec![],
        catalogue: catalogue.to_vec(),
        buffers,
        steps: vec![],
    }
}

/// An empty case on the catalogue's own store, with some bytes past the used part.
pub fn on_classified(name: &str, catalogue: &Catalogue) -> Case {
    let bytes = catalogue.bytes();
    let (_, mut store) = classified(&bytes).expect("an accepted catalogue");
    store.extend([0x5a; SPARE]);
    on(name, &bytes, &store)
}

/// A change of these axioms.
pub fn change(withdrawn: &[Axiom], added: &[Axiom]) -> Call {
    Call::Change {
        withdrawn: list(withdrawn),
        added: list(added),
    }
}

/// Adds a call on a damaged catalogue with buffers of these lengths.
pub fn make(case: &mut Case, call: Call, damage: &Damage, lent: Lengths) {
    let fill = case.steps.len() as u64;
    case.steps.push(Step::Make {
        call,
        damage: damage.clone(),
        lent,
        fill,
    });
}

/// Adds a call with the whole buffers.
pub fn call(case: &mut Case, call: Call) {
    let lent = case.buffers.lengths();
    make(case, call, &Damage::default(), lent);
}

/// Adds every reading call: each pair of numbers where there are few concepts, else some.
pub fn reading(case: &mut Case, damage: &Damage) {
    let lent = case.buffers.lengths();
    let n = Catalogue::read(&damage.applied(&case.catalogue)).map_or(0, |read| read.concepts.len());
    let stride = if n <= 20 { 1 } else { 1 + n / 5 };
    for d in (0..n + 2).step_by(stride) {
        for c in (0..n + 2).step_by(stride) {
            make(case, Call::Lookup(c, d), damage, lent);
        }
        make(case, Call::Row(d), damage, lent);
        make(case, Call::List(d), damage, lent);
    }
    make(case, Call::Write, damage, lent);
    make(case, Call::Check, damage, lent);
}

/// Adds a change, its converse, and a move.
pub fn edits(case: &mut Case, (left, right): Axiom, damage: &Damage, lent: Lengths) {
    let (one, other) = ([(left, right)], [(right, left)]);
    for (out, new) in [(&[][..], &one[..]), (&one, &[]), (&one, &other)] {
        make(case, change(out, new), damage, lent);
    }
}

/// Adds every call on a damaged catalogue; and where that is accepted, the store's own again.
pub fn all(case: &mut Case, damage: &Damage) {
    let lent = case.buffers.lengths();
    make(case, Call::Classify, damage, lent);
    for axiom in [(1, 0), (0, 1)] {
        edits(case, axiom, damage, lent);
    }
    reading(case, damage);
    if sizes(&damage.applied(&case.catalogue)).is_ok() {
        call(case, Call::Classify);
    }
}

/// Runs a case by the library and the reference.
pub fn agree(case: &Case, tally: &mut Tally) {
    if let Err(report) = reported(case, &LIBRARY, tally) {
        panic!("{report}");
    }
}
