//! Built-in catalogues.

use crate::catalogue::{Axiom, Catalogue, Concept};
use Concept::{Atomic, Conjunction, Existential, Top};

/// A name, and the function that makes its catalogue.
pub type Example = (&'static str, fn() -> Catalogue);

/// Every built-in catalogue.
pub const EXAMPLES: &[Example] = &[
    ("w1", w1),
    ("w6", w6),
    ("w7", w7),
    ("w8", w8),
    ("w9", w9),
    ("w10", w10),
    ("example1", example1),
    ("example4", example4),
    ("self-axiom", self_axiom),
    ("tops", tops),
    ("wide", wide),
    ("shared-parts", || shared_parts(64)),
    ("shared-parts-512", || shared_parts(512)),
    ("chain", || chain(16)),
    ("chain-64", || chain(64)),
    ("chain-255", || chain(255)),
];

/// The catalogue of that name.
pub fn named(name: &str) -> Option<Catalogue> {
    let (_, make) = EXAMPLES.iter().find(|(known, _)| *known == name)?;
    Some(make())
}

/// A catalogue without role axioms.
fn plain(concepts: Vec<Concept>, roles: usize, axioms: Vec<Axiom>) -> Catalogue {
    Catalogue {
        concepts,
        roles,
        inclusions: vec![],
        compositions: vec![],
        axioms,
    }
}

/// Corner pitch 0, pillar 1, electricity 2, powered pitch 3, and the
/// existentials ∃has.1, ∃supplies.2, ∃offers.2; has and supplies compose to
/// offers.
pub fn w1() -> Catalogue {
    let existentials = [Existential(0, 1), Existential(1, 2), Existential(2, 2)];
    Catalogue {
        concepts: [vec![Atomic; 4], existentials.to_vec()].concat(),
        roles: 3,
        inclusions: vec![],
        compositions: vec![(0, 1, 2)],
        axioms: vec![(0, 4), (1, 5), (6, 3)],
    }
}

/// `w1` with the axiom (0, 3).
pub fn w6() -> Catalogue {
    Catalogue {
        axioms: vec![(0, 3), (0, 4), (1, 5), (6, 3)],
        ..w1()
    }
}

/// Two concepts that hold each other up, below a third.
pub fn w7() -> Catalogue {
    plain(vec![Atomic; 3], 0, vec![(0, 1), (1, 2), (2, 1)])
}

/// No axioms.
pub fn w8() -> Catalogue {
    w1().bare()
}

/// Eight concepts: a row has no spare bit.
pub fn w9() -> Catalogue {
    let mut catalogue = w1();
    catalogue.concepts.push(Atomic);
    catalogue
}

/// 4,096 axioms: every pair of the first 64 of 65 concepts.
pub fn w10() -> Catalogue {
    let axioms = (0..4096).map(|i| (i / 64, i % 64)).collect();
    plain(vec![Atomic; 65], 0, axioms)
}

/// Document 001, Example 1: A, B, C are 0, 1, 2; R, H, S are 0, 1, 2.
pub fn example1() -> Catalogue {
    let existentials = [
        Existential(0, 1),
        Existential(1, 1),
        Existential(2, 0),
        Existential(2, 2),
    ];
    Catalogue {
        concepts: [vec![Atomic; 3], existentials.to_vec()].concat(),
        roles: 3,
        inclusions: vec![(0, 1)],
        compositions: vec![],
        axioms: vec![(0, 3), (1, 5), (4, 2), (6, 2)],
    }
}

/// Document 001, Example 4: A, B, C are 0, 1, 2; ∃R.B is 3, ∃R.C is 4.
pub fn example4() -> Catalogue {
    let concepts = [vec![Atomic; 3], vec![Existential(0, 1), Existential(0, 2)]].concat();
    plain(concepts, 1, vec![(0, 3), (1, 2), (2, 1), (4, 4)])
}

/// Two concepts, each within itself, and one within the other.
pub fn self_axiom() -> Catalogue {
    plain(vec![Atomic; 2], 0, vec![(0, 0), (0, 1), (1, 1)])
}

/// Two tops, one of them inside an existential.
pub fn tops() -> Catalogue {
    let concepts = vec![Atomic, Top, Top, Existential(0, 2), Atomic];
    plain(concepts, 1, vec![(0, 1), (3, 4)])
}

/// 512 atomics and no roles: a store of 65,536 bytes. The axioms hold between
/// the first half and the last, within the last, and at its last two.
pub fn wide() -> Catalogue {
    let axioms = vec![
        (0, 1),
        (255, 256),
        (256, 511),
        (257, 300),
        (300, 301),
        (301, 257),
        (400, 255),
        (509, 510),
        (510, 511),
        (511, 0),
    ];
    plain(vec![Atomic; 512], 0, axioms)
}

/// Record i is the conjunction of record i - 1 with itself.
pub fn shared_parts(concepts: usize) -> Catalogue {
    let conjunctions = (1..concepts).map(|i| Conjunction(i - 1, i - 1));
    plain(
        std::iter::once(Atomic).chain(conjunctions).collect(),
        0,
        vec![(concepts - 1, 0)],
    )
}

/// A chain of `length` links by a transitive role. Atomics 0 to `length`, of
/// which each lies within ∃0.next; the existential over the last is within
/// one more atomic.
pub fn chain(length: usize) -> Catalogue {
    let mut concepts = vec![Atomic; length + 2];
    concepts.extend((1..=length).map(|next| Existential(0, next)));
    let mut axioms: Vec<Axiom> = (0..length).map(|i| (i, length + 2 + i)).collect();
    axioms.push((2 * length + 1, length + 1));
    Catalogue {
        concepts,
        roles: 1,
        inclusions: vec![],
        compositions: vec![(0, 0, 0)],
        axioms,
    }
}
