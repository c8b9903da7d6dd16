//! Catalogues laid out against the library's method: it goes through the concepts
//! in rising order, again and again, and takes all that is new of one at once.

use reference::catalogue::Concept::{Atomic, Conjunction, Existential};
use reference::catalogue::{Axiom, Catalogue, Concept, MAX_AXIOMS, MAX_ROLE_AXIOMS, MAX_ROLES};
use reference::examples;
use reference::random::Random;

/// Half atomics and half existentials over them, all in one circle of axioms; 16
/// roles in one circle of inclusions, with 64 compositions.
fn circle(concepts: usize, composition: fn(usize) -> RoleComposition) -> Catalogue {
    let half = concepts / 2;
    let existential = |i: usize| Existential(i % MAX_ROLES, i);
    Catalogue {
        concepts: atomics(half).chain((0..half).map(existential)).collect(),
        roles: MAX_ROLES,
        inclusions: (0..MAX_ROLES).map(|r| (r, (r + 1) % MAX_ROLES)).collect(),
        compositions: (0..MAX_ROLE_AXIOMS).map(composition).collect(),
        axioms: (0..2 * half).map(|c| (c, (c + 1) % (2 * half))).collect(),
    }
}

/// A role composition: two roles, and the one that both lie within.
type RoleComposition = (usize, usize, usize);

/// Such a circle in which each composition is of another pair of roles.
pub fn all_equal(concepts: usize) -> Catalogue {
    circle(concepts, |k| {
        (k / MAX_ROLES, k % MAX_ROLES, (k + 5) % MAX_ROLES)
    })
}

/// Such a circle in which the first role composed with itself gives every role.
pub fn full(concepts: usize) -> Catalogue {
    circle(concepts, |k| match k.checked_sub(MAX_ROLES) {
        None => (0, 0, k),
        Some(i) => (i % MAX_ROLES, (3 * i + 1) % MAX_ROLES, (i + 5) % MAX_ROLES),
    })
}

/// How many atomics the circle of `one_bit_a_sweep` has, and how many marks go
/// round it.
pub fn circle_and_marks(concepts: usize) -> [usize; 2] {
    let circle = concepts / 4;
    [circle, (concepts - 2 * circle) / 3]
}

/// A circle of atomics, each with a link to the next, the last with one to the
/// first by a role of its own. A mark on the last is passed on against the order
/// of numbers, to one atomic in each sweep; on the first it gives the last the
/// next mark.
pub fn one_bit_a_sweep(concepts: usize) -> Catalogue {
    let [circle, marks] = circle_and_marks(concepts);
    let [next, last] = [0, 1];
    let spare = concepts - 2 * circle - 3 * marks;
    let mut records: Vec<Concept> = atomics(circle + marks + spare).collect();
    let mut add = |concept| {
        records.push(concept);
        records.len() - 1
    };
    let mark = |j: usize| circle + j;
    let mut axioms = vec![(circle - 1, mark(0))];
    for i in 0..circle - 1 {
        axioms.push((i, add(Existential(next, i + 1))));
    }
    axioms.push((circle - 1, add(Existential(last, 0))));
    for j in 0..marks {
        axioms.push((add(Existential(next, mark(j))), mark(j)));
        let closing = add(Existential(last, mark(j)));
        if j + 1 < marks {
            axioms.push((closing, mark(j + 1)));
        }
    }
    with_axioms(records, 2, axioms)
}

/// Two kinds under the last record; every other composite is made of the ones just
/// before it, each 32nd an existential.
pub fn shared_parts(concepts: usize) -> Catalogue {
    const KINDS: usize = 3;
    let mut random = Random::new(concepts as u64);
    let composite = |i: usize| match i % 32 {
        31 => Existential(i / 32 % 2, i - 1),
        _ => Conjunction(i - 1, i - 1 - random.below(2)),
    };
    let records = atomics(KINDS)
        .chain((KINDS..concepts).map(composite))
        .collect();
    with_axioms(
        records,
        2,
        vec![(0, concepts - 1), (1, 0), (concepts - 1, 2)],
    )
}

/// Composites each of the ones just before it, and as many axioms as there may be,
/// each of a concept and of one just below: parts are as deep as can be, and rows of
/// axioms all have a bit.
pub fn deep_parts(concepts: usize) -> Catalogue {
    let composite = |i: usize| match i % 2 {
        1 => Conjunction(i - 1, i - 2),
        _ => Existential(i % MAX_ROLES, i - 1),
    };
    let records = atomics(2).chain((2..concepts).map(composite)).collect();
    let below = |by: usize| (by..concepts).rev().map(move |c| (c, c - by));
    let axioms = (1..concepts).flat_map(below).take(MAX_AXIOMS);
    with_axioms(records, MAX_ROLES, axioms.collect())
}

/// A chain of links by a transitive role.
pub fn long_chains(concepts: usize) -> Catalogue {
    examples::chain(concepts / 2 - 1)
}

fn atomics(count: usize) -> impl Iterator<Item = Concept> {
    std::iter::repeat_n(Atomic, count)
}

/// A catalogue without role axioms.
fn with_axioms(concepts: Vec<Concept>, roles: usize, mut axioms: Vec<Axiom>) -> Catalogue {
    axioms.sort();
    Catalogue {
        concepts,
        roles,
        inclusions: vec![],
        compositions: vec![],
        axioms,
    }
}
