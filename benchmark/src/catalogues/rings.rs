//! Rings of links that something goes round, one place at a time: each concept that
//! is processed gives one new bit.

use reference::catalogue::Concept::{Atomic, Existential};
use reference::catalogue::{Axiom, Catalogue, Concept};

/// The roles of the ring's links: from each concept to the one before it, and from
/// the first to the last.
const BEFORE: usize = 0;
const CLOSING: usize = 1;

/// An atomic, existentials each over the one before, and the one over the last that
/// closes the ring if the first lies under it.
fn ring(length: usize) -> Vec<Concept> {
    let existentials = (1..length).map(|i| Existential(BEFORE, i - 1));
    let closing = Existential(CLOSING, length - 1);
    std::iter::once(Atomic)
        .chain(existentials)
        .chain([closing])
        .collect()
}

/// How often the token changes its role, and how many roles link everything in its
/// ring with everything.
const PHASES: usize = 6;
const FULL: usize = 2;
const FIRST_FULL: usize = token(PHASES);

/// The token's role in a phase; the one after is of a token that has come round.
const fn token(phase: usize) -> usize {
    2 + 2 * phase
}

/// A token is passed on to where a link comes from; come round, it gives the one to
/// the concept before, and after the last of these the one of the next phase.
fn token_compositions() -> Vec<(usize, usize, usize)> {
    let of_phase = |phase: usize| {
        let [token, round, next] = [token(phase), token(phase) + 1, token(phase + 1)];
        let passed = [
            (BEFORE, token, token),
            (CLOSING, token, round),
            (round, BEFORE, token),
        ];
        let changed = (phase + 1 < PHASES).then_some((round, CLOSING, next));
        passed.into_iter().chain(changed)
    };
    let full = (FIRST_FULL..FIRST_FULL + FULL).map(|role| (FIRST_FULL, FIRST_FULL, role));
    (0..PHASES).flat_map(of_phase).chain(full).collect()
}

/// A ring of so many concepts that one link goes round, the token. Every role lies
/// within a full one, so that most of what a new link gives is held already.
fn with_token(length: usize, more: &[Concept], more_axioms: &[Axiom]) -> Catalogue {
    let [closing, start] = [length, length + 1];
    let mut concepts = ring(length);
    concepts.push(Existential(token(0), length - 1));
    concepts.extend(more);
    let roles = FIRST_FULL + FULL;
    let others = (0..roles).filter(|&role| role != FIRST_FULL);
    Catalogue {
        concepts,
        roles,
        inclusions: others.map(|role| (role, FIRST_FULL)).collect(),
        compositions: token_compositions(),
        axioms: [&[(0, closing), (0, start)], more_axioms].concat(),
    }
}

/// A token that goes round a ring.
pub fn tokens(concepts: usize) -> Catalogue {
    with_token(concepts - 2, &[], &[])
}

/// The same with a second way to the token: without one of them, all that comes of
/// it is deleted, and returns.
pub fn tokens_by_two_ways(concepts: usize) -> Catalogue {
    let [start, other] = [concepts - 2, concepts - 1];
    with_token(concepts - 3, &[Atomic], &[(0, other), (other, start)])
}

/// A ring that marks go round: one that has come round gives the next. So many roles
/// link everything in the ring with everything.
pub fn marked(concepts: usize, full: usize) -> Catalogue {
    let marks = concepts / 4;
    let length = concepts - 2 * marks - 1;
    let mut records = ring(length);
    records.push(Atomic);
    let [closing, mut mark] = [length, length + 1];
    let mut axioms = vec![(0, closing), (0, mark)];
    for _ in 0..marks {
        axioms.push((records.len(), mark));
        records.push(Existential(BEFORE, mark));
        if records.len() < concepts {
            records.push(Existential(CLOSING, mark));
            mark = records.len() - 1;
        }
    }
    axioms.push((mark, mark));
    axioms.sort();
    let first_full = 2;
    let within = [BEFORE, CLOSING].map(|role| (role, first_full));
    let composition = |i: usize| (first_full, first_full, first_full + i);
    Catalogue {
        concepts: records,
        roles: first_full + full,
        inclusions: within.into_iter().filter(|_| full > 0).collect(),
        compositions: (0..full).map(composition).collect(),
        axioms,
    }
}
