//! Catalogues made at random, by shape and size.

use reference::catalogue::{Axiom, Catalogue, Concept, MAX_AXIOMS, MAX_ROLE_AXIOMS, MAX_ROLES};
use reference::random::Random;
use std::collections::BTreeSet;
use std::ops::RangeInclusive;

/// How many concepts a catalogue has.
#[derive(Clone, Copy, Debug, PartialEq, Eq)]
pub enum Size {
    Tiny,
    Small,
    Middle,
    Large,
}

impl Size {
    pub fn name(self) -> &'static str {
        match self {
            Size::Tiny => "tiny",
            Size::Small => "small",
            Size::Middle => "middle",
            Size::Large => "large",
        }
    }

    pub fn range(self) -> RangeInclusive<usize> {
        match self {
            Size::Tiny => 1..=8,
            Size::Small => 9..=33,
            Size::Middle => 34..=128,
            Size::Large => 129..=512,
        }
    }

    /// A count of concepts: often a multiple of 8, and of large ones often the most.
    pub fn concepts(self, random: &mut Random) -> usize {
        let (least, most) = (*self.range().start(), *self.range().end());
        let n = least + random.below(most + 1 - least);
        match random.below(3) {
            0 => n.next_multiple_of(8).min(most),
            1 if self == Size::Large => most,
            _ => n,
        }
    }
}

/// What a catalogue is full of.
#[derive(Clone, Copy, Debug, PartialEq, Eq)]
pub enum Shape {
    /// Records of all kinds.
    Mixed,
    /// Composites whose parts are shared: written out they are exponential.
    Shared,
    /// Equal composites.
    Doubles,
    /// Several tops.
    Tops,
    /// Chains of existentials, with roles that compose.
    Chain,
    /// 16 roles with 64 inclusions and 64 compositions.
    Roles,
    /// No roles.
    Bare,
    /// A ring of axioms: all concepts are equal.
    Equal,
    /// As many axioms as there may be, or a few less.
    Full,
}

/// The shapes of any size.
pub const SHAPES: [Shape; 8] = [
    Shape::Mixed,
    Shape::Shared,
    Shape::Doubles,
    Shape::Tops,
    Shape::Chain,
    Shape::Roles,
    Shape::Bare,
    Shape::Equal,
];

impl Shape {
    pub fn name(self) -> &'static str {
        match self {
            Shape::Mixed => "mixed",
            Shape::Shared => "shared parts",
            Shape::Doubles => "doubles",
            Shape::Tops => "tops",
            Shape::Chain => "chains",
            Shape::Roles => "16 roles",
            Shape::Bare => "no roles",
            Shape::Equal => "equal",
            Shape::Full => "full",
        }
    }

    fn roles(self, random: &mut Random) -> usize {
        match self {
            Shape::Bare => 0,
            Shape::Roles => MAX_ROLES,
            Shape::Chain => 1 + random.below(3),
            _ => random.below(5),
        }
    }
}

/// A record of any kind.
fn any_concept(random: &mut Random, number: usize, roles: usize) -> Concept {
    match random.below(if number == 0 { 5 } else { 12 }) {
        0 => Concept::Top,
        1..=4 => Concept::Atomic,
        5..=7 => Concept::Conjunction(random.below(number), random.below(number)),
        _ if roles > 0 => Concept::Existential(random.below(roles), random.below(number)),
        _ => Concept::Conjunction(random.below(number), random.below(number)),
    }
}

/// A composite of records just before it.
fn near_concept(random: &mut Random, number: usize, roles: usize) -> Concept {
    let mut near = || number - 1 - random.below(number.min(4));
    let (first, second) = (near(), near());
    if roles > 0 && random.below(3) == 0 {
        Concept::Existential(random.below(roles), first)
    } else {
        Concept::Conjunction(first, second)
    }
}

/// The next record, by the shape.
fn concept(random: &mut Random, shape: Shape, n: usize, before: &[Concept], m: usize) -> Concept {
    let number = before.len();
    match shape {
        Shape::Shared if number <= n / 8 => Concept::Atomic,
        Shape::Shared => near_concept(random, number, m),
        Shape::Tops if random.below(3) == 0 => Concept::Top,
        Shape::Chain if number < n.div_ceil(2) => Concept::Atomic,
        Shape::Chain => Concept::Existential(random.below(m), number - n.div_ceil(2)),
        Shape::Doubles if random.below(2) == 0 => {
            let composite = |concept: &&Concept| **concept != Concept::Atomic;
            let composites: Vec<Concept> = before.iter().filter(composite).copied().collect();
            match composites.len() {
                0 => any_concept(random, number, m),
                count => composites[random.below(count)],
            }
        }
        _ => any_concept(random, number, m),
    }
}

/// How many axioms on roles there are.
fn role_axioms(random: &mut Random, shape: Shape, roles: usize) -> usize {
    match shape {
        Shape::Roles => MAX_ROLE_AXIOMS,
        _ if roles == 0 => 0,
        _ => random.below(4),
    }
}

/// An inclusion of any role in any other, or in the next one of four.
fn inclusion(random: &mut Random, roles: usize, any: bool) -> (usize, usize) {
    let within = random.below(roles);
    match any {
        true => (within, random.below(roles)),
        false => (within, within | random.below(4)),
    }
}

/// A composition of any roles, or one that rises: many of any kind make all links out of few.
fn composition(random: &mut Random, roles: usize, any: bool) -> (usize, usize, usize) {
    let (first, second) = (random.below(roles), random.below(roles));
    match any {
        true => (first, second, random.below(roles)),
        false => (first, second, first.max(second) | random.below(4)),
    }
}

/// The axioms that a shape always has.
fn own_axioms(shape: Shape, n: usize) -> Vec<Axiom> {
    let half = n.div_ceil(2);
    match shape {
        // Each under an existential of the next, broken off now and then: every two of a chain
        // are linked. Two existentials lie under the first concept.
        Shape::Chain => (half + 1..n)
            .filter(|existential| existential % 32 > 0)
            .map(|existential| (existential - half - 1, existential))
            .chain((half..n.min(half + 2)).map(|existential| (existential, 0)))
            .collect(),
        Shape::Equal => (0..n).map(|i| (i, (i + 1) % n)).collect(),
        Shape::Full => {
            let all = (0..n).flat_map(|left| (0..n).map(move |right| (left, right)));
            all.take(MAX_AXIOMS).collect()
        }
        _ => vec![],
    }
}

/// Axioms: those of the shape and some more, of many concepts fewer.
fn axioms(random: &mut Random, shape: Shape, n: usize) -> Vec<Axiom> {
    let mut axioms: BTreeSet<Axiom> = own_axioms(shape, n).into_iter().collect();
    if shape == Shape::Full {
        for _ in 0..random.below(3) {
            axioms.remove(&(random.below(n), random.below(n)));
        }
        return axioms.into_iter().collect();
    }
    let more = match random.below(5) {
        _ if n > 128 && shape == Shape::Chain => random.below(16),
        _ if n > 128 => random.below(n / 3),
        0 => 0,
        1 => random.below(5),
        2 => n / 2,
        3 => n,
        _ => 2 * n,
    };
    axioms.extend((0..more).map(|_| (random.below(n), random.below(n))));
    axioms.into_iter().collect()
}

/// A catalogue of a shape with so many concepts.
pub fn catalogue(random: &mut Random, shape: Shape, n: usize) -> Catalogue {
    let roles = shape.roles(random);
    let mut concepts = vec![];
    for _ in 0..n {
        concepts.push(concept(random, shape, n, &concepts, roles));
    }
    let counts = [0; 2].map(|_| role_axioms(random, shape, roles));
    let any = shape != Shape::Roles || n <= 8 && random.below(16) == 0;
    let inclusions = (0..counts[0])
        .map(|_| inclusion(random, roles, any))
        .collect();
    let compositions = (0..counts[1]).map(|_| composition(random, roles, any));
    let mut compositions: Vec<_> = compositions.collect();
    if shape == Shape::Chain {
        compositions.push((0, 0, 0));
    }
    Catalogue {
        concepts,
        roles,
        inclusions,
        compositions,
        axioms: axioms(random, shape, n),
    }
}
