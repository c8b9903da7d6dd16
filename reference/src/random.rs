//! Small random catalogues, the same ones in every run.

use crate::catalogue::{Catalogue, Concept};
use std::collections::BTreeSet;

/// A xorshift generator.
pub struct Random(u64);

impl Random {
    pub fn new(seed: u64) -> Random {
        Random(seed.wrapping_mul(0x9e37_79b9_7f4a_7c15) | 1)
    }

    /// A number below `bound`.
    pub fn below(&mut self, bound: usize) -> usize {
        self.0 ^= self.0 << 13;
        self.0 ^= self.0 >> 7;
        self.0 ^= self.0 << 17;
        (self.0 >> 16) as usize % bound
    }

    fn concept(&mut self, number: usize, roles: usize) -> Concept {
        match self.below(if number == 0 { 2 } else { 8 }) {
            0 => Concept::Atomic,
            1 => Concept::Top,
            2 | 3 => Concept::Conjunction(self.below(number), self.below(number)),
            4..=6 if roles > 0 => Concept::Existential(self.below(roles), self.below(number)),
            _ => Concept::Atomic,
        }
    }

    /// A catalogue of at most that many concepts, and at most two roles.
    pub fn catalogue(&mut self, max_concepts: usize) -> Catalogue {
        let n = 1 + self.below(max_concepts);
        let roles = self.below(3);
        let concepts = (0..n).map(|i| self.concept(i, roles)).collect();
        let mut role_axioms = |most: usize| -> Vec<[usize; 3]> {
            let count = if roles == 0 { 0 } else { self.below(most + 1) };
            (0..count)
                .map(|_| std::array::from_fn(|_| self.below(roles)))
                .collect()
        };
        let inclusions = role_axioms(1).into_iter().map(|[r, s, _]| (r, s)).collect();
        let compositions = role_axioms(2)
            .into_iter()
            .map(|[r, s, t]| (r, s, t))
            .collect();
        let count = self.below(n + 2);
        let axioms: BTreeSet<_> = (0..count).map(|_| (self.below(n), self.below(n))).collect();
        let axioms = axioms.into_iter().collect();
        Catalogue {
            concepts,
            roles,
            inclusions,
            compositions,
            axioms,
        }
    }
}
