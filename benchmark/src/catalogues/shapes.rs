//! Random catalogues in the shapes of `data/timing-*.bin`, at any size: a taxonomy
//! of kinds, most with one parent, and composites over them, of which more or fewer
//! stand in axioms. The counts are those of the files, by 512 concepts; the roles
//! and their axioms are the same at every size.

use reference::catalogue::Concept::{Atomic, Conjunction, Existential, Top};
use reference::catalogue::{Axiom, Catalogue, Concept, MAX_CONCEPTS};
use reference::random::Random;
use std::collections::BTreeSet;

/// What is counted of a file.
pub struct Shape {
    pub seed: u64,
    pub roles: usize,
    pub inclusions: usize,
    pub compositions: usize,
    /// Axioms of a kind under an existential and under a conjunction, and of an
    /// existential and of a conjunction under a kind.
    pub under_existentials: usize,
    pub under_conjunctions: usize,
    pub existentials_under: usize,
    pub conjunctions_under: usize,
}

pub const SPARSE: Shape = Shape {
    seed: 2,
    roles: 6,
    inclusions: 1,
    compositions: 3,
    under_existentials: 58,
    under_conjunctions: 6,
    existentials_under: 15,
    conjunctions_under: 13,
};

pub const MEDIUM: Shape = Shape {
    seed: 10,
    roles: 8,
    inclusions: 1,
    compositions: 8,
    under_existentials: 139,
    under_conjunctions: 14,
    existentials_under: 15,
    conjunctions_under: 23,
};

pub const DENSE: Shape = Shape {
    seed: 2,
    roles: 10,
    inclusions: 2,
    compositions: 16,
    under_existentials: 193,
    under_conjunctions: 26,
    existentials_under: 54,
    conjunctions_under: 61,
};

/// Of 512 concepts, those that are kinds.
const KINDS: usize = 281;

/// Percentages: composites that are conjunctions, conjunctions with an existential,
/// existentials over another, kinds with a second parent.
const CONJUNCTIONS: usize = 34;
const WITH_EXISTENTIAL: usize = 70;
const NESTED: usize = 10;
const SECOND_PARENTS: usize = 8;

/// Which composites are meant.
type Wanted = fn(&Concept) -> bool;

/// A catalogue in the making.
struct Draft<'a> {
    shape: &'a Shape,
    random: Random,
    kinds: usize,
    concepts: Vec<Concept>,
    axioms: BTreeSet<Axiom>,
}

impl Shape {
    /// A catalogue of that many concepts.
    pub fn catalogue(&self, concepts: usize) -> Catalogue {
        let kinds = concepts * KINDS / MAX_CONCEPTS;
        let mut draft = Draft {
            shape: self,
            random: Random::new(self.seed),
            kinds,
            concepts: vec![Atomic; kinds],
            axioms: BTreeSet::new(),
        };
        draft.concepts.push(Top);
        while draft.concepts.len() < concepts {
            let composite = draft.composite();
            draft.concepts.push(composite);
        }
        draft.taxonomy();
        draft.composite_axioms();
        let role_axioms = draft.role_axioms();
        Catalogue {
            concepts: draft.concepts,
            roles: self.roles,
            inclusions: role_axioms.0,
            compositions: role_axioms.1,
            axioms: draft.axioms.into_iter().collect(),
        }
    }
}

/// Role inclusions and role compositions.
type RoleAxioms = (Vec<(usize, usize)>, Vec<(usize, usize, usize)>);

impl Draft<'_> {
    fn percent(&mut self, percentage: usize) -> bool {
        self.random.below(100) < percentage
    }

    fn kind(&mut self) -> usize {
        self.random.below(self.kinds)
    }

    /// One of the existentials, or of the conjunctions; a kind where there is none.
    fn one_of(&mut self, wanted: Wanted) -> usize {
        let numbers = self.kinds..self.concepts.len();
        let all: Vec<usize> = numbers.filter(|&i| wanted(&self.concepts[i])).collect();
        match all.len() {
            0 => self.kind(),
            count => all[self.random.below(count)],
        }
    }

    fn composite(&mut self) -> Concept {
        if self.percent(CONJUNCTIONS) {
            let first = self.kind();
            match self.percent(WITH_EXISTENTIAL) {
                true => Conjunction(first, self.one_of(is_existential)),
                false => Conjunction(first, self.kind()),
            }
        } else {
            let role = self.random.below(self.shape.roles);
            match self.percent(NESTED) {
                true => Existential(role, self.one_of(is_existential)),
                false => Existential(role, self.kind()),
            }
        }
    }

    /// A parent of each kind but the first, rather a late one than an early one, and
    /// of some a second.
    fn taxonomy(&mut self) {
        for kind in 1..self.kinds {
            let parents = 1 + usize::from(self.percent(SECOND_PARENTS));
            for _ in 0..parents {
                let parent = self.random.below(kind).max(self.random.below(kind));
                self.axioms.insert((kind, parent));
            }
        }
    }

    /// Axioms between kinds and composites, as many as the shape has for the size.
    fn composite_axioms(&mut self) {
        let shape = self.shape;
        let upward: [(usize, Wanted, bool); 4] = [
            (shape.under_existentials, is_existential, true),
            (shape.under_conjunctions, is_conjunction, true),
            (shape.existentials_under, is_existential, false),
            (shape.conjunctions_under, is_conjunction, false),
        ];
        for (count, wanted, composite_above) in upward {
            let count = count * self.concepts.len() / MAX_CONCEPTS;
            let goal = self.axioms.len() + count;
            while self.axioms.len() < goal {
                let (kind, composite) = (self.kind(), self.one_of(wanted));
                self.axioms.insert(match composite_above {
                    true => (kind, composite),
                    false => (composite, kind),
                });
            }
        }
    }

    /// Role axioms, each of roles up to the one around them.
    fn role_axioms(&mut self) -> RoleAxioms {
        let shape = self.shape;
        let (mut inclusions, mut compositions) = (BTreeSet::new(), BTreeSet::new());
        while inclusions.len() < shape.inclusions {
            let around = 1 + self.random.below(shape.roles - 1);
            inclusions.insert((self.random.below(around), around));
        }
        while compositions.len() < shape.compositions {
            let around = 1 + self.random.below(shape.roles - 1);
            let [first, second] = [self.random.below(around), self.random.below(around + 1)];
            compositions.insert((first, second, around));
        }
        (
            inclusions.into_iter().collect(),
            compositions.into_iter().collect(),
        )
    }
}

fn is_existential(concept: &Concept) -> bool {
    matches!(concept, Existential(..))
}

fn is_conjunction(concept: &Concept) -> bool {
    matches!(concept, Conjunction(..))
}
