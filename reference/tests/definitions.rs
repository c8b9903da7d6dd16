//! The worklists against the papers' definitions by rounds, on small random
//! catalogues; and the least set against a model.

use reference::catalogue::{Axiom, Catalogue, Concept};
use reference::change::{Change, Edit};
use reference::expressions::ExpressionSet;
use reference::random::Random;
use reference::rounds::{self, Instance, Set, partitions};
use reference::rules::{Expression, Ontology, Rules};
use reference::saturation::least_set;
use std::collections::BTreeSet;

fn plain(set: &ExpressionSet) -> Set {
    set.iter().collect()
}

/// A catalogue with its rules, and every instance of them.
struct Setting {
    catalogue: Catalogue,
    rules: Rules,
    instances: Vec<Instance>,
}

impl Setting {
    fn new(random: &mut Random, max_concepts: usize) -> Setting {
        let catalogue = random.catalogue(max_concepts);
        let rules = Rules::new(&catalogue);
        let instances = rounds::instances(&rules);
        Setting {
            catalogue,
            rules,
            instances,
        }
    }

    fn ontology(&self, axioms: &BTreeSet<Axiom>) -> Ontology {
        Ontology::new(&self.rules, axioms.clone())
    }

    /// Changes the axioms in force to others, on the held set, and compares every
    /// result with the definitions.
    fn change(
        &self,
        before: &BTreeSet<Axiom>,
        after: &BTreeSet<Axiom>,
        held: &ExpressionSet,
    ) -> Change {
        let (old, new) = (self.ontology(before), self.ontology(after));
        let rules = &self.rules;
        let edit = Edit {
            rules,
            old: &old,
            new: &new,
            held,
        };
        let held = plain(held);
        let by_rounds = rounds::Edit {
            rules,
            instances: &self.instances,
            old: &old,
            new: &new,
            held: &held,
        };
        let over = by_rounds.over_deleted();
        assert_eq!(plain(&edit.over_deleted()), over);
        let set = by_rounds.change(&over);
        let change = edit.run();
        assert_eq!(plain(&change.set), set);
        let gained = &set - &held;
        assert_eq!(change.removed, over.len());
        assert_eq!(change.returned, over.intersection(&set).count());
        assert_eq!(change.gained, gained.len());
        let broken = partitions(&over);
        assert_eq!(change.touched, &broken | &partitions(&gained));
        // What is added alone or withdrawn alone is changed as document 01 has it.
        if before.is_subset(after) {
            assert_eq!((over.len(), set), (0, by_rounds.add()));
        } else if after.is_subset(before) {
            assert_eq!(set, by_rounds.withdraw(&over));
        }
        if before == after {
            assert_eq!(plain(&change.set), held);
        }
        change
    }
}

/// A subset of the axioms in force, and some others.
fn any_lists(
    random: &mut Random,
    n: usize,
    axioms: &BTreeSet<Axiom>,
) -> (BTreeSet<Axiom>, BTreeSet<Axiom>) {
    let most = [0, 1, 1, 2, 4][random.below(5)];
    let kept = |_: &&Axiom| random.below(1 + axioms.len()) < most;
    let out = axioms.iter().filter(kept).copied().collect();
    let count = [0, 1, 1, 2, 3][random.below(5)];
    let any = (0..count).map(|_| (random.below(n), random.below(n)));
    let into = any.filter(|axiom| !axioms.contains(axiom)).collect();
    (out, into)
}

/// A set of any content.
fn any_set(random: &mut Random, catalogue: &Catalogue) -> ExpressionSet {
    let n = catalogue.concepts.len();
    let mut set = ExpressionSet::new(n, catalogue.roles);
    for _ in 0..random.below(3 * n * (catalogue.roles + 1)) {
        let (c, d) = (random.below(n), random.below(n));
        match random.below(catalogue.roles + 1) {
            0 => set.insert(Expression::Pair(c, d)),
            r => set.insert(Expression::Link(c, r - 1, d)),
        };
    }
    set
}

/// From a right set, changes in a row leave the least set of the axioms then in
/// force, and rows outside the affected partitions as they were.
#[test]
fn changes_in_a_row_from_a_right_set() {
    for seed in 0..400 {
        let random = &mut Random::new(seed);
        let setting = Setting::new(random, 6);
        let n = setting.catalogue.concepts.len();
        let mut axioms: BTreeSet<Axiom> = setting.catalogue.axioms.iter().copied().collect();
        let mut set = least_set(&setting.rules, &setting.ontology(&axioms));
        for _ in 0..6 {
            let (out, into) = any_lists(random, n, &axioms);
            let after = &(&axioms - &out) | &into;
            let change = setting.change(&axioms, &after, &set);
            let ontology = setting.ontology(&after);
            let fresh = least_set(&setting.rules, &ontology);
            let by_rounds = rounds::least_set(&setting.rules, &setting.instances, &ontology);
            assert_eq!(plain(&fresh), by_rounds, "seed {seed}");
            assert_eq!(change.set, fresh, "seed {seed}");
            let outside = |s: &ExpressionSet| -> Set {
                s.iter()
                    .filter(|x| !change.touched.contains(&x.partition()))
                    .collect()
            };
            assert_eq!(outside(&set), outside(&fresh), "seed {seed}");
            (axioms, set) = (after, change.set);
        }
    }
}

/// From a set of any content, changes do what the definitions say.
#[test]
fn changes_from_any_set() {
    for seed in 1000..2500 {
        let random = &mut Random::new(seed);
        let setting = Setting::new(random, 6);
        let n = setting.catalogue.concepts.len();
        let axioms: BTreeSet<Axiom> = setting.catalogue.axioms.iter().copied().collect();
        let set = any_set(random, &setting.catalogue);
        let (out, into) = any_lists(random, n, &axioms);
        let after = &(&axioms - &out) | &into;
        let change = setting.change(&axioms, &after, &set);
        setting.change(&after, &axioms, &change.set);
    }
}

/// The interpretation whose objects are the concepts that occur: C is in an
/// atomic A where C ⊑ A, and S leads from E to D for a link by a role within S.
struct Canonical<'a> {
    rules: &'a Rules,
    set: &'a ExpressionSet,
    objects: Vec<usize>,
}

impl Canonical<'_> {
    fn leads(&self, e: usize, s: usize, d: usize) -> bool {
        let within = |r: &usize| self.rules.reach[*r][s];
        (0..self.rules.roles)
            .filter(within)
            .any(|r| self.set.successors(e, r).contains(&d))
    }

    fn is_in(&self, object: usize, concept: usize) -> bool {
        match self.rules.concepts[concept] {
            Concept::Atomic => self.set.subsumers(object).contains(&concept),
            Concept::Top => true,
            Concept::Conjunction(first, second) => {
                self.is_in(object, first) && self.is_in(object, second)
            }
            Concept::Existential(s, filler) => self
                .objects
                .iter()
                .any(|&d| self.leads(object, s, d) && self.is_in(d, filler)),
        }
    }
}

/// The canonical interpretation satisfies the axioms and role axioms, and an
/// object C is in D just where the set has C ⊑ D: so no pair is missing.
#[test]
fn the_least_set_is_complete() {
    for seed in 2000..2500 {
        let catalogue = Random::new(seed).catalogue(10);
        let rules = Rules::new(&catalogue);
        let ontology = Ontology::new(&rules, catalogue.axioms.iter().copied().collect());
        let set = least_set(&rules, &ontology);
        let objects: Vec<usize> = (0..catalogue.concepts.len())
            .filter(|&c| ontology.occurs[c])
            .collect();
        let model = Canonical {
            rules: &rules,
            set: &set,
            objects: objects.clone(),
        };
        for &c in &objects {
            for &d in &objects {
                let pair = set.subsumers(c).contains(&d);
                assert_eq!(model.is_in(c, d), pair, "seed {seed}: {c} in {d}");
            }
            for &(left, right) in &catalogue.axioms {
                assert!(
                    !model.is_in(c, left) || model.is_in(c, right),
                    "seed {seed}"
                );
            }
        }
        for (&e, &c, &d) in triples(&objects) {
            for &(r, s) in &catalogue.inclusions {
                assert!(!model.leads(e, r, d) || model.leads(e, s, d), "seed {seed}");
            }
            for &(s1, s2, s) in &catalogue.compositions {
                let composed = model.leads(e, s1, c) && model.leads(c, s2, d);
                assert!(!composed || model.leads(e, s, d), "seed {seed}");
            }
        }
    }
}

fn triples(objects: &[usize]) -> impl Iterator<Item = (&usize, &usize, &usize)> {
    let pairs = move |e| {
        objects
            .iter()
            .flat_map(move |c| objects.iter().map(move |d| (e, c, d)))
    };
    objects.iter().flat_map(pairs)
}
