//! The two lists of a change, right or at fault.

use reference::catalogue::{AXIOM_LENGTH, Axiom, Catalogue, MAX_AXIOMS, MAX_LISTED, list};
use reference::random::Random;
use std::collections::BTreeSet;

/// What may be wrong with lists, by the question that refuses them.
pub const FAULTS: [usize; 5] = [15, 16, 18, 22, 23];

/// How often an axiom that is not in force is looked for.
const TRIES: usize = 8;

/// Axioms to withdraw and to add.
#[derive(Clone, Debug, Default)]
pub struct Lists {
    pub withdrawn: Vec<Axiom>,
    pub added: Vec<Axiom>,
}

/// How long a list is: mostly short.
fn length(random: &mut Random) -> usize {
    match random.below(8) {
        0 | 1 => 0,
        2..=5 => 1 + random.below(3),
        6 => random.below(10),
        _ => random.below(MAX_LISTED + 1),
    }
}

fn any_axiom(random: &mut Random, n: usize) -> Axiom {
    (random.below(n), random.below(n))
}

/// One of the catalogue's axioms, or any.
fn own_or_any(random: &mut Random, catalogue: &Catalogue) -> Axiom {
    let own = &catalogue.axioms;
    match random.below(2) {
        0 if !own.is_empty() => own[random.below(own.len())],
        _ => any_axiom(random, catalogue.concepts.len()),
    }
}

impl Lists {
    /// Axioms in force out, and others in: those that the catalogue has, and any.
    pub fn right(random: &mut Random, catalogue: &Catalogue, in_force: &BTreeSet<Axiom>) -> Lists {
        let mut lists = Lists::default();
        let mut left: Vec<Axiom> = in_force.iter().copied().collect();
        for _ in 0..length(random).min(left.len()) {
            let at = random.below(left.len());
            lists.withdrawn.push(left.swap_remove(at));
        }
        for _ in 0..length(random) {
            let mut tried = (0..TRIES).map(|_| own_or_any(random, catalogue));
            let new = |axiom: &Axiom| !in_force.contains(axiom) && !lists.added.contains(axiom);
            let found = tried.find(new);
            lists.added.extend(found);
        }
        lists
    }

    /// The axioms in force after a change by right lists, which is refused where there are too
    /// many, before it or after it.
    pub fn after(&self, in_force: &BTreeSet<Axiom>) -> BTreeSet<Axiom> {
        let withdrawn = self.withdrawn.iter().copied().collect();
        let mut after = in_force - &withdrawn;
        after.extend(&self.added);
        if in_force.len().max(after.len()) > MAX_AXIOMS {
            return in_force.clone();
        }
        after
    }

    /// The bytes of both.
    pub fn bytes(&self) -> [Vec<u8>; 2] {
        [list(&self.withdrawn), list(&self.added)]
    }

    /// One of the two, at random.
    fn either(&mut self, random: &mut Random) -> &mut Vec<Axiom> {
        match random.below(2) {
            0 => &mut self.withdrawn,
            _ => &mut self.added,
        }
    }

    /// Puts an axiom somewhere in one of the lists.
    fn put(&mut self, random: &mut Random, into: Option<bool>, axiom: Axiom) {
        let list = match into {
            Some(true) => &mut self.added,
            Some(false) => &mut self.withdrawn,
            None => self.either(random),
        };
        let at = random.below(list.len() + 1);
        list.insert(at, axiom);
    }

    /// Adds a fault; 16 where nothing is in force, and the like, adds none.
    fn spoil(&mut self, random: &mut Random, fault: usize, n: usize, in_force: &BTreeSet<Axiom>) {
        match fault {
            15 => {
                let out = [n, n + 1, n + 8, 65_535][random.below(4)];
                let (left, right) = any_axiom(random, n);
                let axiom = [(out, right), (left, out)][random.below(2)];
                self.put(random, None, axiom);
            }
            16 if !in_force.is_empty() => {
                let at = random.below(in_force.len());
                let axiom = *in_force.iter().nth(at).expect("an axiom in force");
                self.put(random, Some(true), axiom);
            }
            18 => {
                let axiom = any_axiom(random, n);
                if !in_force.contains(&axiom) {
                    self.put(random, Some(false), axiom);
                }
            }
            22 => {
                let more = MAX_LISTED + 1 + random.below(3);
                let axiom = any_axiom(random, n);
                self.either(random).resize(more, axiom);
            }
            _ => {
                let all: Vec<Axiom> = [&self.withdrawn[..], &self.added].concat();
                if !all.is_empty() {
                    let axiom = all[random.below(all.len())];
                    self.put(random, None, axiom);
                }
            }
        }
    }

    /// The bytes of right lists after one fault or two.
    pub fn faulty(
        random: &mut Random,
        catalogue: &Catalogue,
        in_force: &BTreeSet<Axiom>,
    ) -> [Vec<u8>; 2] {
        let mut lists = Lists::right(random, catalogue, in_force);
        for _ in 0..1 + random.below(2) {
            let fault = FAULTS[random.below(FAULTS.len())];
            lists.spoil(random, fault, catalogue.concepts.len(), in_force);
        }
        let mut bytes = lists.bytes();
        if random.below(12) == 0 {
            // Not of whole axioms.
            let list = &mut bytes[random.below(2)];
            let length = list.len() + 1 + random.below(AXIOM_LENGTH - 1);
            list.resize(length, 0);
        }
        bytes
    }
}
