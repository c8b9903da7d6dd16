//! What changes cost, beside classify. Every store that is left is compared with
//! one that is classified from the axioms then in force.

use super::classify;
use crate::statistics::Sample;
use crate::timing::{Budget, milliseconds};
use girvotal::{Concept, Site};
use reference::catalogue::{Axiom, Catalogue};
use reference::random::Random;

/// How many axioms of each kind there are.
pub const AXIOMS: usize = 25;

/// One of the two axioms of an edit: one of the catalogue's own, or a new one.
#[derive(Clone, Copy)]
pub enum Which {
    Own,
    New,
}

use Which::{New, Own};

/// A change: the axioms withdrawn, and those added.
pub type Lists = [&'static [Which]; 2];

/// An edit: what it is called, what the catalogue is changed by before it, and the
/// changes that are timed together.
pub struct Kind {
    pub name: &'static str,
    before: Lists,
    timed: &'static [Lists],
}

const NONE: Lists = [&[], &[]];

pub const KINDS: &[Kind] = &[
    Kind {
        name: "add, one of its own",
        before: [&[Own], &[]],
        timed: &[[&[], &[Own]]],
    },
    Kind {
        name: "add, a new one",
        before: NONE,
        timed: &[[&[], &[New]]],
    },
    Kind {
        name: "withdraw, one of its own",
        before: NONE,
        timed: &[[&[Own], &[]]],
    },
    Kind {
        name: "withdraw, a new one",
        before: [&[], &[New]],
        timed: &[[&[New], &[]]],
    },
    Kind {
        name: "move, one change",
        before: NONE,
        timed: &[[&[Own], &[New]]],
    },
    Kind {
        name: "move, withdraw then add",
        before: NONE,
        timed: &[[&[Own], &[]], [&[], &[New]]],
    },
];

/// Axioms of the catalogue, evenly spread.
fn own_axioms(catalogue: &Catalogue, wanted: usize) -> Vec<Axiom> {
    let count = catalogue.axioms.len();
    (0..wanted)
        .map(|i| catalogue.axioms[i * count / wanted])
        .collect()
}

/// Random axioms that the catalogue does not have.
fn new_axioms(catalogue: &Catalogue) -> Vec<Axiom> {
    let n = catalogue.concepts.len();
    let mut random = Random::new(n as u64);
    let any = std::iter::repeat_with(move || (random.below(n), random.below(n)));
    any.filter(|axiom| !catalogue.axioms.contains(axiom))
        .take(AXIOMS)
        .collect()
}

/// The axioms of an edit.
#[derive(Clone, Copy, Debug)]
pub struct Axioms {
    own: Axiom,
    new: Axiom,
}

impl Axioms {
    /// Those that are chosen for a catalogue.
    pub fn chosen(catalogue: &Catalogue) -> Vec<Axioms> {
        let both = own_axioms(catalogue, AXIOMS)
            .into_iter()
            .zip(new_axioms(catalogue));
        both.map(|(own, new)| Axioms { own, new }).collect()
    }

    fn named(self, which: &[Which]) -> Vec<Axiom> {
        let one = |which: &Which| match which {
            Own => self.own,
            New => self.new,
        };
        which.iter().map(one).collect()
    }

    /// A catalogue with what a change leaves of its axioms.
    fn changed(self, mut catalogue: Catalogue, lists: &Lists) -> Catalogue {
        let [out, into] = lists.map(|list| self.named(list));
        catalogue.axioms.retain(|axiom| !out.contains(axiom));
        catalogue.axioms.extend(into);
        catalogue.axioms.sort();
        catalogue
    }

    /// The catalogues before an edit and after it.
    pub fn around(self, catalogue: &Catalogue, kind: &Kind) -> [Catalogue; 2] {
        let before = self.changed(catalogue.clone(), &kind.before);
        let changed = |catalogue, lists| self.changed(catalogue, lists);
        let after = kind.timed.iter().fold(before.clone(), changed);
        [before, after]
    }
}

/// A catalogue, classified.
pub fn classified(catalogue: &Catalogue) -> Site {
    classify::site(&catalogue.bytes())
}

/// Makes the changes of an edit; the milliseconds that they took.
pub fn edit(site: &mut Site, kind: &Kind, axioms: Axioms) -> f64 {
    let timed = kind.timed.iter().map(|lists| {
        let [out, into] = lists.map(|which| axioms.named(which));
        change(site, &out, &into)
    });
    timed.sum()
}

/// Makes one change; the milliseconds that it took.
fn change(site: &mut Site, withdrawn: &[Axiom], added: &[Axiom]) -> f64 {
    let concept = |number: usize| Concept(u16::try_from(number).expect("a concept's number"));
    let axiom = |&(left, right): &Axiom| girvotal::Axiom {
        left: concept(left),
        right: concept(right),
    };
    let [out, into] = [withdrawn, added].map(|list| list.iter().map(axiom).collect::<Vec<_>>());
    milliseconds(|| {
        site.change(&out, &into).expect("accepted");
    })
}

/// The cost of an edit, and of a classify before it.
pub struct Cost {
    pub classify: f64,
    pub edit: f64,
}

/// Times a kind of edit on a catalogue, by so many axioms. Of an edit the least of
/// some runs counts, and so of classify beside it.
pub fn time_kind(
    name: &str,
    catalogue: &Catalogue,
    kind: &Kind,
    (count, runs): (usize, usize),
) -> Vec<Cost> {
    let chosen = Axioms::chosen(catalogue);
    let timed = chosen.iter().step_by(AXIOMS / count).map(|&axioms| {
        let [mut site, expected] = axioms
            .around(catalogue, kind)
            .map(|known| classified(&known));
        let mut cost = Cost {
            classify: f64::MAX,
            edit: f64::MAX,
        };
        for _ in 0..runs {
            let classify = milliseconds(|| site.reclassify().expect("accepted"));
            cost.classify = cost.classify.min(classify);
            cost.edit = cost.edit.min(edit(&mut site, kind, axioms));
            assert!(site.store() == expected.store(), "{name}: {axioms:?}");
        }
        cost
    });
    timed.collect()
}

/// Milliseconds of changes by one axiom.
pub struct OneAxiom {
    pub withdraw: Sample,
    pub add: Sample,
    /// How many different axioms the changes are by.
    pub axioms: usize,
}

/// Times changes that withdraw an axiom of the catalogue, each followed by the one
/// that adds it again. Every run takes another axiom, evenly spread; if there are
/// fewer than runs, all are taken, each as often as the others. The first says how
/// many there are, and counts only if it exceeds the budget.
pub fn time_one_axiom(
    name: &str,
    catalogue: &Catalogue,
    site: &mut Site,
    budget: Budget,
) -> OneAxiom {
    let store = site.store().to_vec();
    let mut both = |axiom: Axiom| {
        let withdraw = change(site, &[axiom], &[]);
        let add = change(site, &[], &[axiom]);
        assert!(
            site.store() == store,
            "{name}: {axiom:?} withdrawn and added"
        );
        [withdraw, add]
    };
    let first = both(catalogue.axioms[0]);
    let one = first.iter().sum();
    let rounds = budget.rounds(one);
    let axioms = own_axioms(catalogue, rounds.min(catalogue.axioms.len()));
    let passes = rounds.div_ceil(axioms.len());
    let counted = budget.is_exceeded(one).then_some(first);
    let runs = axioms.iter().cycle().take(passes * axioms.len());
    let others = runs.skip(counted.iter().len()).copied().map(both);
    let times: Vec<[f64; 2]> = counted.into_iter().chain(others).collect();
    let sample = |i: usize| Sample::of(times.iter().map(|time| time[i]).collect());
    OneAxiom {
        withdraw: sample(0),
        add: sample(1),
        axioms: axioms.len(),
    }
}
