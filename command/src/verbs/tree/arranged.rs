//! The kinds of a state, arranged by what the library says lies under what.

use girvotal::{Concept, Refusal, Row};

use crate::state::State;
use crate::text::{Line, statements, used};

/// Kinds of which each lies under the other.
pub struct Entry<'s> {
    /// Their names, rising.
    pub names: Vec<&'s str>,
    /// The record of the first.
    concept: Concept,
    /// Their own axioms, as a text has them: those with one of them as a side that is said.
    pub axioms: Vec<String>,
    /// Whether one of them is in an axiom in force, as a side or in one.
    pub used: bool,
    /// The entries directly above, rising.
    pub above: Vec<usize>,
    /// The entries directly below, rising.
    pub below: Vec<usize>,
    /// How many kinds lie below, directly or not.
    pub kinds_below: usize,
}

impl<'s> Entry<'s> {
    /// Of one kind, with nothing around it.
    fn of(kind: &Kind<'s>, used: bool) -> Entry<'s> {
        Entry {
            names: vec![kind.name],
            concept: kind.concept,
            axioms: vec![],
            used,
            above: vec![],
            below: vec![],
            kinds_below: 0,
        }
    }

    /// Adds a kind's own axioms.
    fn add_axioms(&mut self, statements: &[Line], kind: Concept) {
        for Line { axiom, both, text } in statements {
            let own = axiom.left == kind || *both && axiom.right == kind;
            if own && !self.axioms.contains(text) {
                self.axioms.push(text.clone());
            }
        }
    }

    /// A word that no other entry has, by the record of its first kind.
    pub fn id(&self) -> String {
        format!("k{}", self.concept.0)
    }
}

/// Where an entry stands in the tree.
#[derive(Clone, Copy)]
pub struct Place {
    /// The entry.
    pub entry: usize,
    /// The entry that it stands under.
    pub above: Option<usize>,
    /// How many entries it stands under.
    pub depth: usize,
    /// Whether it is the entry's first place: what lies below stands there alone.
    pub first: bool,
}

/// All entries, and the places in which they stand.
pub struct Tree<'s> {
    entries: Vec<Entry<'s>>,
    places: Vec<Place>,
}

/// A kind with its name and the concepts above it.
struct Kind<'s> {
    concept: Concept,
    name: &'s str,
    above: Row<'s>,
}

impl Kind<'_> {
    fn under(&self, other: &Kind<'_>) -> bool {
        self.above.contains(other.concept)
    }
}

impl<'s> Tree<'s> {
    /// The tree of a state. Entries are numbered by their first names, those in no axiom last.
    pub fn of(state: &'s State) -> Result<Tree<'s>, Refusal> {
        let used = used(state.site.catalogue());
        let mut kinds = Vec::new();
        for concept in state.kinds() {
            let (name, above) = (state.name(concept), state.site.row(concept)?);
            kinds.push(Kind {
                concept,
                name,
                above,
            });
        }
        let unused = |kind: &Kind<'_>| !used[usize::from(kind.concept.0)];
        kinds.sort_by_key(|kind| (unused(kind), kind.name));
        let mut entries: Vec<Entry<'s>> = Vec::new();
        let mut firsts: Vec<&Kind<'s>> = Vec::new();
        let statements = statements(state.site.catalogue(), &state.names);
        for kind in &kinds {
            let equal = |first: &&Kind<'s>| kind.under(first) && first.under(kind);
            match firsts.iter().position(equal) {
                Some(entry) => {
                    entries[entry].names.push(kind.name);
                    entries[entry].add_axioms(&statements, kind.concept);
                }
                None => {
                    firsts.push(kind);
                    entries.push(Entry::of(kind, !unused(kind)));
                    let entry = entries.last_mut().expect("one was added");
                    entry.add_axioms(&statements, kind.concept);
                }
            }
        }
        order(&mut entries, &firsts);
        let places = places(&entries);
        Ok(Tree { entries, places })
    }

    /// The entries.
    pub fn entries(&self) -> &[Entry<'s>] {
        &self.entries
    }

    /// The entry of a number.
    pub fn entry(&self, number: usize) -> &Entry<'s> {
        &self.entries[number]
    }

    /// The places from top to bottom: after an entry's first place follow those below it.
    pub fn places(&self) -> &[Place] {
        &self.places
    }

    /// How many kinds there are.
    pub fn kinds(&self) -> usize {
        self.entries.iter().map(|entry| entry.names.len()).sum()
    }
}

/// Enters what is above and below: of the entries above one, those are direct that are above no
/// other of them.
fn order(entries: &mut [Entry<'_>], firsts: &[&Kind<'_>]) {
    let numbers = 0..entries.len();
    let above = |entry: usize| {
        let others = numbers.clone().filter(move |&other| other != entry);
        let above = others.filter(|&other| firsts[entry].under(firsts[other]));
        above.collect()
    };
    let all_above: Vec<Vec<usize>> = numbers.clone().map(above).collect();
    for (entry, above) in all_above.iter().enumerate() {
        let mut direct = vec![true; entries.len()];
        for &other in above {
            all_above[other].iter().for_each(|&far| direct[far] = false);
        }
        let names = entries[entry].names.len();
        for &other in above {
            entries[other].kinds_below += names;
            if direct[other] {
                entries[entry].above.push(other);
                entries[other].below.push(entry);
            }
        }
    }
}

/// The places of all entries: those with none above at the top, the others under each directly
/// above.
fn places(entries: &[Entry<'_>]) -> Vec<Place> {
    let under = |above: Option<usize>, depth: usize| {
        move |&entry: &usize| Place {
            entry,
            above,
            depth,
            first: false,
        }
    };
    let tops: Vec<usize> = (0..entries.len())
        .filter(|&entry| entries[entry].above.is_empty())
        .collect();
    let mut left: Vec<Place> = tops.iter().rev().map(under(None, 0)).collect();
    let mut placed = vec![false; entries.len()];
    let mut places = Vec::new();
    while let Some(mut place) = left.pop() {
        let Entry { below, .. } = &entries[place.entry];
        place.first = !placed[place.entry];
        placed[place.entry] = true;
        places.push(place);
        if place.first {
            let below = below.iter().rev();
            left.extend(below.map(under(Some(place.entry), place.depth + 1)));
        }
    }
    places
}
