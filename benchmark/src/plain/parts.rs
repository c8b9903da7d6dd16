//! What both ways of classifying in plain Rust share: rows of 64-bit words, what
//! a catalogue says, and a store's bytes.

use reference::calls::Counts;
use reference::catalogue::{Catalogue, Concept};
use reference::store::Layout;

pub type Row = Vec<u64>;

/// The set bits of a word, rising.
struct Bits(u64);

impl Iterator for Bits {
    type Item = usize;

    fn next(&mut self) -> Option<usize> {
        let lowest = self.0.trailing_zeros() as usize;
        let found = (self.0 != 0).then_some(lowest);
        self.0 &= self.0.wrapping_sub(1);
        found
    }
}

/// The set bits of a row, rising.
pub fn ones(row: &[u64]) -> impl Iterator<Item = usize> + '_ {
    let words = row.iter().enumerate();
    words.flat_map(|(i, &word)| Bits(word).map(move |bit| 64 * i + bit))
}

pub fn has(row: &[u64], i: usize) -> bool {
    row[i / 64] >> (i % 64) & 1 == 1
}

pub fn put(row: &mut [u64], i: usize) {
    row[i / 64] |= 1 << (i % 64);
}

pub fn or_into(row: &mut [u64], other: &[u64]) {
    row.iter_mut().zip(other).for_each(|(a, b)| *a |= b);
}

/// Atomic records, sides of axioms, and parts of what occurs.
fn occurring(catalogue: &Catalogue) -> Vec<bool> {
    let atomic = |concept: &Concept| *concept == Concept::Atomic;
    let mut occurs: Vec<bool> = catalogue.concepts.iter().map(atomic).collect();
    for &(left, right) in &catalogue.axioms {
        occurs[left] = true;
        occurs[right] = true;
    }
    // A part has a lower number than what it is part of.
    for i in (0..occurs.len())
        .rev()
        .filter(|&i| occurs[i])
        .collect::<Vec<_>>()
    {
        mark_parts(catalogue, i, &mut occurs);
    }
    occurs
}

fn mark_parts(catalogue: &Catalogue, i: usize, occurs: &mut [bool]) {
    for part in catalogue.concepts[i].parts() {
        if !occurs[part] {
            occurs[part] = true;
            mark_parts(catalogue, part, occurs);
        }
    }
}

/// Which role lies within which.
fn reach(catalogue: &Catalogue) -> Vec<Vec<bool>> {
    let m = catalogue.roles;
    let mut reach: Vec<Vec<bool>> = (0..m).map(|i| (0..m).map(|j| i == j).collect()).collect();
    for &(r, s) in &catalogue.inclusions {
        reach[r][s] = true;
    }
    for k in 0..m {
        for i in 0..m {
            for j in 0..m {
                reach[i][j] |= reach[i][k] && reach[k][j];
            }
        }
    }
    reach
}

/// The roles that two roles give together.
fn composed(catalogue: &Catalogue, reach: &[Vec<bool>]) -> Vec<Vec<Vec<usize>>> {
    let results = |r1: usize, r2: usize| {
        let fits = |&&(s1, s2, _): &&(usize, usize, usize)| reach[r1][s1] && reach[r2][s2];
        let fitting = catalogue.compositions.iter().filter(fits);
        let mut all: Vec<usize> = fitting.map(|&(_, _, s)| s).collect();
        all.sort();
        all.dedup();
        all
    };
    let roles = 0..catalogue.roles;
    let second = |r1| roles.clone().map(|r2| results(r1, r2)).collect();
    roles.clone().map(second).collect()
}

/// A catalogue as both ways of classifying take it.
pub struct Ontology {
    pub catalogue: Catalogue,
    /// Words in a row.
    pub words: usize,
    /// The axioms, a row for each left side.
    pub axioms: Vec<Row>,
    pub occurs: Vec<bool>,
    pub reach: Vec<Vec<bool>>,
    pub composed: Vec<Vec<Vec<usize>>>,
}

impl Ontology {
    /// Of the bytes of an accepted catalogue.
    pub fn read(bytes: &[u8]) -> Ontology {
        let catalogue = Catalogue::read(bytes).expect("an accepted catalogue");
        let n = catalogue.concepts.len();
        let words = n.div_ceil(64);
        let mut axioms = vec![vec![0; words]; n];
        for &(left, right) in &catalogue.axioms {
            put(&mut axioms[left], right);
        }
        let reach = reach(&catalogue);
        Ontology {
            words,
            axioms,
            occurs: occurring(&catalogue),
            composed: composed(&catalogue, &reach),
            reach,
            catalogue,
        }
    }

    /// The records that occur, with their numbers.
    pub fn records(&self) -> impl Iterator<Item = (usize, Concept)> + '_ {
        let records = self.catalogue.concepts.iter().copied().enumerate();
        records.filter(|&(x, _)| self.occurs[x])
    }

    /// The tops that occur.
    pub fn tops(&self) -> Vec<usize> {
        let tops = self
            .records()
            .filter(|(_, concept)| *concept == Concept::Top);
        tops.map(|(x, _)| x).collect()
    }

    /// The used part of the store with these rows, of each concept its pairs and
    /// then its links by role; how many of each there are.
    pub fn store(&self, held: &[Row]) -> (Vec<u8>, Counts) {
        let layout = Layout::new(&self.catalogue);
        let mut store = Vec::with_capacity(layout.store_length());
        let mut push = |row: &[u64]| {
            let at = store.len();
            row.iter().for_each(|word| store.extend(word.to_le_bytes()));
            store.truncate(at + layout.width());
        };
        let halves = || held.iter().map(|rows| rows.split_at(self.words));
        self.axioms.iter().for_each(|row| push(row));
        halves().for_each(|(pairs, _)| push(pairs));
        let links = halves().flat_map(|(_, links)| links.chunks(self.words));
        links.for_each(push);
        let count = |row: &[u64]| {
            row.iter()
                .map(|word| word.count_ones() as usize)
                .sum::<usize>()
        };
        let counts = Counts {
            pairs: halves().map(|(pairs, _)| count(pairs)).sum(),
            links: halves().map(|(_, links)| count(links)).sum(),
        };
        (store, counts)
    }
}
