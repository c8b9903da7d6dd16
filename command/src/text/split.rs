//! Right sides split: `A < B and C` as `A < B` and `A < C`, which needs no record for `B and C`.

use std::collections::BTreeSet;

use girvotal::{Axiom, Catalogue, Concept, Record};

use super::compile::Compiled;
use super::draft::Draft;
use super::faults::Failure;
use super::names::Names;
use super::print::{Line, parts, statements};

/// What splitting does to a draft.
pub(super) struct Split {
    /// The records that are left, rising.
    kept: Vec<usize>,
    /// The axioms then, by the old numbers.
    axioms: BTreeSet<Axiom>,
    /// Those that were split.
    parted: Vec<Axiom>,
}

fn index(Concept(number): Concept) -> usize {
    usize::from(number)
}

impl Split {
    /// Splits the right sides of a draft. A conjunction that has a name, or stands elsewhere too,
    /// stays. None of a draft with more records than numbers.
    pub(super) fn of(draft: &Draft, names: &Names) -> Option<Split> {
        let records = draft.records();
        if records.len() > usize::from(u16::MAX) {
            return None;
        }
        let named = |number: usize| matches!(names.concepts.get(number), Some(Some(_)));
        let all = |number: usize| !named(number);
        let mut needed: Vec<bool> = (0..records.len()).map(named).collect();
        for axiom in &draft.axioms {
            needed[index(axiom.left)] = true;
            for conjunct in conjuncts(records, index(axiom.right), all) {
                needed[conjunct] = true;
            }
        }
        // From the last on: parts have smaller numbers than their record.
        for (number, &record) in records.iter().enumerate().rev() {
            if needed[number] {
                parts(record).for_each(|part| needed[part] = true);
            }
        }
        let (mut axioms, mut parted) = (BTreeSet::new(), vec![]);
        for &axiom in &draft.axioms {
            let right = conjuncts(records, index(axiom.right), |number| !needed[number]);
            if right != [index(axiom.right)] {
                parted.push(axiom);
            }
            axioms.extend(right.into_iter().map(|right| Axiom {
                left: axiom.left,
                right: Concept(right as u16),
            }));
        }
        let kept = (0..records.len()).filter(|&number| needed[number]);
        let kept = kept.collect();
        Some(Split {
            kept,
            axioms,
            parted,
        })
    }

    /// How many records are left.
    pub(super) fn concepts(&self) -> usize {
        self.kept.len()
    }

    /// The draft and its names, split.
    fn made(self, draft: &Draft, names: &Names) -> Result<Compiled, Failure> {
        let mut numbers = vec![Concept(0); draft.concepts()];
        for (&old, new) in self.kept.iter().zip(0..) {
            numbers[old] = Concept(new);
        }
        let new = |concept: Concept| numbers[index(concept)];
        let mut split = draft.without_concepts();
        for &old in &self.kept {
            split.push(match draft.records()[old] {
                Record::Conjunction(left, right) => Record::Conjunction(new(left), new(right)),
                Record::Existential(role, part) => Record::Existential(role, new(part)),
                record => record,
            });
        }
        split.axioms = self
            .axioms
            .iter()
            .map(|axiom| Axiom {
                left: new(axiom.left),
                right: new(axiom.right),
            })
            .collect();
        let concepts = self.kept.iter().map(|&old| names.concepts[old].clone());
        let names = Names {
            concepts: concepts.collect(),
            roles: names.roles.clone(),
        };
        let catalogue = split.build()?;
        Ok(Compiled { catalogue, names })
    }
}

/// The conjuncts of a record, through those that `open` says, each once, rising.
fn conjuncts(records: &[Record], record: usize, open: impl Fn(usize) -> bool) -> Vec<usize> {
    let (mut seen, mut found) = (BTreeSet::from([record]), BTreeSet::new());
    let mut left = vec![record];
    while let Some(number) = left.pop() {
        match records[number] {
            conjunction @ Record::Conjunction(..) if open(number) => {
                left.extend(parts(conjunction).filter(|&part| seen.insert(part)));
            }
            _ => {
                found.insert(number);
            }
        }
    }
    found.into_iter().collect()
}

/// The catalogue of a draft, or which limit it passes, and how many records fewer it has with right
/// sides split.
pub(super) fn built(draft: &Draft, names: &Names) -> Result<Vec<u8>, Failure> {
    let left = || Split::of(draft, names).map_or(draft.concepts(), |split| split.concepts());
    draft
        .build()
        .map_err(|failure| match draft.concepts() - left() {
            0 => failure,
            fewer => failure.with(&format!(
                ", {fewer} fewer with right sides split: `girvotal text FILE --split`"
            )),
        })
}

/// A draft with its right sides split.
pub(super) fn split_draft(draft: &Draft, names: &Names) -> Result<Compiled, Failure> {
    match Split::of(draft, names) {
        Some(split) => split.made(draft, names),
        None => {
            let catalogue = draft.build()?;
            let names = names.clone();
            Ok(Compiled { catalogue, names })
        }
    }
}

/// The axioms of a catalogue, as its text has them, whose right sides could be split, and how many
/// records fewer it has then.
pub fn splittable(compiled: &Compiled) -> Result<(Vec<String>, usize), Failure> {
    let Compiled { catalogue, names } = compiled;
    let catalogue = Catalogue::new(catalogue)?;
    let draft = Draft::of(catalogue);
    let Some(split) = Split::of(&draft, names) else {
        return Ok((vec![], 0));
    };
    let parted = |line: &Line| split.parted.contains(&line.axiom);
    let parted = statements(catalogue, names).into_iter().filter(parted);
    let fewer = draft.concepts() - split.concepts();
    Ok((parted.map(|line| line.text).collect(), fewer))
}
