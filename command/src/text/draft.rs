//! A catalogue in the making, with the records that are equal.

use std::collections::{BTreeSet, HashMap};
use std::ops::RangeInclusive;

use girvotal::{Axiom, Builder, Catalogue, Composition, Concept, Inclusion, Record};

use super::expression::{Expression, Node};
use super::faults::Failure;

/// What is counted, and the counts that the library accepts.
const LIMITS: [(&str, RangeInclusive<usize>); 5] = [
    ("concepts", 1..=512),
    ("roles", 0..=16),
    ("inclusions", 0..=64),
    ("compositions", 0..=64),
    ("axioms", 0..=4_096),
];

/// A catalogue in the making. Records past the numbers of two bytes share the last one: there are
/// too many then anyway.
#[derive(Default)]
pub(super) struct Draft {
    records: Vec<Record>,
    /// For each record the lowest that is equal to it, with all doubles taken as one.
    lowest: Vec<Concept>,
    /// The lowest record of a composite, over the lowest of its parts.
    composites: HashMap<Record, Concept>,
    pub(super) roles: usize,
    pub(super) inclusions: Vec<Inclusion>,
    pub(super) compositions: Vec<Composition>,
    pub(super) axioms: BTreeSet<Axiom>,
}

impl Draft {
    /// A catalogue, to go on from.
    pub(super) fn of(catalogue: Catalogue<'_>) -> Draft {
        let mut draft = Draft {
            roles: catalogue.roles(),
            inclusions: catalogue.inclusions().collect(),
            compositions: catalogue.compositions().collect(),
            axioms: catalogue.axioms().collect(),
            ..Draft::default()
        };
        for record in catalogue.records() {
            draft.push(record);
        }
        draft
    }

    /// The same roles and role axioms, and nothing else.
    pub(super) fn without_concepts(&self) -> Draft {
        Draft {
            roles: self.roles,
            inclusions: self.inclusions.clone(),
            compositions: self.compositions.clone(),
            ..Draft::default()
        }
    }

    /// The records, by number.
    pub(super) fn records(&self) -> &[Record] {
        &self.records
    }

    /// How many records there are.
    pub(super) fn concepts(&self) -> usize {
        self.records.len()
    }

    /// The lowest record equal to one.
    pub(super) fn lowest(&self, Concept(number): Concept) -> Concept {
        self.lowest[usize::from(number)]
    }

    /// A composite over the lowest records of its parts.
    fn over_lowest(&self, record: Record) -> Record {
        match record {
            Record::Atomic | Record::Top => record,
            Record::Conjunction(left, right) => {
                Record::Conjunction(self.lowest(left), self.lowest(right))
            }
            Record::Existential(role, part) => Record::Existential(role, self.lowest(part)),
        }
    }

    /// Adds a record, also beside an equal one.
    pub(super) fn push(&mut self, record: Record) -> Concept {
        let concept = Concept(u16::try_from(self.records.len()).unwrap_or(u16::MAX));
        let lowest = match self.over_lowest(record) {
            Record::Atomic => concept,
            composite => *self.composites.entry(composite).or_insert(concept),
        };
        self.records.push(record);
        self.lowest.push(lowest);
        concept
    }

    /// The record of a part of an expression, by those of the parts before it; or what such a
    /// record is, where there is none.
    fn step(&self, node: Node, before: &[Concept]) -> Result<Concept, Record> {
        let record = match node {
            Node::Named(concept) => return Ok(concept),
            Node::Top => Record::Top,
            Node::Existential(role, part) => Record::Existential(role, before[part]),
            Node::Conjunction(left, right) => Record::Conjunction(before[left], before[right]),
        };
        let lowest = self.composites.get(&self.over_lowest(record));
        lowest.copied().ok_or(record)
    }

    /// The lowest record equal to an expression, a named one itself; none where one is missing.
    pub(super) fn find(&self, expression: &Expression) -> Option<Concept> {
        let mut concepts = vec![];
        for &node in expression.nodes() {
            concepts.push(self.step(node, &concepts).ok()?);
        }
        concepts.last().copied()
    }

    /// The records of an expression's parts, with those added that are missing.
    fn found(&mut self, nodes: &[Node]) -> Vec<Concept> {
        let mut concepts = vec![];
        for &node in nodes {
            let step = self.step(node, &concepts);
            concepts.push(step.unwrap_or_else(|record| self.push(record)));
        }
        concepts
    }

    /// The record of an expression, as [`Draft::find`]; what is missing is added.
    pub(super) fn find_or_add(&mut self, expression: &Expression) -> Concept {
        if let Some(concept) = expression.named() {
            return concept;
        }
        let concepts = self.found(expression.nodes());
        *concepts.last().expect("an expression has a part")
    }

    /// A new record that is equal to an expression, for `let`.
    pub(super) fn define(&mut self, expression: &Expression) -> Concept {
        let (&whole, parts) = expression.nodes().split_last().expect("it has a part");
        let concepts = self.found(parts);
        let record = match whole {
            Node::Named(Concept(number)) => self.records[usize::from(number)],
            Node::Top => Record::Top,
            Node::Existential(role, part) => Record::Existential(role, concepts[part]),
            Node::Conjunction(left, right) => Record::Conjunction(concepts[left], concepts[right]),
        };
        self.push(record)
    }

    /// The axiom, if it is there; else the first that is there with equal sides; else the axiom.
    pub(super) fn in_force(&self, axiom: Axiom) -> Axiom {
        let lowest = |axiom: &Axiom| (self.lowest(axiom.left), self.lowest(axiom.right));
        let mut equal = self
            .axioms
            .iter()
            .filter(|other| lowest(other) == lowest(&axiom));
        match self.axioms.contains(&axiom) {
            true => axiom,
            false => equal.next().copied().unwrap_or(axiom),
        }
    }

    /// The catalogue's bytes, or which counts are outside their limits.
    pub(super) fn build(&self) -> Result<Vec<u8>, Failure> {
        let mut builder = Builder::new();
        for &record in &self.records {
            builder.record(record);
        }
        for _ in 0..self.roles {
            builder.role();
        }
        for inclusion in &self.inclusions {
            builder.inclusion(inclusion.within, inclusion.around);
        }
        for composition in &self.compositions {
            let Composition {
                first,
                second,
                result,
            } = *composition;
            builder.composition(first, second, result);
        }
        for axiom in &self.axioms {
            builder.axiom(axiom.left, axiom.right);
        }
        builder.build().map_err(|refusal| Failure::Refused {
            refusal,
            detail: self.outside(),
        })
    }

    /// The counts outside their limits.
    fn outside(&self) -> String {
        let counts = [
            self.records.len(),
            self.roles,
            self.inclusions.len(),
            self.compositions.len(),
            self.axioms.len(),
        ];
        let outside = LIMITS.iter().zip(counts);
        let outside = outside.filter(|((_, limits), count)| !limits.contains(count));
        let told = outside.map(|((what, _), count)| match u16::try_from(count) {
            Ok(count) if *what == "concepts" && count > 0 => {
                format!("{count} {what} ({})", self.sorts())
            }
            Ok(count) => format!("{count} {what}"),
            Err(_) => format!("more than {} {what}", u16::MAX),
        });
        told.collect::<Vec<_>>().join(", ")
    }

    /// How many of the records are kinds and how many composites.
    fn sorts(&self) -> String {
        let kinds = self
            .records
            .iter()
            .filter(|&&record| record == Record::Atomic);
        let kinds = kinds.count();
        let composites = self.records.len() - kinds;
        let s = |count| if count == 1 { "" } else { "s" };
        format!(
            "{kinds} kind{}, {composites} composite{}",
            s(kinds),
            s(composites)
        )
    }
}
