//! The names declared so far.

use std::collections::hash_map::{Entry, HashMap};

use girvotal::{Catalogue, Concept, Record, Role};

use super::names::Names;
use super::print::written_by_name;

/// What a name stands for.
#[derive(Clone, Copy, Debug, PartialEq, Eq)]
pub(super) enum Meaning {
    Kind(Concept),
    Let(Concept),
    Role(Role),
}

impl Meaning {
    /// What it is, in a message.
    pub(super) fn sort(self) -> &'static str {
        match self {
            Meaning::Kind(_) => "a kind",
            Meaning::Let(_) => "named by `let`",
            Meaning::Role(_) => "a role",
        }
    }
}

/// A declared name; its line is 0 where no text declares it.
#[derive(Clone, Copy, Debug)]
pub(super) struct Declared {
    pub(super) meaning: Meaning,
    pub(super) line: usize,
}

/// Names by what they stand for, in the order of their declaration.
#[derive(Default)]
pub(super) struct Scope {
    declared: Vec<(String, Declared)>,
    by_name: HashMap<String, usize>,
}

impl Scope {
    /// The names of a catalogue, with those that a text of it makes up and writes.
    pub(super) fn of(names: &Names, catalogue: Catalogue<'_>) -> Scope {
        let written = written_by_name(catalogue, names);
        let names = names.completed(catalogue);
        let mut scope = Scope::default();
        for ((name, record), number) in names.concepts.iter().zip(catalogue.records()).zip(0..) {
            if !written[usize::from(number)] {
                continue;
            }
            let meaning = match record {
                Record::Atomic => Meaning::Kind(Concept(number)),
                _ => Meaning::Let(Concept(number)),
            };
            if let Some(name) = name {
                scope.declare(name, Declared { meaning, line: 0 });
            }
        }
        for (name, number) in names.roles.iter().zip(0..) {
            let meaning = Meaning::Role(Role(number));
            scope.declare(name, Declared { meaning, line: 0 });
        }
        scope
    }

    /// What is declared by the name.
    pub(super) fn get(&self, name: &str) -> Option<Declared> {
        let place = *self.by_name.get(name)?;
        Some(self.declared[place].1)
    }

    /// Declares a name, unless it is declared: then what it is declared as.
    pub(super) fn declare(&mut self, name: &str, declared: Declared) -> Option<Declared> {
        match self.by_name.entry(name.to_owned()) {
            Entry::Occupied(place) => Some(self.declared[*place.get()].1),
            Entry::Vacant(place) => {
                place.insert(self.declared.len());
                self.declared.push((name.to_owned(), declared));
                None
            }
        }
    }

    /// The names and what they stand for, in order.
    pub(super) fn names(&self) -> impl ExactSizeIterator<Item = (&str, Meaning)> {
        let declared = self.declared.iter();
        declared.map(|(name, declared)| (name.as_str(), declared.meaning))
    }

    /// The same, without a copy.
    pub(super) fn into_names(self) -> impl Iterator<Item = (String, Meaning)> {
        let declared = self.declared.into_iter();
        declared.map(|(name, declared)| (name, declared.meaning))
    }
}
