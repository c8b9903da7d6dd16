//! Catalogues made record by record.

use alloc::vec::Vec;

use crate::catalogue::kinds;
use crate::{Axiom, Catalogue, Composition, Concept, Inclusion, Question, Record, Refusal, Role};

/// Makes a catalogue's bytes. Concepts and roles are numbered as they come.
///
/// Axioms may come in any order and more than once. What is wrong, a count over its limit or a
/// number that is not there, is refused by [`build`](Builder::build).
#[derive(Clone, Debug, Default, PartialEq, Eq)]
pub struct Builder {
    records: Vec<Record>,
    roles: usize,
    inclusions: Vec<Inclusion>,
    compositions: Vec<Composition>,
    axioms: Vec<Axiom>,
}

/// The number of the next of so many; those past the numbers of two bytes share the last, in a
/// catalogue that is refused for their count.
fn next(count: usize) -> u16 {
    u16::try_from(count).unwrap_or(u16::MAX)
}

impl Builder {
    /// Nothing yet.
    pub fn new() -> Builder {
        Builder::default()
    }

    /// The records, roles and role axioms of a catalogue and its axioms, to go on from.
    pub fn of(catalogue: &Catalogue<'_>) -> Builder {
        Builder {
            records: catalogue.records().collect(),
            roles: catalogue.roles(),
            inclusions: catalogue.inclusions().collect(),
            compositions: catalogue.compositions().collect(),
            axioms: catalogue.axioms().collect(),
        }
    }

    /// Adds a record, also where an equal one is there.
    pub fn record(&mut self, record: Record) -> Concept {
        let concept = Concept(next(self.records.len()));
        self.records.push(record);
        concept
    }

    /// Adds an atomic concept.
    pub fn kind(&mut self) -> Concept {
        self.record(Record::Atomic)
    }

    /// Adds a top.
    pub fn top(&mut self) -> Concept {
        self.record(Record::Top)
    }

    /// Adds what lies under both concepts.
    pub fn conjunction(&mut self, first: Concept, second: Concept) -> Concept {
        self.record(Record::Conjunction(first, second))
    }

    /// Adds what has the role to something under the concept.
    pub fn existential(&mut self, role: Role, concept: Concept) -> Concept {
        self.record(Record::Existential(role, concept))
    }

    /// Adds a role.
    pub fn role(&mut self) -> Role {
        let role = Role(next(self.roles));
        self.roles += 1;
        role
    }

    /// Adds that a role lies within another.
    pub fn inclusion(&mut self, within: Role, around: Role) {
        self.inclusions.push(Inclusion { within, around });
    }

    /// Adds that a role and then another lie within a third.
    pub fn composition(&mut self, first: Role, second: Role, result: Role) {
        self.compositions.push(Composition {
            first,
            second,
            result,
        });
    }

    /// Adds an axiom: the left concept lies under the right one.
    pub fn axiom(&mut self, left: Concept, right: Concept) {
        self.axioms.push(Axiom { left, right });
    }

    /// The catalogue, if it passes questions 1 to 9.
    pub fn build(&self) -> Result<Vec<u8>, Refusal> {
        let mut axioms = self.axioms.clone();
        axioms.sort_unstable();
        axioms.dedup();
        let Some(header) = self.header(axioms.len()) else {
            return Err(Refusal {
                question: Question::Counts,
                record: 0,
            });
        };
        let mut words = Vec::from(header);
        for record in &self.records {
            words.extend(match *record {
                Record::Atomic => [kinds::ATOMIC, 0, 0],
                Record::Top => [kinds::TOP, 0, 0],
                Record::Conjunction(first, second) => [kinds::CONJUNCTION, first.0, second.0],
                Record::Existential(role, concept) => [kinds::EXISTENTIAL, role.0, concept.0],
            });
        }
        for inclusion in &self.inclusions {
            words.extend([inclusion.within.0, inclusion.around.0]);
        }
        for composition in &self.compositions {
            let Composition {
                first,
                second,
                result,
            } = composition;
            words.extend([first.0, second.0, result.0]);
        }
        for axiom in &axioms {
            words.extend([axiom.left.0, axiom.right.0]);
        }
        let bytes: Vec<u8> = words.into_iter().flat_map(u16::to_le_bytes).collect();
        Catalogue::new(&bytes)?;
        Ok(bytes)
    }

    /// The header's fields; none where one does not fit in two bytes, so that a count is over its
    /// limit.
    fn header(&self, axioms: usize) -> Option<[u16; 10]> {
        let counts = [
            self.records.len(),
            self.roles,
            self.inclusions.len(),
            self.compositions.len(),
            axioms,
        ];
        let [n, _, h, k, a] = counts;
        let concepts_at = 20;
        let inclusions_at = concepts_at + 6 * n;
        let compositions_at = inclusions_at + 4 * h;
        let axioms_at = compositions_at + 6 * k;
        let offsets = [concepts_at, inclusions_at, compositions_at, axioms_at];
        let mut header = [0; 10];
        let fields = [axioms_at + 4 * a].into_iter().chain(counts).chain(offsets);
        for (entry, field) in header.iter_mut().zip(fields) {
            *entry = u16::try_from(field).ok()?;
        }
        Some(header)
    }
}
