//! A catalogue's bytes and what they say.

use core::slice::ChunksExact;

use crate::calls::answered;
use crate::{Refusal, exported};

/// A concept, by the number of its record.
#[derive(Clone, Copy, Debug, PartialEq, Eq, PartialOrd, Ord, Hash)]
pub struct Concept(
    /// The number.
    pub u16,
);

/// A role, by its number.
#[derive(Clone, Copy, Debug, PartialEq, Eq, PartialOrd, Ord, Hash)]
pub struct Role(
    /// The number.
    pub u16,
);

/// What a concept is.
#[derive(Clone, Copy, Debug, PartialEq, Eq, PartialOrd, Ord, Hash)]
pub enum Record {
    /// An atomic concept: a kind.
    Atomic,
    /// Top, under which everything lies.
    Top,
    /// What lies under both.
    Conjunction(Concept, Concept),
    /// What has the role to something under the concept.
    Existential(Role, Concept),
}

/// The first role lies within the second.
#[derive(Clone, Copy, Debug, PartialEq, Eq, PartialOrd, Ord, Hash)]
pub struct Inclusion {
    /// The role that lies within the other.
    pub within: Role,
    /// The role around it.
    pub around: Role,
}

/// The first role and then the second lie within the third.
#[derive(Clone, Copy, Debug, PartialEq, Eq, PartialOrd, Ord, Hash)]
pub struct Composition {
    /// The role that is followed first.
    pub first: Role,
    /// The role that is followed then.
    pub second: Role,
    /// The role around both.
    pub result: Role,
}

/// The left concept lies under the right one. Axioms are ordered by left, then right.
#[derive(Clone, Copy, Debug, PartialEq, Eq, PartialOrd, Ord, Hash)]
pub struct Axiom {
    /// The concept below.
    pub left: Concept,
    /// The concept above.
    pub right: Concept,
}

/// How many bytes the calls on a catalogue use.
#[derive(Clone, Copy, Debug, PartialEq, Eq, Hash)]
pub struct Sizes {
    /// Of the store.
    pub store: usize,
    /// Of the work space.
    pub work: usize,
    /// Of a list.
    pub list: usize,
    /// The most that [`write`](crate::write()) gives.
    pub written: usize,
}

/// The bytes of a catalogue that passes questions 1 to 9.
#[derive(Clone, Copy, Debug, PartialEq, Eq)]
pub struct Catalogue<'a> {
    bytes: &'a [u8],
    sizes: Sizes,
}

/// The two-byte number at a place, low byte first.
pub(crate) fn word(bytes: &[u8], at: usize) -> u16 {
    u16::from_le_bytes([bytes[at], bytes[at + 1]])
}

/// The kinds of concept records.
pub(crate) mod kinds {
    pub(crate) const ATOMIC: u16 = 0;
    pub(crate) const TOP: u16 = 1;
    pub(crate) const CONJUNCTION: u16 = 2;
    pub(crate) const EXISTENTIAL: u16 = 3;
}

impl<'a> Catalogue<'a> {
    /// The catalogue in these bytes, if it passes questions 1 to 9.
    pub fn new(bytes: &'a [u8]) -> Result<Catalogue<'a>, Refusal> {
        let [store, work, list, written] = answered(|answer| exported::check(bytes, answer))?;
        let sizes = Sizes {
            store,
            work,
            list,
            written,
        };
        Ok(Catalogue::checked(bytes, sizes))
    }

    /// The catalogue in bytes that have passed, with these sizes.
    pub(crate) fn checked(bytes: &'a [u8], sizes: Sizes) -> Catalogue<'a> {
        Catalogue { bytes, sizes }
    }

    /// How many bytes its calls use.
    pub fn sizes(&self) -> Sizes {
        self.sizes
    }

    /// Its bytes.
    pub fn bytes(&self) -> &'a [u8] {
        self.bytes
    }

    /// How many concepts it has, 1 to 512.
    pub fn concepts(&self) -> usize {
        self.field(1)
    }

    /// How many roles it has, 0 to 16.
    pub fn roles(&self) -> usize {
        self.field(2)
    }

    /// What a concept is; none where its number is too high.
    pub fn record(&self, concept: Concept) -> Option<Record> {
        self.section(6, 1, 6)
            .nth(usize::from(concept.0))
            .map(record)
    }

    /// The concept records, by number.
    pub fn records(&self) -> impl ExactSizeIterator<Item = Record> + Clone + 'a {
        self.section(6, 1, 6).map(record)
    }

    /// The role inclusions, in order.
    pub fn inclusions(&self) -> impl ExactSizeIterator<Item = Inclusion> + Clone + 'a {
        self.section(7, 3, 4).map(|bytes| Inclusion {
            within: Role(word(bytes, 0)),
            around: Role(word(bytes, 2)),
        })
    }

    /// The role compositions, in order.
    pub fn compositions(&self) -> impl ExactSizeIterator<Item = Composition> + Clone + 'a {
        self.section(8, 4, 6).map(|bytes| Composition {
            first: Role(word(bytes, 0)),
            second: Role(word(bytes, 2)),
            result: Role(word(bytes, 4)),
        })
    }

    /// The axioms, rising. Those in force in a store may be others: see
    /// [`write`](crate::write()).
    pub fn axioms(&self) -> impl ExactSizeIterator<Item = Axiom> + Clone + 'a {
        self.section(9, 5, 4).map(|bytes| Axiom {
            left: Concept(word(bytes, 0)),
            right: Concept(word(bytes, 2)),
        })
    }

    /// A field of the header.
    fn field(&self, number: usize) -> usize {
        usize::from(word(self.bytes, 2 * number))
    }

    /// The records of a section, by the header's fields for its offset and its count.
    fn section(&self, offset: usize, count: usize, size: usize) -> ChunksExact<'a, u8> {
        let from = self.field(offset);
        self.bytes[from..from + size * self.field(count)].chunks_exact(size)
    }
}

/// What a concept record says.
fn record(bytes: &[u8]) -> Record {
    let (first, second) = (word(bytes, 2), word(bytes, 4));
    match word(bytes, 0) {
        kinds::ATOMIC => Record::Atomic,
        kinds::TOP => Record::Top,
        kinds::CONJUNCTION => Record::Conjunction(Concept(first), Concept(second)),
        _ => Record::Existential(Role(first), Concept(second)),
    }
}
