//! The library's calls on buffers that the caller lends.

use core::iter::Map;
use core::slice::ChunksExact;

use crate::catalogue::word;
use crate::exported::{self, ENTRIES};
use crate::{AXIOMS_MOST, Axiom, Catalogue, Concept, Refusal};

/// Makes a call with an answer of four entries.
pub(crate) fn answered(
    call: impl FnOnce(&mut [u64]) -> usize,
) -> Result<[usize; ENTRIES], Refusal> {
    let mut answer = [0; ENTRIES];
    let number = |entry| usize::try_from(entry).expect("entries are counts and lengths");
    match Refusal::of(call(&mut answer)) {
        Some(refusal) => Err(refusal),
        None => Ok(answer.map(number)),
    }
}

/// How much a classification derived.
#[derive(Clone, Copy, Debug, PartialEq, Eq, Hash)]
pub struct Counts {
    /// Pairs: one concept under another, or under itself.
    pub pairs: usize,
    /// Links: a concept with a role to another.
    pub links: usize,
}

/// Classifies the catalogue's axioms into the store.
///
/// What both buffers held does not matter. The work space's used part is zero afterwards.
/// Questions 10 and 11.
pub fn classify(
    catalogue: &Catalogue<'_>,
    store: &mut [u8],
    work: &mut [u8],
) -> Result<Counts, Refusal> {
    let [pairs, links, ..] =
        answered(|answer| exported::classify(catalogue.bytes(), store, work, answer))?;
    Ok(Counts { pairs, links })
}

/// What a change did.
#[derive(Clone, Copy, Debug, PartialEq, Eq)]
pub struct Changed<'t> {
    /// Pairs and links removed.
    pub removed: usize,
    /// Of these, those that returned.
    pub returned: usize,
    /// Pairs and links gained.
    pub gained: usize,
    /// The concepts of which one was removed or gained, rising. Every other concept's rows of
    /// pairs and links are as they were.
    pub touched: Concepts<'t>,
}

/// A list of axioms as the exported call takes it. One axiom above the most stands for all of
/// them: the call refuses it by its length.
struct AxiomBytes {
    bytes: [u8; 4 * (AXIOMS_MOST + 1)],
    length: usize,
}

impl AxiomBytes {
    fn of(axioms: &[Axiom]) -> AxiomBytes {
        let mut list = AxiomBytes {
            bytes: [0; 4 * (AXIOMS_MOST + 1)],
            length: 4 * axioms.len().min(AXIOMS_MOST + 1),
        };
        for (bytes, axiom) in list.bytes.chunks_exact_mut(4).zip(axioms) {
            bytes[..2].copy_from_slice(&axiom.left.0.to_le_bytes());
            bytes[2..].copy_from_slice(&axiom.right.0.to_le_bytes());
        }
        list
    }

    fn get(&self) -> &[u8] {
        &self.bytes[..self.length]
    }
}

/// Withdraws the axioms of one list from those in force and adds those of the other, at once.
///
/// The order inside a list is without effect, and both may be empty. The touched concepts are
/// entered in `touched`; its bytes past them are kept. Questions 10 to 12, 22, 23, 13 to 15, 18,
/// 16, 17.
pub fn change<'t>(
    catalogue: &Catalogue<'_>,
    withdrawn: &[Axiom],
    added: &[Axiom],
    store: &mut [u8],
    work: &mut [u8],
    touched: &'t mut [u8],
) -> Result<Changed<'t>, Refusal> {
    let (out, new) = (AxiomBytes::of(withdrawn), AxiomBytes::of(added));
    let [removed, returned, gained, count] = answered(|answer| {
        exported::change(
            catalogue.bytes(),
            out.get(),
            new.get(),
            store,
            work,
            touched,
            answer,
        )
    })?;
    Ok(Changed {
        removed,
        returned,
        gained,
        touched: Concepts::first(touched, count),
    })
}

/// Whether the first concept lies under the second, by the store. Questions 10, 13 to 15, 19.
pub fn lookup(
    catalogue: &Catalogue<'_>,
    first: Concept,
    second: Concept,
    store: &[u8],
) -> Result<bool, Refusal> {
    let (first, second) = (usize::from(first.0), usize::from(second.0));
    let [yes, ..] =
        answered(|answer| exported::lookup(catalogue.bytes(), first, second, store, answer))?;
    Ok(yes == 1)
}

/// The kinds under a concept, rising; a kind lies under itself.
///
/// They are entered in `list`; its bytes past them are kept. Questions 10, 12 to 15, 19.
pub fn list<'l>(
    catalogue: &Catalogue<'_>,
    second: Concept,
    store: &[u8],
    list: &'l mut [u8],
) -> Result<Concepts<'l>, Refusal> {
    let second = usize::from(second.0);
    let [count, ..] =
        answered(|answer| exported::list(catalogue.bytes(), second, store, list, answer))?;
    Ok(Concepts::first(list, count))
}

/// The row of the concepts above one, as that part of the store. Questions 10, 13 to 15, 19.
pub fn row<'s>(
    catalogue: &Catalogue<'_>,
    concept: Concept,
    store: &'s [u8],
) -> Result<Row<'s>, Refusal> {
    let number = usize::from(concept.0);
    let [offset, width, ..] =
        answered(|answer| exported::row(catalogue.bytes(), number, store, answer))?;
    Ok(Row {
        bytes: &store[offset..offset + width],
    })
}

/// The catalogue with the axioms in force in the store, as that part of the output; its bytes past
/// it are kept. Questions 10, 13, 14, 20.
pub fn write<'o>(
    catalogue: &Catalogue<'_>,
    store: &[u8],
    output: &'o mut [u8],
) -> Result<&'o [u8], Refusal> {
    let [length, ..] =
        answered(|answer| exported::write(catalogue.bytes(), store, output, answer))?;
    Ok(&output[..length])
}

/// A list of concepts, as a call entered it.
#[derive(Clone, Copy, Debug, PartialEq, Eq)]
pub struct Concepts<'l> {
    bytes: &'l [u8],
}

impl<'l> Concepts<'l> {
    /// The first entries of a list.
    fn first(list: &'l [u8], count: usize) -> Concepts<'l> {
        Concepts {
            bytes: &list[..2 * count],
        }
    }

    /// How many there are.
    pub fn len(&self) -> usize {
        self.bytes.len() / 2
    }

    /// Whether there are none.
    pub fn is_empty(&self) -> bool {
        self.bytes.is_empty()
    }

    /// The one at a place, counted from 0.
    pub fn get(&self, place: usize) -> Option<Concept> {
        self.iter().nth(place)
    }

    /// The concepts, rising.
    pub fn iter(&self) -> impl ExactSizeIterator<Item = Concept> + Clone + 'l {
        self.into_iter()
    }
}

impl<'l> IntoIterator for Concepts<'l> {
    type Item = Concept;
    type IntoIter = Map<ChunksExact<'l, u8>, fn(&'l [u8]) -> Concept>;

    fn into_iter(self) -> Self::IntoIter {
        let entry = |bytes: &[u8]| Concept(word(bytes, 0));
        self.bytes.chunks_exact(2).map(entry)
    }
}

/// A row of bits, one for each concept.
#[derive(Clone, Copy, Debug, PartialEq, Eq)]
pub struct Row<'s> {
    bytes: &'s [u8],
}

impl<'s> Row<'s> {
    /// Its bytes: concept i is bit i mod 8 of byte i div 8, bit 0 the lowest.
    pub fn bytes(&self) -> &'s [u8] {
        self.bytes
    }

    /// Whether a concept's bit is set.
    pub fn contains(&self, concept: Concept) -> bool {
        let number = usize::from(concept.0);
        let byte = self.bytes.get(number / 8);
        byte.is_some_and(|byte| byte >> (number % 8) & 1 == 1)
    }

    /// The concepts whose bits are set, rising.
    pub fn iter(&self) -> impl Iterator<Item = Concept> + Clone + 's {
        let row = *self;
        let all = 0..=u16::MAX;
        all.take(8 * row.bytes.len())
            .map(Concept)
            .filter(move |&concept| row.contains(concept))
    }
}
