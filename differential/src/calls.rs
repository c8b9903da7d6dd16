//! The crate's calls with the arguments and results that `reference::calls` has.

use girvotal::{Axiom, Catalogue, Concept};
use reference::calls::{Changed, Counts, Row, Sizes};
use reference::catalogue::{self, AXIOM_LENGTH, MAX_LISTED, Refusal};

/// A refusal as the reference says it.
pub fn refusal(refusal: girvotal::Refusal) -> Refusal {
    Refusal {
        number: refusal.question.number(),
        record: refusal.record,
    }
}

/// Makes a call on a catalogue, if the bytes are one.
fn on<'a, T>(
    catalogue: &'a [u8],
    call: impl FnOnce(Catalogue<'a>) -> Result<T, girvotal::Refusal>,
) -> Result<T, Refusal> {
    Catalogue::new(catalogue).and_then(call).map_err(refusal)
}

/// The concept of a number. One past two bytes is refused as the last of these is.
fn concept(number: usize) -> Concept {
    Concept(u16::try_from(number).unwrap_or(u16::MAX))
}

/// An axiom of the crate's.
pub fn axiom((left, right): catalogue::Axiom) -> Axiom {
    Axiom {
        left: concept(left),
        right: concept(right),
    }
}

/// The axioms of a list. One that is not of whole axioms is refused as a longer one is.
fn axioms(list: &[u8]) -> Vec<Axiom> {
    let listed = if list.len().is_multiple_of(AXIOM_LENGTH) {
        catalogue::axioms(list)
    } else {
        vec![(0, 0); MAX_LISTED + 1]
    };
    listed.into_iter().map(axiom).collect()
}

/// What a catalogue asks for.
pub fn sizes(catalogue: &[u8]) -> Result<Sizes, Refusal> {
    let sizes = on(catalogue, |catalogue| Ok(catalogue.sizes()))?;
    Ok(Sizes {
        store: sizes.store,
        work: sizes.work,
        list: sizes.list,
        output: sizes.written,
    })
}

/// Classifies the catalogue's own axioms into the store.
pub fn classify(catalogue: &[u8], store: &mut [u8], work: &mut [u8]) -> Result<Counts, Refusal> {
    let counts = on(catalogue, |catalogue| {
        girvotal::classify(&catalogue, store, work)
    })?;
    Ok(Counts {
        pairs: counts.pairs,
        links: counts.links,
    })
}

/// Withdraws the axioms of one list and adds those of the other.
pub fn change(
    catalogue: &[u8],
    withdrawn: &[u8],
    added: &[u8],
    store: &mut [u8],
    work: &mut [u8],
    touched: &mut [u8],
) -> Result<Changed, Refusal> {
    let (withdrawn, added) = (axioms(withdrawn), axioms(added));
    let changed = on(catalogue, |catalogue| {
        girvotal::change(&catalogue, &withdrawn, &added, store, work, touched)
    })?;
    Ok(Changed {
        removed: changed.removed,
        returned: changed.returned,
        gained: changed.gained,
        touched: changed.touched.len(),
    })
}

/// Whether the store has C ⊑ D.
pub fn lookup(catalogue: &[u8], c: usize, d: usize, store: &[u8]) -> Result<bool, Refusal> {
    on(catalogue, |catalogue| {
        girvotal::lookup(&catalogue, concept(c), concept(d), store)
    })
}

/// Lists the atomic C with C ⊑ D; their count.
pub fn listing(
    catalogue: &[u8],
    d: usize,
    store: &[u8],
    list: &mut [u8],
) -> Result<usize, Refusal> {
    on(catalogue, |catalogue| {
        girvotal::list(&catalogue, concept(d), store, list).map(|listed| listed.len())
    })
}

/// A concept's pair row, as that part of the store.
pub fn row<'a>(catalogue: &[u8], c: usize, store: &'a [u8]) -> Result<Row<'a>, Refusal> {
    let row = on(catalogue, |catalogue| {
        girvotal::row(&catalogue, concept(c), store)
    })?;
    let bytes = row.bytes();
    let offset = bytes.as_ptr().addr() - store.as_ptr().addr();
    Ok(Row { offset, bytes })
}

/// Writes the catalogue with the axioms in force; its length.
pub fn write(catalogue: &[u8], store: &[u8], output: &mut [u8]) -> Result<usize, Refusal> {
    on(catalogue, |catalogue| {
        girvotal::write(&catalogue, store, output).map(<[u8]>::len)
    })
}
