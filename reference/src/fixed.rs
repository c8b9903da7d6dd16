//! The text of gate_structure and gate_store, which read no input. What they
//! are run on stands here again.

use crate::catalogue::{Axiom, Catalogue, Concept, MAX_AXIOMS, Refusal, require};
use crate::examples;
use crate::expressions::ExpressionSet;
use crate::rules::{Ontology, Rules};
use crate::store::Layout;
use std::collections::BTreeSet;

/// A catalogue with neither compositions nor axioms.
fn plain(concepts: Vec<Concept>, roles: usize, inclusions: Vec<(usize, usize)>) -> Catalogue {
    Catalogue {
        concepts,
        roles,
        inclusions,
        compositions: vec![],
        axioms: vec![],
    }
}

/// Numbers, each after a space.
pub(crate) fn spaced(numbers: impl IntoIterator<Item = usize>) -> String {
    let numbers = numbers.into_iter();
    numbers.map(|number| format!(" {number}")).collect()
}

/// What contains what, what reaches what, and numbers that a reader finds.
pub fn gate_structure(_: &[u8]) -> String {
    let concepts = (0..512).map(|i| match i {
        0..3 => Concept::Atomic,
        510 => Concept::Existential(1, 0),
        _ => Concept::Conjunction(i - 1, i - 2),
    });
    let catalogue = plain(concepts.collect(), 2, vec![]);
    let falling: Vec<usize> = (0..16).rev().collect();
    [
        reader_text(&catalogue.bytes()),
        contains_text(&catalogue),
        reach_text(&falling),
        reach_text(&[15, 12, 9, 6, 3, 0, 15]),
    ]
    .concat()
}

fn reader_text(bytes: &[u8]) -> String {
    let number = |at: usize| usize::from(bytes[at]) + 256 * usize::from(bytes[at + 1]);
    let found = [(0, 2), (2, 2), (12, 2), (12, 0)]
        .map(|(at, size)| format!("{at} and {size} bytes on: {}\n", number(at + size)));
    let copied = [&[7, 7], &bytes[12..16], &[7, 7]].concat();
    let copied = spaced(copied.into_iter().map(usize::from));
    format!("{}copied:{copied}\n", found.concat())
}

/// A concept, its parts, their parts and so on. A part's number is below that of
/// its record.
fn contained(concepts: &[Concept], i: usize) -> BTreeSet<usize> {
    let mut inside = BTreeSet::from([i]);
    for x in (0..=i).rev() {
        if inside.contains(&x) {
            inside.extend(concepts[x].parts());
        }
    }
    inside
}

fn contains_text(catalogue: &Catalogue) -> String {
    [
        (511, 1),
        (511, 2),
        (511, 0),
        (510, 0),
        (510, 1),
        (509, 0),
        (509, 1),
        (1, 511),
        (511, 511),
    ]
    .map(|(i, j)| {
        let inside = contained(&catalogue.concepts, i).contains(&j);
        let answer = if inside { "yes" } else { "no" };
        format!("{i} contains {j}: {answer}\n")
    })
    .concat()
}

/// Role reach with an inclusion of each role of a path in the next.
fn reach_text(path: &[usize]) -> String {
    let inclusions = path.windows(2).map(|step| (step[0], step[1])).collect();
    let rules = Rules::new(&plain(vec![Concept::Atomic], 16, inclusions));
    let rows = rules.reach.iter().enumerate().map(|(r, row)| {
        let reached = spaced((0..16).filter(|&s| row[s]));
        format!("{r} reaches{reached}\n")
    });
    rows.collect()
}

/// Questions 10 to 14 of stores, and what occurs by their axioms.
pub fn gate_store(_: &[u8]) -> String {
    let w1 = examples::w1();
    let axioms: BTreeSet<Axiom> = w1.axioms.iter().copied().collect();
    let store = store_with(&w1, &axioms);
    let without = store_with(&w1, &(&axioms - &BTreeSet::from([(1, 5)])));
    let mut first = store.clone();
    first[0] |= 128;
    let mut last = store.clone();
    last[34] |= 128;
    let eight = plain(vec![Concept::Atomic; 8], 0, vec![]);
    let nested = plain(
        vec![
            Concept::Atomic,
            Concept::Atomic,
            Concept::Conjunction(0, 1),
            Concept::Existential(0, 2),
            Concept::Existential(0, 3),
            Concept::Atomic,
        ],
        1,
        vec![],
    );
    let inner = store_with(&nested, &BTreeSet::from([(4, 4)]));
    let wide = plain(vec![Concept::Atomic; 65], 0, vec![]);
    let many = |count: usize| {
        let axioms = (0..count).map(|p| (p / 65, p % 65)).collect();
        occurs_text(&wide, &store_with(&wide, &axioms), 585, 130)
    };
    [
        occurs_text(&w1, &store, 28, 14),
        occurs_text(&w1, &store[..34], 28, 14),
        occurs_text(&w1, &store, 27, 14),
        occurs_text(&w1, &store, 28, 13),
        occurs_text(&w1, &without, 28, 14),
        occurs_text(&w1, &first, 28, 14),
        occurs_text(&w1, &last, 28, 14),
        occurs_text(&eight, &[128; 16], 8, 16),
        occurs_text(&nested, &inner, 12, 12),
        many(4096),
        many(4097),
    ]
    .concat()
}

/// A store of these axioms, without pairs and links.
fn store_with(catalogue: &Catalogue, axioms: &BTreeSet<Axiom>) -> Vec<u8> {
    let layout = Layout::new(catalogue);
    let mut store = vec![0; layout.store_length()];
    let none = ExpressionSet::new(catalogue.concepts.len(), catalogue.roles);
    layout.write(&mut store, axioms, &none);
    store
}

/// What occurs by a store's axioms, or the refusal of the store, of a work
/// space and of a list of these lengths.
fn occurs_text(catalogue: &Catalogue, store: &[u8], work: usize, list: usize) -> String {
    match occurring(catalogue, store, work, list) {
        Ok(concepts) => format!("occurs{}\n", spaced(concepts)),
        Err(refusal) => format!("refused {}\n", refusal.number),
    }
}

fn occurring(
    catalogue: &Catalogue,
    store: &[u8],
    work: usize,
    list: usize,
) -> Result<Vec<usize>, Refusal> {
    let layout = Layout::new(catalogue);
    require(10, store.len() >= layout.store_length())?;
    require(11, work >= layout.work_length())?;
    require(12, list >= 2 * catalogue.concepts.len())?;
    require(13, layout.spare_bits_clear(store))?;
    let axioms = layout.axioms(store);
    require(14, axioms.len() <= MAX_AXIOMS)?;
    let occurs = Ontology::new(&Rules::new(catalogue), axioms).occurs;
    Ok((0..occurs.len()).filter(|&c| occurs[c]).collect())
}
