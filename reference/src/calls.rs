//! The public calls over lent buffers. Each puts its checks (document 01: its
//! questions) in order and changes nothing where one fails.

use crate::catalogue::{
    AXIOM_LENGTH, Axiom, Catalogue, Concept, MAX_AXIOMS, MAX_LISTED, Refusal, axioms, require,
};
use crate::change::Edit;
use crate::rules::{Ontology, Rules};
use crate::saturation::least_set;
use crate::store::Layout;
use std::collections::BTreeSet;

/// What classify answers.
#[derive(Clone, Copy, Debug, PartialEq, Eq)]
pub struct Counts {
    pub pairs: usize,
    pub links: usize,
}

/// What a change answers: its three counts, and the length of the list of
/// affected partitions (document 01: touched).
#[derive(Clone, Copy, Debug, PartialEq, Eq)]
pub struct Changed {
    pub removed: usize,
    pub returned: usize,
    pub gained: usize,
    pub touched: usize,
}

/// What a catalogue asks for, in bytes: of a store, of a work space, of a list,
/// and the most that write gives.
#[derive(Clone, Copy, Debug, PartialEq, Eq)]
pub struct Sizes {
    pub store: usize,
    pub work: usize,
    pub list: usize,
    pub output: usize,
}

/// A pair row: its offset in the store, and that part of the store.
#[derive(Clone, Copy, Debug, PartialEq, Eq)]
pub struct Row<'a> {
    pub offset: usize,
    pub bytes: &'a [u8],
}

/// A catalogue and a store that passed their own checks.
struct Opened {
    catalogue: Catalogue,
    layout: Layout,
    axioms: BTreeSet<Axiom>,
}

/// Questions 13 and 14, after those before them.
fn open(catalogue: Catalogue, layout: Layout, store: &[u8]) -> Result<Opened, Refusal> {
    require(13, layout.spare_bits_clear(store))?;
    let axioms = layout.axioms(store);
    require(14, axioms.len() <= MAX_AXIOMS)?;
    Ok(Opened {
        catalogue,
        layout,
        axioms,
    })
}

/// Questions 1 to 10.
fn sized(catalogue: &[u8], store: &[u8]) -> Result<(Catalogue, Layout), Refusal> {
    let catalogue = Catalogue::read(catalogue)?;
    let layout = Layout::new(&catalogue);
    require(10, store.len() >= layout.store_length())?;
    Ok((catalogue, layout))
}

impl Opened {
    /// Questions 1 to 10, 13 and 14.
    fn for_reading(catalogue: &[u8], store: &[u8]) -> Result<Opened, Refusal> {
        let (catalogue, layout) = sized(catalogue, store)?;
        open(catalogue, layout, store)
    }

    /// Question 15.
    fn require_concepts(&self, named: &[usize]) -> Result<(), Refusal> {
        require(15, named.iter().all(|&c| c < self.catalogue.concepts.len()))
    }

    /// Question 19.
    fn require_occurrence(&self, named: &[usize]) -> Result<(), Refusal> {
        let rules = Rules::new(&self.catalogue);
        let ontology = Ontology::new(&rules, self.axioms.clone());
        require(19, named.iter().all(|&c| ontology.occurs[c]))
    }

    /// Runs an edit that leads to these axioms, and writes its results.
    fn edit(
        &self,
        axioms: BTreeSet<Axiom>,
        store: &mut [u8],
        work: &mut [u8],
        touched: &mut [u8],
    ) -> Changed {
        let rules = Rules::new(&self.catalogue);
        let old = Ontology::new(&rules, self.axioms.clone());
        let new = Ontology::new(&rules, axioms);
        let held = self.layout.held(store);
        let edit = Edit {
            rules: &rules,
            old: &old,
            new: &new,
            held: &held,
        };
        let change = edit.run();
        self.layout.write(store, &new.axioms, &change.set);
        work[..self.layout.work_length()].fill(0);
        write_list(touched, &change.touched);
        Changed {
            removed: change.removed,
            returned: change.returned,
            gained: change.gained,
            touched: change.touched.len(),
        }
    }
}

/// Writes concept numbers, rising, two bytes each, low byte first.
fn write_list(list: &mut [u8], concepts: &BTreeSet<usize>) {
    for (entry, &concept) in list.chunks_mut(2).zip(concepts) {
        entry.copy_from_slice(&[(concept % 256) as u8, (concept / 256) as u8]);
    }
}

/// What a catalogue asks for. At most every pair of concepts is an axiom in
/// force, and at most 4,096 are. Questions 1 to 9.
pub fn sizes(catalogue: &[u8]) -> Result<Sizes, Refusal> {
    let catalogue = Catalogue::read(catalogue)?;
    let layout = Layout::new(&catalogue);
    let concepts = catalogue.concepts.len();
    let axioms = MAX_AXIOMS.min(concepts.pow(2));
    Ok(Sizes {
        store: layout.store_length(),
        work: layout.work_length(),
        list: 2 * concepts,
        output: catalogue.length_with(axioms),
    })
}

/// Classifies the catalogue's own axioms into the store. Questions 1 to 11.
pub fn classify(catalogue: &[u8], store: &mut [u8], work: &mut [u8]) -> Result<Counts, Refusal> {
    let (catalogue, layout) = sized(catalogue, store)?;
    require(11, work.len() >= layout.work_length())?;
    let rules = Rules::new(&catalogue);
    let ontology = Ontology::new(&rules, catalogue.axioms.iter().copied().collect());
    let set = least_set(&rules, &ontology);
    layout.write(store, &ontology.axioms, &set);
    work[..layout.work_length()].fill(0);
    Ok(Counts {
        pairs: set.pairs(),
        links: set.links(),
    })
}

/// Takes the axioms of one list out of force and those of the other into it.
/// Questions 1 to 12, 22, 23, 13 to 15, 18, 16 and 17.
pub fn change(
    catalogue: &[u8],
    withdrawn: &[u8],
    added: &[u8],
    store: &mut [u8],
    work: &mut [u8],
    touched: &mut [u8],
) -> Result<Changed, Refusal> {
    let (catalogue, layout) = sized(catalogue, store)?;
    require(11, work.len() >= layout.work_length())?;
    require(12, touched.len() >= 2 * catalogue.concepts.len())?;
    let (withdrawn, added) = read_lists(withdrawn, added)?;
    let opened = open(catalogue, layout, store)?;
    let named = withdrawn.union(&added);
    let sides: Vec<usize> = named.flat_map(|&(left, right)| [left, right]).collect();
    opened.require_concepts(&sides)?;
    require(18, withdrawn.is_subset(&opened.axioms))?;
    require(16, added.is_disjoint(&opened.axioms))?;
    let axioms = &(&opened.axioms - &withdrawn) | &added;
    require(17, axioms.len() <= MAX_AXIOMS)?;
    Ok(opened.edit(axioms, store, work, touched))
}

/// The axioms of both lists. Questions 22 and 23.
fn read_lists(
    withdrawn: &[u8],
    added: &[u8],
) -> Result<(BTreeSet<Axiom>, BTreeSet<Axiom>), Refusal> {
    let fits = |list: &[u8]| {
        list.len() <= AXIOM_LENGTH * MAX_LISTED && list.len().is_multiple_of(AXIOM_LENGTH)
    };
    require(22, fits(withdrawn) && fits(added))?;
    let both = axioms(&[withdrawn, added].concat());
    let named: BTreeSet<Axiom> = both.iter().copied().collect();
    require(23, named.len() == both.len())?;
    let set = |list: &[u8]| axioms(list).into_iter().collect();
    Ok((set(withdrawn), set(added)))
}

/// Whether the store has C ⊑ D. Questions 1 to 10, 13 to 15, and 19.
pub fn lookup(catalogue: &[u8], c: usize, d: usize, store: &[u8]) -> Result<bool, Refusal> {
    let opened = Opened::for_reading(catalogue, store)?;
    opened.require_concepts(&[c, d])?;
    opened.require_occurrence(&[c, d])?;
    Ok(opened.layout.has_pair(store, c, d))
}

/// Lists the atomic C with C ⊑ D; their count. Questions 1 to 10, 12 to 15,
/// and 19.
pub fn listing(
    catalogue: &[u8],
    d: usize,
    store: &[u8],
    list: &mut [u8],
) -> Result<usize, Refusal> {
    let (catalogue, layout) = sized(catalogue, store)?;
    require(12, list.len() >= 2 * catalogue.concepts.len())?;
    let opened = open(catalogue, layout, store)?;
    opened.require_concepts(&[d])?;
    opened.require_occurrence(&[d])?;
    let concepts = &opened.catalogue.concepts;
    let below: BTreeSet<usize> = (0..concepts.len())
        .filter(|&c| concepts[c] == Concept::Atomic && layout.has_pair(store, c, d))
        .collect();
    write_list(list, &below);
    Ok(below.len())
}

/// A concept's pair row. Questions 1 to 10, 13 to 15, and 19.
pub fn row<'a>(catalogue: &[u8], c: usize, store: &'a [u8]) -> Result<Row<'a>, Refusal> {
    let opened = Opened::for_reading(catalogue, store)?;
    opened.require_concepts(&[c])?;
    opened.require_occurrence(&[c])?;
    let offset = opened.layout.pair_row(c);
    Ok(Row {
        offset,
        bytes: &store[offset..offset + opened.layout.width()],
    })
}

/// Writes the catalogue with the axioms in force; its length. Questions 1 to
/// 10, 13, 14 and 20.
pub fn write(catalogue: &[u8], store: &[u8], output: &mut [u8]) -> Result<usize, Refusal> {
    let Opened {
        mut catalogue,
        axioms,
        ..
    } = Opened::for_reading(catalogue, store)?;
    let length = catalogue.length_with(axioms.len());
    require(20, output.len() >= length)?;
    catalogue.axioms = axioms.into_iter().collect();
    output[..length].copy_from_slice(&catalogue.bytes());
    Ok(length)
}

/// The used part of a store of this catalogue, classified.
pub fn classified(catalogue: &[u8]) -> Result<(Counts, Vec<u8>), Refusal> {
    let layout = Layout::new(&Catalogue::read(catalogue)?);
    let mut store = vec![0; layout.store_length()];
    let mut work = vec![0; layout.work_length()];
    let counts = classify(catalogue, &mut store, &mut work)?;
    Ok((counts, store))
}
