//! Every call by the crate and by the exported function, on the same buffers.

use girvotal::exported::{self, ENTRIES};
use girvotal::{Axiom, Builder, Catalogue, Concept, Refusal, Sizes};

/// What buffers hold before a call.
pub const FILL: u8 = 0x5a;

/// Buffers to lend.
#[derive(Clone, PartialEq)]
pub struct Lent {
    pub store: Vec<u8>,
    pub work: Vec<u8>,
    pub list: Vec<u8>,
    pub output: Vec<u8>,
}

/// A call with its arguments.
#[derive(Clone, Copy, Debug)]
pub enum Call<'c> {
    Classify,
    Change(&'c [Axiom], &'c [Axiom]),
    Lookup(u16, u16),
    List(u16),
    Row(u16),
    Write,
}

impl Lent {
    /// Buffers of exactly these sizes.
    pub fn new(sizes: Sizes) -> Lent {
        let buffer = |length| vec![FILL; length];
        Lent {
            store: buffer(sizes.store),
            work: buffer(sizes.work),
            list: buffer(sizes.list),
            output: buffer(sizes.written),
        }
    }

    /// The same, with the store classified.
    pub fn classified(catalogue: &[u8]) -> Lent {
        let mut lent = Lent::new(checked(catalogue).sizes());
        lent.make(Call::Classify, catalogue).expect("accepted");
        lent
    }

    /// Makes a call both ways. They answer and leave the same; refused, they change nothing.
    pub fn make(&mut self, call: Call, catalogue: &[u8]) -> Result<[usize; ENTRIES], Refusal> {
        let (before, mut other) = (self.clone(), self.clone());
        let result = self.by_crate(call, catalogue);
        assert_eq!(other.by_exported(call, catalogue), result, "{call:?}");
        assert!(*self == other, "{call:?}: the same bytes");
        assert!(result.is_ok() || *self == before, "{call:?}: bytes kept");
        result
    }

    /// By the crate: the entries that its answer stands for.
    fn by_crate(&mut self, call: Call, bytes: &[u8]) -> Result<[usize; ENTRIES], Refusal> {
        let catalogue = &Catalogue::new(bytes)?;
        let (store, work) = (&mut self.store, &mut self.work);
        Ok(match call {
            Call::Classify => {
                let counts = girvotal::classify(catalogue, store, work)?;
                [counts.pairs, counts.links, 0, 0]
            }
            Call::Change(out, new) => {
                let c = girvotal::change(catalogue, out, new, store, work, &mut self.list)?;
                [c.removed, c.returned, c.gained, c.touched.len()]
            }
            Call::Lookup(first, second) => {
                let yes = girvotal::lookup(catalogue, Concept(first), Concept(second), store)?;
                [usize::from(yes), 0, 0, 0]
            }
            Call::List(second) => {
                let list = girvotal::list(catalogue, Concept(second), store, &mut self.list)?;
                [list.len(), 0, 0, 0]
            }
            Call::Row(concept) => {
                let row = girvotal::row(catalogue, Concept(concept), store)?.bytes();
                let offset = row.as_ptr() as usize - store.as_ptr() as usize;
                [offset, row.len(), 0, 0]
            }
            Call::Write => {
                let written = girvotal::write(catalogue, store, &mut self.output)?;
                [written.len(), 0, 0, 0]
            }
        })
    }

    /// By the exported function.
    fn by_exported(&mut self, call: Call, bytes: &[u8]) -> Result<[usize; ENTRIES], Refusal> {
        let (store, work) = (&mut self.store, &mut self.work);
        let mut answer = [0; ENTRIES];
        let result = match call {
            Call::Classify => exported::classify(bytes, store, work, &mut answer),
            Call::Change(out, new) => {
                let [out, new] = [out, new].map(axiom_bytes);
                let list = &mut self.list;
                exported::change(bytes, &out, &new, store, work, list, &mut answer)
            }
            Call::Lookup(first, second) => {
                exported::lookup(bytes, first.into(), second.into(), store, &mut answer)
            }
            Call::List(second) => {
                exported::list(bytes, second.into(), store, &mut self.list, &mut answer)
            }
            Call::Row(concept) => exported::row(bytes, concept.into(), store, &mut answer),
            Call::Write => exported::write(bytes, store, &mut self.output, &mut answer),
        };
        match Refusal::of(result) {
            Some(refusal) => Err(refusal),
            None => Ok(answer.map(|entry| entry as usize)),
        }
    }
}

pub fn axiom(left: u16, right: u16) -> Axiom {
    Axiom {
        left: Concept(left),
        right: Concept(right),
    }
}

pub fn checked(catalogue: &[u8]) -> Catalogue<'_> {
    Catalogue::new(catalogue).expect("an accepted catalogue")
}

/// So many kinds, with these axioms.
pub fn kinds(count: u16, axioms: impl IntoIterator<Item = Axiom>) -> Vec<u8> {
    let mut builder = Builder::new();
    for _ in 0..count {
        builder.kind();
    }
    for axiom in axioms {
        builder.axiom(axiom.left, axiom.right);
    }
    builder.build().expect("an accepted catalogue")
}

/// A list of axioms in bytes.
fn axiom_bytes(axioms: &[Axiom]) -> Vec<u8> {
    let sides = axioms.iter().flat_map(|axiom| [axiom.left, axiom.right]);
    sides.flat_map(|side| side.0.to_le_bytes()).collect()
}
