//! A catalogue with buffers of its own.

use alloc::vec;
use alloc::vec::Vec;

use crate::calls::{self, Changed, Counts, Row};
use crate::{Axiom, Catalogue, Concept, Refusal, Sizes};

/// A catalogue, its store and all that the calls are lent: the same calls, without lengths.
#[derive(Clone, Debug)]
pub struct Site {
    catalogue: Vec<u8>,
    sizes: Sizes,
    store: Vec<u8>,
    work: Vec<u8>,
    list: Vec<u8>,
}

impl Site {
    /// A catalogue, classified.
    pub fn classify(catalogue: Vec<u8>) -> Result<Site, Refusal> {
        Site::classified(catalogue).map(|(site, _)| site)
    }

    /// A catalogue, classified, and how much that derived.
    pub fn classified(catalogue: Vec<u8>) -> Result<(Site, Counts), Refusal> {
        let sizes = Catalogue::new(&catalogue)?.sizes();
        let mut site = Site::lent(catalogue, sizes, vec![0; sizes.store]);
        let counts = site.reclassify()?;
        Ok((site, counts))
    }

    /// A catalogue with a store kept from before: what the store holds is taken as it is.
    /// Questions 1 to 10, 13 and 14.
    pub fn of(catalogue: Vec<u8>, store: Vec<u8>) -> Result<Site, Refusal> {
        let sizes = Catalogue::new(&catalogue)?.sizes();
        let site = Site::lent(catalogue, sizes, store);
        site.write()?;
        Ok(site)
    }

    fn lent(catalogue: Vec<u8>, sizes: Sizes, store: Vec<u8>) -> Site {
        let (work, list) = (vec![0; sizes.work], vec![0; sizes.list]);
        Site {
            catalogue,
            sizes,
            store,
            work,
            list,
        }
    }

    /// The catalogue that it was made with, or the one of the last [`rewrite`](Site::rewrite).
    pub fn catalogue(&self) -> Catalogue<'_> {
        Catalogue::checked(&self.catalogue, self.sizes)
    }

    /// The store's bytes.
    pub fn store(&self) -> &[u8] {
        &self.store
    }

    /// Starts over from the axioms of its catalogue.
    pub fn reclassify(&mut self) -> Result<Counts, Refusal> {
        let catalogue = Catalogue::checked(&self.catalogue, self.sizes);
        calls::classify(&catalogue, &mut self.store, &mut self.work)
    }

    /// Withdraws the axioms of one list and adds those of the other: [`change`](crate::change()).
    pub fn change(&mut self, withdrawn: &[Axiom], added: &[Axiom]) -> Result<Changed<'_>, Refusal> {
        let catalogue = Catalogue::checked(&self.catalogue, self.sizes);
        calls::change(
            &catalogue,
            withdrawn,
            added,
            &mut self.store,
            &mut self.work,
            &mut self.list,
        )
    }

    /// Whether the first concept lies under the second: [`lookup`](crate::lookup()).
    pub fn lookup(&self, first: Concept, second: Concept) -> Result<bool, Refusal> {
        calls::lookup(&self.catalogue(), first, second, &self.store)
    }

    /// The kinds under a concept, rising: [`list`](crate::list()).
    pub fn list(&self, second: Concept) -> Result<Vec<Concept>, Refusal> {
        let mut list = vec![0; self.sizes.list];
        let listed = calls::list(&self.catalogue(), second, &self.store, &mut list)?;
        Ok(listed.iter().collect())
    }

    /// The row of the concepts above one: [`row`](crate::row()).
    pub fn row(&self, concept: Concept) -> Result<Row<'_>, Refusal> {
        calls::row(&self.catalogue(), concept, &self.store)
    }

    /// The catalogue with the axioms in force: [`write`](crate::write()).
    pub fn write(&self) -> Result<Vec<u8>, Refusal> {
        let mut output = vec![0; self.sizes.written];
        let length = calls::write(&self.catalogue(), &self.store, &mut output)?.len();
        output.truncate(length);
        Ok(output)
    }

    /// Makes the catalogue the one with the axioms in force; the store stays as it is.
    pub fn rewrite(&mut self) -> Result<(), Refusal> {
        // The sizes depend on the concepts and roles alone, which are the same.
        self.catalogue = self.write()?;
        Ok(())
    }
}
