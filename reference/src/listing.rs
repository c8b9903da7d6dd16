//! The text of the listing program: a line of counts, then each pair of
//! different atomic concepts; or one line with the number of the refusal.

use crate::calls::classify;
use crate::catalogue::{Catalogue, Concept, Refusal};
use crate::store::Layout;

/// Bytes of store, and of work space.
const BUFFER_LENGTH: usize = 65_536;

/// What the program prints for this input.
pub fn text(input: &[u8]) -> String {
    match listed(input) {
        Ok(lines) => lines,
        Err(refusal) => format!("refused {}\n", refusal.number),
    }
}

fn listed(input: &[u8]) -> Result<String, Refusal> {
    let mut store = vec![0; BUFFER_LENGTH];
    let mut work = vec![0; BUFFER_LENGTH];
    let counts = classify(input, &mut store, &mut work)?;
    let catalogue = Catalogue::read(input)?;
    let mut lines = format!(
        "concepts {} axioms {} pairs {} links {}\n",
        catalogue.concepts.len(),
        catalogue.axioms.len(),
        counts.pairs,
        counts.links
    );
    let set = Layout::new(&catalogue).held(&store);
    let atomic = |c: usize| catalogue.concepts[c] == Concept::Atomic;
    for c in (0..catalogue.concepts.len()).filter(|&c| atomic(c)) {
        for &d in set.subsumers(c).iter().filter(|&&d| d != c && atomic(d)) {
            lines += &format!("{c} {d}\n");
        }
    }
    Ok(lines)
}
