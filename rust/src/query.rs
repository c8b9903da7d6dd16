//! What meets a wish, in the catalogue or not.

use alloc::vec::Vec;

use crate::{Builder, Catalogue, Concept, Record, Refusal, Row, Site};

/// The kinds about a wish, each list rising.
#[derive(Clone, Debug, PartialEq, Eq)]
pub struct Met {
    /// Those that meet it: they lie under it, or are equal to it.
    pub kinds: Vec<Concept>,
    /// Those equal to it.
    pub equal: Vec<Concept>,
    /// Those directly above it: above it, not equal to it, and above no other such kind.
    pub above: Vec<Concept>,
}

/// What meets a concept of the catalogue, whether it is in an axiom or not: the catalogue's axioms
/// are classified with a kind more, which is equal to it. Question 3, where there is no room for that
/// kind, and 8, where the concept is not there.
pub fn query(catalogue: &Catalogue<'_>, wish: Concept) -> Result<Met, Refusal> {
    let mut builder = Builder::of(catalogue);
    let kind = builder.kind();
    builder.axiom(kind, wish);
    builder.axiom(wish, kind);
    let site = Site::classify(builder.build()?)?;
    let records = (0..).map(Concept).zip(catalogue.records());
    let mut kinds = Vec::new();
    for (other, _) in records.filter(|(_, record)| *record == Record::Atomic) {
        kinds.push((other, site.row(other)?));
    }
    let under = site.row(kind)?;
    let numbers = |some: Vec<Kind<'_>>| some.into_iter().map(|(other, _)| other).collect();
    let (met, others): (Vec<_>, Vec<_>) =
        kinds.into_iter().partition(|(_, row)| row.contains(kind));
    let equal = met.iter().filter(|(other, _)| under.contains(*other));
    let above = others
        .into_iter()
        .filter(|(other, _)| under.contains(*other));
    Ok(Met {
        equal: equal.map(|(other, _)| *other).collect(),
        above: lowest(above.collect()),
        kinds: numbers(met),
    })
}

/// A kind, and the row of those above it.
type Kind<'s> = (Concept, Row<'s>);

/// Of some kinds those that lie above no other of them, but for equal ones.
fn lowest(kinds: Vec<Kind<'_>>) -> Vec<Concept> {
    let above = |(one, row): &Kind<'_>, (other, others): &Kind<'_>| {
        others.contains(*one) && !row.contains(*other)
    };
    let lowest = kinds
        .iter()
        .filter(|one| !kinds.iter().any(|other| above(one, other)));
    lowest.map(|(one, _)| *one).collect()
}

impl Site {
    /// What meets a wish by the axioms in force. The function makes the wish of the catalogue's
    /// concepts, and gives its record; this site stays as it is: [`query`](crate::query()).
    ///
    /// ```
    /// # use girvotal::{Builder, Site};
    /// # fn main() -> Result<(), girvotal::Refusal> {
    /// let mut builder = Builder::new();
    /// let (corner, pillar) = (builder.kind(), builder.kind());
    /// let has = builder.role();
    /// let with_pillar = builder.existential(has, pillar);
    /// builder.axiom(corner, with_pillar);
    /// let site = Site::classify(builder.build()?)?;
    ///
    /// let met = site.query(|builder| {
    ///     let anything = builder.top();
    ///     builder.existential(has, anything)
    /// })?;
    /// assert_eq!(met.kinds, [corner]);
    /// # Ok(())
    /// # }
    /// ```
    pub fn query(&self, wish: impl FnOnce(&mut Builder) -> Concept) -> Result<Met, Refusal> {
        let catalogue = self.write()?;
        let mut builder = Builder::of(&Catalogue::new(&catalogue)?);
        let wish = wish(&mut builder);
        let catalogue = builder.build()?;
        query(&Catalogue::new(&catalogue)?, wish)
    }
}
