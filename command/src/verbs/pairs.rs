//! The pairs of kinds by which two states differ.

use std::collections::HashMap;

use girvotal::Concept;

use crate::failure::Failure;
use crate::json::Json;
use crate::state::State;
use crate::text::quoted;

/// A kind's name, and that of another above it.
type Pair<'a> = (&'a str, &'a str);

/// The pairs of different kinds that only one of two states has.
pub struct Pairs<'a> {
    lost: Vec<Pair<'a>>,
    gained: Vec<Pair<'a>>,
}

impl<'a> Pairs<'a> {
    /// From one state to another.
    pub fn between(old: &'a State, new: &'a State) -> Result<Pairs<'a>, Failure> {
        Ok(Pairs {
            lost: lacking(old, new)?,
            gained: lacking(new, old)?,
        })
    }

    /// Whether there is none.
    pub fn is_empty(&self) -> bool {
        self.lost.is_empty() && self.gained.is_empty()
    }

    /// Each, lost (-) or gained (+), and their counts; without the end of that line.
    pub fn text(&self) -> String {
        let line = |sign: char, (below, above): &Pair<'_>| {
            format!("{sign} {} < {}\n", quoted(below), quoted(above))
        };
        let mut text: String = self.lost.iter().map(|pair| line('-', pair)).collect();
        text.extend(self.gained.iter().map(|pair| line('+', pair)));
        let (lost, gained) = (self.lost.len(), self.gained.len());
        text + &format!("{lost} lost, {gained} gained")
    }

    /// The same for an object.
    pub fn fields(&self) -> Vec<(&'static str, Json)> {
        let object = |(below, above): &Pair<'_>| {
            Json::Object(vec![("below", (*below).into()), ("above", (*above).into())])
        };
        vec![
            ("lost", self.lost.iter().map(object).collect()),
            ("gained", self.gained.iter().map(object).collect()),
        ]
    }
}

/// The pairs of different kinds of one state that another lacks, by name.
fn lacking<'a>(one: &'a State, other: &State) -> Result<Vec<Pair<'a>>, Failure> {
    let others = other.kinds();
    let named: HashMap<&str, Concept> = others
        .iter()
        .map(|&kind| (other.name(kind), kind))
        .collect();
    let kinds = one.kinds();
    let mut pairs = Vec::new();
    for &kind in &kinds {
        let name = one.name(kind);
        let row = one.site.row(kind)?;
        let other_row = match named.get(name) {
            Some(&same) => Some(other.site.row(same)?),
            None => None,
        };
        let above = kinds.iter().filter(|&&k| k != kind && row.contains(k));
        let names = above.map(|&above| one.name(above));
        let held = |above: &&str| {
            let same = named.get(above);
            other_row.is_some_and(|row| same.is_some_and(|&same| row.contains(same)))
        };
        pairs.extend(
            names
                .filter(|above| !held(above))
                .map(|above| (name, above)),
        );
    }
    Ok(pairs)
}
