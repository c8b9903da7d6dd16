//! The bytes of a store: rows of n bits, of axioms by left side, of pairs by
//! first concept, of links by first concept and role.

use crate::catalogue::{Axiom, Catalogue};
use crate::expressions::ExpressionSet;
use crate::rules::Expression;
use std::collections::BTreeSet;

/// Where the rows of a store are.
#[derive(Clone, Copy)]
pub struct Layout {
    concepts: usize,
    roles: usize,
}

/// The concepts that a row marks: bit i mod 8 of byte i div 8 is concept i.
fn marked(row: &[u8]) -> impl Iterator<Item = usize> + '_ {
    (0..8 * row.len()).filter(|i| row[i / 8] >> (i % 8) & 1 == 1)
}

impl Layout {
    pub fn new(catalogue: &Catalogue) -> Layout {
        Layout {
            concepts: catalogue.concepts.len(),
            roles: catalogue.roles,
        }
    }

    /// Bytes in a row.
    pub fn width(self) -> usize {
        self.concepts.div_ceil(8)
    }

    /// Length of a store's used part.
    pub fn store_length(self) -> usize {
        self.concepts * self.width() * (self.roles + 2)
    }

    /// Length of a work space's used part.
    pub fn work_length(self) -> usize {
        self.concepts * self.width() * (self.roles + 1)
    }

    fn axiom_row(self, left: usize) -> usize {
        left * self.width()
    }

    pub fn pair_row(self, c: usize) -> usize {
        (self.concepts + c) * self.width()
    }

    fn link_row(self, e: usize, r: usize) -> usize {
        (2 * self.concepts + e * self.roles + r) * self.width()
    }

    fn row(self, store: &[u8], offset: usize) -> &[u8] {
        &store[offset..offset + self.width()]
    }

    /// Whether all row bits from n upward are clear.
    pub fn spare_bits_clear(self, store: &[u8]) -> bool {
        store[..self.store_length()]
            .chunks(self.width())
            .all(|row| marked(row).all(|i| i < self.concepts))
    }

    /// The axioms in force. Spare bits are clear.
    pub fn axioms(self, store: &[u8]) -> BTreeSet<Axiom> {
        let right_sides = |left| marked(self.row(store, self.axiom_row(left)));
        (0..self.concepts)
            .flat_map(|left| right_sides(left).map(move |right| (left, right)))
            .collect()
    }

    /// The pairs and links that the store holds. Spare bits are clear.
    pub fn held(self, store: &[u8]) -> ExpressionSet {
        let mut set = ExpressionSet::new(self.concepts, self.roles);
        for c in 0..self.concepts {
            for d in marked(self.row(store, self.pair_row(c))) {
                set.insert(Expression::Pair(c, d));
            }
            for r in 0..self.roles {
                for d in marked(self.row(store, self.link_row(c, r))) {
                    set.insert(Expression::Link(c, r, d));
                }
            }
        }
        set
    }

    /// Whether the store has C ⊑ D.
    pub fn has_pair(self, store: &[u8], c: usize, d: usize) -> bool {
        marked(self.row(store, self.pair_row(c))).any(|i| i == d)
    }

    /// Writes the used part: these axioms, pairs and links, and nothing else.
    pub fn write(self, store: &mut [u8], axioms: &BTreeSet<Axiom>, set: &ExpressionSet) {
        store[..self.store_length()].fill(0);
        let mut mark = |row: usize, i: usize| store[row + i / 8] |= 1 << (i % 8);
        for &(left, right) in axioms {
            mark(self.axiom_row(left), right);
        }
        for expression in set.iter() {
            match expression {
                Expression::Pair(c, d) => mark(self.pair_row(c), d),
                Expression::Link(e, r, c) => mark(self.link_row(e, r), c),
            }
        }
    }
}
