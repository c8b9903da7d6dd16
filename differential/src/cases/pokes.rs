//! Stores that are wrong, and such that are refused.

use super::Maker;
use crate::case::{Call, Step};
use crate::lists::Lists;
use reference::catalogue::{Axiom, MAX_AXIOMS, MAX_LISTED};

impl Maker<'_> {
    /// Turns bits of the store, and keeps account of the axioms among them.
    fn poke(&mut self, at: usize, bit: usize) {
        let n = self.concepts();
        let width = n.div_ceil(8);
        let (left, right) = (at / width, at % width * 8 + bit);
        if left < n && right < n {
            let axiom = (left, right);
            if !self.in_force.remove(&axiom) {
                self.in_force.insert(axiom);
            }
        }
        let mask = 1 << bit;
        self.steps.push(Step::Poke { at, mask });
    }

    /// Some bits turned anywhere in the store's rows, or past them; spare bits stay clear.
    pub(super) fn wrong_store(&mut self) {
        let n = self.concepts();
        let width = n.div_ceil(8);
        let most = [2, 8, 30][self.random.below(3)];
        for _ in 0..1 + self.random.below(most) {
            let (used, whole) = (self.used.store, self.whole.store);
            if self.random.below(10) == 0 && whole > used {
                let at = used + self.random.below(whole - used);
                self.steps.push(Step::Poke { at, mask: 255 });
                continue;
            }
            let row = self.random.below(used / width);
            let bit = self.random.below(n);
            self.poke(row * width + bit / 8, bit % 8);
        }
    }

    /// A spare bit set in any row, some calls that are refused, and the bit cleared again.
    pub(super) fn spare_bit(&mut self) {
        let n = self.concepts();
        let width = n.div_ceil(8);
        if n.is_multiple_of(8) {
            return self.wrong_store();
        }
        let row = self.random.below(self.used.store / width);
        let bit = n + self.random.below(8 * width - n);
        let calls = (0..1 + self.random.below(3)).map(|_| self.any().0);
        let calls = calls.filter(|call| *call != Call::Classify).collect();
        self.between(&[(row, bit)], calls);
    }

    /// Where the store is full: an axiom too many, each call that is refused for it, and the axiom
    /// cleared again.
    pub(super) fn axioms_past_the_limit(&mut self) {
        let n = self.concepts();
        let missing = (MAX_AXIOMS + 1).saturating_sub(self.in_force.len());
        if missing > MAX_LISTED {
            return;
        }
        let all = (0..n).flat_map(|left| (0..n).map(move |right| (left, right)));
        let new = all.filter(|axiom| !self.in_force.contains(axiom));
        let bits: Vec<Axiom> = new.take(missing).collect();
        let [withdrawn, added] = Lists::right(self.random, &self.catalogue, &self.in_force).bytes();
        let calls = vec![
            Call::Change { withdrawn, added },
            Call::Lookup(self.number(), self.number()),
            Call::List(self.number()),
            Call::Row(self.number()),
            Call::Write,
        ];
        self.between(&bits, calls);
    }

    /// Turns bits of rows, makes calls, and turns the bits again.
    fn between(&mut self, bits: &[(usize, usize)], calls: Vec<Call>) {
        let width = self.concepts().div_ceil(8);
        let pokes = bits.iter().map(|(row, bit)| Step::Poke {
            at: row * width + bit / 8,
            mask: 1 << (bit % 8),
        });
        let pokes: Vec<Step> = pokes.collect();
        self.steps.extend(pokes.clone());
        calls.into_iter().for_each(|call| self.call(call));
        self.steps.extend(pokes);
    }
}
