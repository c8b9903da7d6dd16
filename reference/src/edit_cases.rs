//! The input of gate_edits: steps on stores that are right and that are wrong.

use crate::calls;
use crate::catalogue::{Axiom, Catalogue, list};
use crate::change::Edit;
use crate::edit_script::{ALL, Lent, Lists, Script, only};
use crate::edits::{CLASSIFY, EXPORTED_CHANGE, MARK, STORE_LENGTH, UNMARK};
use crate::examples;
use crate::inputs;
use crate::limit_cases::at_the_limit;
use crate::random::Random;
use crate::rules::{Ontology, Rules};
use crate::store::Layout;
use std::collections::BTreeSet;
use std::io;
use std::path::Path;

/// A catalogue whose axioms are edited.
struct Subject {
    bytes: Vec<u8>,
    catalogue: Catalogue,
    layout: Layout,
    random: Random,
}

impl Subject {
    fn new(bytes: Vec<u8>) -> Subject {
        let catalogue = Catalogue::read(&bytes).expect("an accepted catalogue");
        Subject {
            layout: Layout::new(&catalogue),
            random: Random::new(bytes.len() as u64),
            catalogue,
            bytes,
        }
    }

    fn concepts(&self) -> usize {
        self.catalogue.concepts.len()
    }

    /// The lengths that the questions ask for.
    fn lengths(&self) -> Lent {
        let list = 2 * self.concepts();
        [self.layout.store_length(), self.layout.work_length(), list]
    }

    fn any_axiom(&mut self) -> Axiom {
        let n = self.concepts();
        (self.random.below(n), self.random.below(n))
    }

    /// Some axioms that the catalogue does not have, as far as random ones hit them.
    fn new_axioms(&mut self, most: usize) -> Vec<Axiom> {
        let mut new = vec![];
        for _ in 0..50 {
            let axiom = self.any_axiom();
            if new.len() < most && !self.catalogue.axioms.contains(&axiom) && !new.contains(&axiom)
            {
                new.push(axiom);
            }
        }
        new
    }

    /// Some of the catalogue's axioms, evenly spread.
    fn own_axioms(&self, most: usize) -> Vec<Axiom> {
        let axioms = &self.catalogue.axioms;
        let count = most.min(axioms.len());
        (0..count)
            .map(|i| axioms[i * axioms.len() / count])
            .collect()
    }

    /// A byte with some of its bits set, for an offset in the store; none from n
    /// upward.
    fn some_bits(&mut self, at: usize, factors: usize) -> u8 {
        let (n, width) = (self.concepts(), self.layout.width());
        let kept = match n % 8 {
            spare if spare > 0 && at % width == width - 1 => (1 << spare) - 1,
            _ => 255,
        };
        (0..factors).fold(kept, |bits, _| bits & self.random.below(256) as u8)
    }

    /// Parts of the store from an offset on: all, or five parts where it is long.
    fn parts(&mut self, from: usize) -> Vec<(usize, usize)> {
        let [used, ..] = self.lengths();
        if used <= 1024 {
            return vec![(from, used - from)];
        }
        let start = |random: &mut Random| from + random.below(used - from - 200);
        (0..5).map(|_| (start(&mut self.random), 200)).collect()
    }

    /// Changes bits of the store from an offset on: of each byte those that so many
    /// random bytes share.
    fn spoil(&mut self, script: &mut Script, step: usize, from: usize, factors: usize) {
        for (start, count) in self.parts(from) {
            let bytes: Vec<u8> = (start..start + count)
                .map(|at| self.some_bits(at, factors))
                .collect();
            script.bits(step, start, &bytes);
        }
    }

    /// The store filled, and the catalogue with these bytes classified into it.
    fn classify(&self, script: &mut Script, bytes: &[u8]) {
        script.fill(165, 0, STORE_LENGTH);
        let [store, work, _] = self.lengths();
        script.call(CLASSIFY, bytes, [&[], &[]], 0, [store, work, 0]);
    }

    /// Classified with all its axioms.
    fn afresh(&self, script: &mut Script) {
        self.classify(script, &self.bytes);
    }

    /// New axioms added to a fresh store in a row and own ones withdrawn, each once
    /// more, which is refused; then all of it taken back, and done at once, in two
    /// orders: the stores are the same.
    fn in_a_row(&mut self, script: &mut Script) {
        self.afresh(script);
        let (new, own) = (self.new_axioms(3), self.own_axioms(4));
        let turns = [
            (false, &new, 2),
            (true, &own, 2),
            (true, &new, 1),
            (false, &own, 1),
        ];
        for (out, axioms, times) in turns {
            for &axiom in axioms {
                (0..times).for_each(|_| script.change(&self.bytes, only(out, &[axiom])));
            }
        }
        let reversed = |axioms: &[Axiom]| -> Vec<Axiom> { axioms.iter().rev().copied().collect() };
        for (own, new) in [(own.clone(), new.clone()), (reversed(&own), reversed(&new))] {
            script.change(&self.bytes, [&own, &new]);
            script.change(&self.bytes, [&own, &new]);
            script.change(&self.bytes, [&[], &[]]);
            script.change(&self.bytes, [&reversed(&new), &own]);
        }
    }

    /// Own axioms moved to new ones, one by one, and back.
    fn moves(&mut self, script: &mut Script) {
        self.afresh(script);
        let new = self.new_axioms(3);
        for (&own, &new) in self.own_axioms(3).iter().zip(&new) {
            self.there_and_back(script, [&[own], &[new]]);
        }
    }

    /// A change, and the change that takes it back.
    fn there_and_back(&self, script: &mut Script, [out, into]: Lists) {
        script.change_with(&self.bytes, [out, into], self.lengths());
        script.change_with(&self.bytes, [into, out], self.lengths());
    }

    /// The catalogue's axioms added one by one to a store classified without any,
    /// which is then as if it were classified with them, and withdrawn one by one: it
    /// is as at first. Then the same in lists.
    fn one_by_one(&self, script: &mut Script) {
        self.classify(script, &self.catalogue.bare().bytes());
        self.all_in_and_out(script, &self.catalogue.axioms, 1);
        self.all_in_and_out(script, &self.catalogue.axioms, 64);
    }

    /// The first axiom, and then all of them, on a store from before atomic records
    /// occurred from the start: without axioms it was all zeros, which is wrong now.
    fn store_from_before(&self, script: &mut Script) {
        let axioms = &self.catalogue.axioms;
        for count in [1, axioms.len()] {
            script.fill(165, 0, STORE_LENGTH);
            script.fill(0, 0, self.lengths()[0]);
            self.all_in_and_out(script, &axioms[..count], 1);
        }
    }

    /// Axioms added, so many at once, and withdrawn.
    fn all_in_and_out(&self, script: &mut Script, axioms: &[Axiom], most: usize) {
        for out in [false, true] {
            for some in axioms.chunks(most) {
                script.change_with(&self.bytes, only(out, some), self.lengths());
            }
        }
    }

    /// Buffers a byte too short, lists that are not of whole axioms, an axiom twice,
    /// a bit from n upward, numbers from n upward; then a move.
    fn refusals(&mut self, script: &mut Script) {
        let (n, lengths) = (self.concepts(), self.lengths());
        let (own, new) = (self.own_axioms(1), self.new_axioms(1));
        let twice = list(&[(n, 0), (n, 0)]);
        self.afresh(script);
        let short =
            |which: usize| -> Lent { std::array::from_fn(|i| lengths[i] - (which >> i & 1)) };
        for which in [1, 2, 4, 5, 6] {
            script.change_with(&self.bytes, [&own, &new], short(which));
        }
        script.change_by(&self.bytes, [&twice[..6], &twice], short(4));
        if n % 8 != 0 {
            script.bits(MARK, lengths[0] - 1, &[128]);
        }
        for lists in [[&twice[..6], &twice], [&[], &twice[..5]], [&twice, &[]]] {
            script.change_by(&self.bytes, lists, ALL);
        }
        script.change(&self.bytes, [&[(n, 0)], &new]);
        if n % 8 != 0 {
            script.bits(UNMARK, lengths[0] - 1, &[128]);
        }
        for axiom in [(n, 0), (0, n), (65_535, 65_535)] {
            script.change(&self.bytes, [&[axiom], &new]);
            script.change(&self.bytes, [&own, &[axiom]]);
        }
        script.change_with(&self.bytes, [&own, &new], lengths);
    }

    /// Changes of wrong stores: no pairs and links, some dropped, some more, and bits
    /// anywhere.
    fn wrong_stores(&mut self, script: &mut Script) {
        let [used, ..] = self.lengths();
        let axioms = self.concepts() * self.layout.width();
        for kind in 0..4 {
            self.afresh(script);
            match kind {
                0 => script.fill(0, axioms, used - axioms),
                1 => self.spoil(script, UNMARK, axioms, 2),
                2 => self.spoil(script, MARK, axioms, 4),
                _ => self.spoil(script, MARK, 0, 3),
            }
            script.change(&self.bytes, [&[], &[]]);
            let new = self.new_axioms(3);
            for (&own, &new) in self.own_axioms(2).iter().zip(&new) {
                script.change(&self.bytes, [&[], &[new]]);
                script.change(&self.bytes, [&[own], &[]]);
                script.change(&self.bytes, [&[new], &[own]]);
            }
            script.change(&self.bytes, [&self.own_axioms(3), &new]);
        }
    }

    /// The partitions that a change of a store touches without breaking them.
    fn gains_unbroken(&self, store: &[u8], [out, into]: Lists) -> BTreeSet<usize> {
        let set = |axioms: &[Axiom]| -> BTreeSet<Axiom> { axioms.iter().copied().collect() };
        let before = self.layout.axioms(store);
        let after = &(&before - &set(out)) | &set(into);
        let rules = Rules::new(&self.catalogue);
        let edit = Edit {
            rules: &rules,
            old: &Ontology::new(&rules, before),
            new: &Ontology::new(&rules, after),
            held: &self.layout.held(store),
        };
        &edit.run().touched - &edit.over_deleted().partitions()
    }

    /// A withdrawal and a move, of wrong stores where the withdrawal alone gains in
    /// partitions that are not broken, as far as random ones are such; how many.
    fn gains_outside(&mut self, script: &mut Script) -> usize {
        let (_, fresh) = calls::classified(&self.bytes).expect("an accepted catalogue");
        let axioms = self.concepts() * self.layout.width();
        let mut found = 0;
        for into in [vec![], self.new_axioms(1)] {
            for _ in 0..100 {
                let mut store = fresh.clone();
                for (at, byte) in store.iter_mut().enumerate().skip(axioms) {
                    *byte &= !self.some_bits(at, 2);
                }
                let which = self.random.below(self.catalogue.axioms.len());
                let out = [self.catalogue.axioms[which]];
                if !self.gains_unbroken(&store, [&out, &[]]).is_empty() {
                    script.put(&store);
                    self.there_and_back(script, [&out, &into]);
                    found += 1;
                    break;
                }
            }
        }
        found
    }
}

/// Damaged catalogues, and the exported call with answers of several lengths.
fn others(script: &mut Script, data: &Path) -> io::Result<()> {
    let w1 = Subject::new(examples::w1().bytes());
    w1.afresh(script);
    let [new, own, far] = [(0, 3), (1, 5), (2, 7)].map(|axiom| list(&[axiom]));
    for lists in [[&[][..], &new], [&own, &[]], [&new, &own]] {
        for name in ["w1-cut", "w1-fields", "w1-unsorted"] {
            let damaged = inputs::catalogue(data, name)?;
            script.change_by(&damaged, lists, w1.lengths());
            script.call(EXPORTED_CHANGE, &damaged, lists, 4, w1.lengths());
        }
        for entries in [0, 1, 2, 3, 4, 6] {
            script.call(EXPORTED_CHANGE, &w1.bytes, lists, entries, w1.lengths());
        }
    }
    for lists in [[&far[..], &[]], [&[], &own], [&new, &[]], [&own[1..], &[]]] {
        script.call(EXPORTED_CHANGE, &w1.bytes, lists, 6, w1.lengths());
    }
    Ok(())
}

/// Moves by hand: a catalogue, the axiom withdrawn and the one added.
const MOVES: &[(&str, Axiom, Axiom)] = &[
    ("w1", (1, 5), (0, 6)),
    ("w1", (0, 4), (2, 4)),
    ("w1", (1, 5), (0, 5)),
    ("w7", (0, 1), (0, 2)),
];

/// The catalogues whose axioms are edited; one more has 512 concepts.
const NAMES: &[&str] = &[
    "w1",
    "w6",
    "w7",
    "example4",
    "self-axiom",
    "tops",
    "tiny-0",
    "tiny-2",
    "doubles-0",
    "doubles-1",
    "small-1",
];

/// The program's input.
pub fn input(data: &Path) -> io::Result<Vec<u8>> {
    let mut script = Script::default();
    let mut outside = 0;
    for name in NAMES {
        let mut subject = Subject::new(inputs::catalogue(data, name)?);
        subject.in_a_row(&mut script);
        subject.moves(&mut script);
        subject.one_by_one(&mut script);
        subject.refusals(&mut script);
        subject.wrong_stores(&mut script);
        outside += subject.gains_outside(&mut script);
    }
    assert!(outside > 0, "a change that gains outside what it breaks");
    let mut large = Subject::new(inputs::catalogue(data, "timing-sparse")?);
    large.in_a_row(&mut script);
    large.refusals(&mut script);
    large.wrong_stores(&mut script);
    for &(name, out, into) in MOVES {
        let subject = Subject::new(inputs::catalogue(data, name)?);
        subject.afresh(&mut script);
        subject.there_and_back(&mut script, [&[out], &[into]]);
    }
    at_the_limit(&mut script, data)?;
    others(&mut script, data)?;
    for name in ["w1", "tops"] {
        Subject::new(inputs::catalogue(data, name)?).store_from_before(&mut script);
    }
    Ok(script.input())
}
