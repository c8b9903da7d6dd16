//! The form of gate_edits' input: steps, and the bytes that they use.

use crate::catalogue::{Axiom, list};
use crate::edits::{CHANGE, FILL, LIST_LENGTH, MARK, SIZES, STORE_LENGTH, Step, WORK_LENGTH};

/// Lent bytes of the store, of the work space and of the list.
pub(crate) type Lent = [usize; 3];

/// All of each.
pub(crate) const ALL: Lent = [STORE_LENGTH, WORK_LENGTH, LIST_LENGTH];

/// The axioms that a change withdraws, and those that it adds.
pub(crate) type Lists<'a> = [&'a [Axiom]; 2];

/// Axioms withdrawn alone, or added alone.
pub(crate) fn only(out: bool, axioms: &[Axiom]) -> Lists<'_> {
    if out { [axioms, &[]] } else { [&[], axioms] }
}

/// Steps, and the bytes that they use.
#[derive(Default)]
pub(crate) struct Script {
    steps: Vec<Step>,
    bytes: Vec<u8>,
}

impl Script {
    /// Where bytes stand among those used, and how many they are.
    fn place(&mut self, bytes: &[u8]) -> [usize; 2] {
        let mut places = self.bytes.windows(bytes.len().max(1));
        let start = places.position(|place| place == bytes);
        let start = start.unwrap_or_else(|| {
            self.bytes.extend(bytes);
            self.bytes.len() - bytes.len()
        });
        [start, bytes.len()]
    }

    pub(crate) fn fill(&mut self, byte: usize, from: usize, count: usize) {
        self.steps
            .push([FILL, byte, 0, 0, 0, 0, 0, from, count, 0, 0]);
    }

    /// Sets or clears the bits of these bytes.
    pub(crate) fn bits(&mut self, step: usize, from: usize, bytes: &[u8]) {
        let [start, length] = self.place(bytes);
        self.steps
            .push([step, 0, 0, 0, 0, 0, 0, from, 0, start, length]);
    }

    /// Puts these bytes at the store's start.
    pub(crate) fn put(&mut self, bytes: &[u8]) {
        self.fill(0, 0, bytes.len());
        self.bits(MARK, 0, bytes);
    }

    pub(crate) fn call(
        &mut self,
        call: usize,
        catalogue: &[u8],
        lists: [&[u8]; 2],
        entries: usize,
        lent: Lent,
    ) {
        let [[out, out_length], [into, into_length]] = lists.map(|list| self.place(list));
        let [start, length] = self.place(catalogue);
        let [store, work, list] = lent;
        self.steps.push([
            call,
            out,
            out_length,
            into,
            into_length,
            entries,
            list,
            store,
            work,
            start,
            length,
        ]);
    }

    /// A change with these bytes for lists.
    pub(crate) fn change_by(&mut self, catalogue: &[u8], lists: [&[u8]; 2], lent: Lent) {
        self.call(CHANGE, catalogue, lists, 0, lent);
    }

    /// A change with these axioms and so much lent.
    pub(crate) fn change_with(&mut self, catalogue: &[u8], lists: Lists, lent: Lent) {
        let [out, into] = lists.map(list);
        self.change_by(catalogue, [&out, &into], lent);
    }

    pub(crate) fn change(&mut self, catalogue: &[u8], lists: Lists) {
        self.change_with(catalogue, lists, ALL);
    }

    /// The program's input: the number of steps, the steps, their bytes.
    pub(crate) fn input(&self) -> Vec<u8> {
        let mut input = (self.steps.len() as u16).to_le_bytes().to_vec();
        let before = 2 + self.steps.len() * SIZES.iter().sum::<usize>();
        for step in &self.steps {
            let mut numbers = *step;
            // Starts are counted from the input's first byte; a fill has a byte there.
            let starts = if step[0] == FILL { 1.. } else { 0.. };
            for &at in &[1, 3, 9][starts] {
                numbers[at] += before;
            }
            for (number, size) in numbers.into_iter().zip(SIZES) {
                input.extend(&number.to_le_bytes()[..size]);
            }
        }
        input.extend(&self.bytes);
        assert!(input.len() < 65_536, "the program reads no more");
        input
    }
}
