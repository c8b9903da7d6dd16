//! Runs every step of every vector file through the library. `reference/tests/support/vectors.rs`
//! says which folder is read.

mod support;
#[path = "../../reference/tests/support/vectors.rs"]
mod vectors;

use differential::case::{Buffers, Call, Damage};
use differential::run::compare;
use differential::side::{EXPORTED, TYPED};
use differential::tally::Tally;
use girvotal::exported::{ENTRIES, SHORT_ANSWER};
use reference::calls::{Changed, Counts, Row};
use reference::catalogue::Refusal;
use std::cell::RefCell;
use vectors::{Calls, Vector, run_folder};

/// The exported functions and the typed calls, which must agree.
struct Library;

/// What an answer's entries hold before a call.
const MARK: u64 = 0xa5a5_a5a5_a5a5_a5a5;

/// Makes a call both ways: with answers of too few entries, which are kept and change nothing, and
/// with one of two more, which are kept too.
fn made(call: &Call, catalogue: &[u8], lent: [&mut [u8]; 4]) -> Result<[usize; ENTRIES], Refusal> {
    let [store, work, list, output] = lent.each_ref().map(|buffer| buffer.to_vec());
    let before = Buffers {
        store,
        work,
        list,
        output,
        answer: vec![MARK; ENTRIES + 2],
    };
    let mut buffers = before.clone();
    let mut returned = SHORT_ANSWER;
    for entries in [0, 1, 2, 3, ENTRIES + 2] {
        assert_eq!(
            (returned, &buffers),
            (SHORT_ANSWER, &before),
            "short answer"
        );
        let mut lengths = buffers.lengths();
        lengths.answer = entries;
        let made = compare(EXPORTED, &[TYPED], (call, catalogue), &mut buffers, lengths);
        returned = made.unwrap_or_else(|what| panic!("{call:?}: {what}"));
    }
    assert_eq!(
        buffers.answer[ENTRIES..],
        [MARK; 2],
        "entries past the fourth"
    );
    if let Some(refusal) = girvotal::Refusal::of(returned) {
        assert_eq!(buffers, before, "refused: all is kept");
        return Err(differential::calls::refusal(refusal));
    }
    let left = [
        &buffers.store,
        &buffers.work,
        &buffers.list,
        &buffers.output,
    ];
    for (lent, left) in lent.into_iter().zip(left) {
        lent.copy_from_slice(left);
    }
    let entry = |i: usize| usize::try_from(buffers.answer[i]).expect("a count or a length");
    Ok(std::array::from_fn(entry))
}

impl Calls for Library {
    fn classify(
        &self,
        catalogue: &[u8],
        store: &mut [u8],
        work: &mut [u8],
    ) -> Result<Counts, Refusal> {
        let lent = [store, work, &mut [], &mut []];
        let [pairs, links, ..] = made(&Call::Classify, catalogue, lent)?;
        Ok(Counts { pairs, links })
    }

    fn change(
        &self,
        catalogue: &[u8],
        withdrawn: &[u8],
        added: &[u8],
        store: &mut [u8],
        work: &mut [u8],
        list: &mut [u8],
    ) -> Result<Changed, Refusal> {
        let (withdrawn, added) = (withdrawn.to_vec(), added.to_vec());
        let call = Call::Change { withdrawn, added };
        let lent = [store, work, list, &mut []];
        let [removed, returned, gained, touched] = made(&call, catalogue, lent)?;
        Ok(Changed {
            removed,
            returned,
            gained,
            touched,
        })
    }

    fn lookup(&self, catalogue: &[u8], c: usize, d: usize, store: &[u8]) -> Result<bool, Refusal> {
        let lent = [&mut store.to_vec()[..], &mut [], &mut [], &mut []];
        let [yes, ..] = made(&Call::Lookup(c, d), catalogue, lent)?;
        Ok(yes == 1)
    }

    fn listing(
        &self,
        catalogue: &[u8],
        d: usize,
        store: &[u8],
        list: &mut [u8],
    ) -> Result<usize, Refusal> {
        let lent = [&mut store.to_vec()[..], &mut [], list, &mut []];
        let [count, ..] = made(&Call::List(d), catalogue, lent)?;
        Ok(count)
    }

    fn row<'a>(&self, catalogue: &[u8], c: usize, store: &'a [u8]) -> Result<Row<'a>, Refusal> {
        let lent = [&mut store.to_vec()[..], &mut [], &mut [], &mut []];
        let [offset, width, ..] = made(&Call::Row(c), catalogue, lent)?;
        let bytes = &store[offset..offset + width];
        Ok(Row { offset, bytes })
    }

    fn write(&self, catalogue: &[u8], store: &[u8], output: &mut [u8]) -> Result<usize, Refusal> {
        let lent = [&mut store.to_vec()[..], &mut [], &mut [], output];
        let [length, ..] = made(&Call::Write, catalogue, lent)?;
        Ok(length)
    }
}

/// Every step by the library; and on every store that is met, the reading calls by the library and
/// by the reference.
#[test]
fn every_step_of_every_file() {
    let tally = RefCell::new(Tally::default());
    let steps = run_folder(|vector: &Vector| {
        vector.run(&Library, |store| {
            let mut case = support::on("a store of a vector", &vector.catalogue, store);
            support::reading(&mut case, &Damage::default());
            support::agree(&case, &mut tally.borrow_mut());
        })
    });
    let tally = tally.into_inner();
    println!("agreed, stores of vectors: {}", tally.summary());
    assert_eq!(tally.cases, steps.values().sum());
}
