//! The exported calls: each returns a number, and writes four entries of an
//! answer where it is accepted.

use crate::calls::{self, Changed, Sizes};
use crate::catalogue::Refusal;

/// How many entries an answer has at least.
const ENTRIES: usize = 4;

/// Returned where it has fewer.
const SHORT_ANSWER: usize = 65_535;

/// Answers by a call, unless the answer is too short: 0 and the entries where it is
/// accepted, number + 65,536 · record where it is refused.
pub fn answered(
    answer: &mut [u64],
    call: impl FnOnce() -> Result<[usize; ENTRIES], Refusal>,
) -> usize {
    if answer.len() < ENTRIES {
        return SHORT_ANSWER;
    }
    match call() {
        Ok(entries) => {
            answer[..ENTRIES].copy_from_slice(&entries.map(|entry| entry as u64));
            0
        }
        Err(refusal) => refusal.number + 65_536 * refusal.record,
    }
}

/// A change's counts in their order.
pub fn entries(changed: Changed) -> [usize; ENTRIES] {
    let Changed {
        removed,
        returned,
        gained,
        touched,
    } = changed;
    [removed, returned, gained, touched]
}

/// A catalogue's sizes in their order.
pub fn size_entries(sizes: Sizes) -> [usize; ENTRIES] {
    let Sizes {
        store,
        work,
        list,
        output,
    } = sizes;
    [store, work, list, output]
}

pub fn check(catalogue: &[u8], answer: &mut [u64]) -> usize {
    answered(answer, || calls::sizes(catalogue).map(size_entries))
}

pub fn classify(catalogue: &[u8], store: &mut [u8], work: &mut [u8], answer: &mut [u64]) -> usize {
    answered(answer, || {
        let counts = calls::classify(catalogue, store, work)?;
        Ok([counts.pairs, counts.links, 0, 0])
    })
}

pub fn change(
    catalogue: &[u8],
    withdrawn: &[u8],
    added: &[u8],
    store: &mut [u8],
    work: &mut [u8],
    touched: &mut [u8],
    answer: &mut [u64],
) -> usize {
    answered(answer, || {
        calls::change(catalogue, withdrawn, added, store, work, touched).map(entries)
    })
}

pub fn lookup(catalogue: &[u8], c: usize, d: usize, store: &[u8], answer: &mut [u64]) -> usize {
    answered(answer, || {
        let yes = calls::lookup(catalogue, c, d, store)?;
        Ok([usize::from(yes), 0, 0, 0])
    })
}

pub fn list(
    catalogue: &[u8],
    d: usize,
    store: &[u8],
    list: &mut [u8],
    answer: &mut [u64],
) -> usize {
    answered(answer, || {
        Ok([calls::listing(catalogue, d, store, list)?, 0, 0, 0])
    })
}

pub fn row(catalogue: &[u8], c: usize, store: &[u8], answer: &mut [u64]) -> usize {
    answered(answer, || {
        let row = calls::row(catalogue, c, store)?;
        Ok([row.offset, row.bytes.len(), 0, 0])
    })
}

pub fn write(catalogue: &[u8], store: &[u8], output: &mut [u8], answer: &mut [u64]) -> usize {
    answered(answer, || {
        Ok([calls::write(catalogue, store, output)?, 0, 0, 0])
    })
}
