//! A case made by the reference and by others, up to the first difference.

use crate::case::{Buffers, Call, Case, Lengths, Step};
use crate::side::{REFERENCE, Side};
use crate::tally::Tally;
use std::fmt::Debug;

/// The first difference.
#[derive(Clone, Debug, PartialEq, Eq)]
pub struct Difference {
    /// The step's number in the case.
    pub step: usize,
    /// Whose it is, and what differs.
    pub what: String,
}

/// The first place where two lists of one length differ.
fn first<T: PartialEq + Debug>(name: &str, got: &[T], expected: &[T]) -> Option<String> {
    let at = (0..expected.len()).find(|&at| got[at] != expected[at])?;
    let (got, expected) = (&got[at], &expected[at]);
    Some(format!("{name}[{at}] is {got:?}, not {expected:?}"))
}

/// The first difference of two sets of buffers.
fn difference(got: &Buffers, expected: &Buffers) -> Option<String> {
    first("store", &got.store, &expected.store)
        .or_else(|| first("work", &got.work, &expected.work))
        .or_else(|| first("list", &got.list, &expected.list))
        .or_else(|| first("output", &got.output, &expected.output))
        .or_else(|| first("answer", &got.answer, &expected.answer))
}

/// Makes a call by one side on the buffers, and by others on copies of them: they return the same
/// number and leave the same bytes, and the catalogue as it was. The number, or what differs.
pub fn compare(
    one: Side,
    others: &[Side],
    (call, catalogue): (&Call, &[u8]),
    buffers: &mut Buffers,
    lent: Lengths,
) -> Result<usize, String> {
    let before = buffers.clone();
    let expected = (one.make)(call, catalogue, &mut buffers.lend(lent));
    for side in others {
        let mut got = before.clone();
        let read = catalogue.to_vec();
        let returned = (side.make)(call, &read, &mut got.lend(lent));
        let what = if returned != expected {
            Some(format!("{returned} is returned, not {expected}"))
        } else if got != *buffers {
            difference(&got, buffers).or(Some("a buffer differs".to_string()))
        } else {
            first("catalogue", &read, catalogue)
        };
        if let Some(what) = what {
            return Err(format!("{}: {what}", side.name));
        }
    }
    Ok(expected)
}

/// Runs a case by the reference and by these sides, and counts its calls.
pub fn run(case: &Case, sides: &[Side], tally: &mut Tally) -> Result<(), Difference> {
    let mut buffers = case.buffers.clone();
    tally.begin(&case.groups);
    for (number, step) in case.steps.iter().enumerate() {
        match step {
            Step::Poke { at, mask } => buffers.store[*at] ^= mask,
            Step::Make {
                call,
                damage,
                lent,
                fill,
            } => {
                buffers.fill(*fill);
                let catalogue = damage.applied(&case.catalogue);
                let made = (call, &*catalogue);
                let returned = compare(REFERENCE, sides, made, &mut buffers, *lent);
                let returned = returned.map_err(|what| Difference { step: number, what })?;
                tally.count(call, returned, &buffers.answer);
            }
        }
    }
    Ok(())
}
