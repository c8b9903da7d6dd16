//! gate_edits: what it prints for the steps of its input, all on one store. The
//! input's form is said at the head of the program.

use crate::calls::{self, Changed};
use crate::catalogue::Refusal;
use crate::checksum::fnv1a;
use crate::exports;
use crate::programs::{Input, digits, refused, replied};

/// The buffers: what 512 concepts and 6 roles ask for, and some more.
pub(crate) const STORE_LENGTH: usize = 262_160;
pub(crate) const WORK_LENGTH: usize = 229_392;
pub(crate) const LIST_LENGTH: usize = 1_040;

/// How many bytes of the list are printed.
const SHOWN: usize = 32;

/// What a step does.
pub(crate) const FILL: usize = 0;
pub(crate) const MARK: usize = 1;
pub(crate) const UNMARK: usize = 2;
pub(crate) const CLASSIFY: usize = 3;
pub(crate) const EXPORTED_CHANGE: usize = 4;
pub(crate) const CHANGE: usize = 5;

/// The bytes of a step's numbers, in their order.
pub(crate) const SIZES: [usize; 11] = [2, 2, 2, 2, 2, 2, 2, 4, 4, 2, 2];

/// The numbers of a step: what it does, start and length of the withdrawn list
/// (the first is a fill's byte) and of the added list, the entries of the answer
/// that are lent, the bytes of the list, of the store (or where its part starts)
/// and of the work space (or how many bytes are filled), and start and length of
/// another part of the input.
pub(crate) type Step = [usize; SIZES.len()];

/// What the program prints.
pub fn text(input: &[u8]) -> String {
    let mut store = vec![165; STORE_LENGTH];
    let mut work = vec![0; WORK_LENGTH];
    let mut list = vec![0; LIST_LENGTH];
    let mut steps = Input(input);
    let mut lines = String::new();
    for _ in 0..steps.number(2) {
        let step: Step = SIZES.map(|size| steps.number(size));
        let [
            call,
            withdrawn,
            withdrawn_length,
            added,
            added_length,
            entries,
            list_lent,
            at,
            count,
            start,
            length,
        ] = step;
        let bytes = part(input, start, length);
        match call {
            FILL => store[at..at + count].fill(withdrawn as u8),
            MARK => (0..bytes.len()).for_each(|i| store[at + i] |= bytes[i]),
            UNMARK => (0..bytes.len()).for_each(|i| store[at + i] &= !bytes[i]),
            _ => {
                work.fill(90);
                list.fill(195);
                let store_lent = &mut store[..at.min(STORE_LENGTH)];
                let work_lent = &mut work[..count.min(WORK_LENGTH)];
                let list_lent = &mut list[..list_lent.min(LIST_LENGTH)];
                let withdrawn = part(input, withdrawn, withdrawn_length);
                let added = part(input, added, added_length);
                lines += &match call {
                    CLASSIFY => classified(bytes, store_lent, work_lent),
                    EXPORTED_CHANGE => replied(entries, |answer| {
                        exports::change(
                            bytes, withdrawn, added, store_lent, work_lent, list_lent, answer,
                        )
                    }),
                    _ => changed(calls::change(
                        bytes, withdrawn, added, store_lent, work_lent, list_lent,
                    )),
                };
                let sums = [&store, &work, &list].map(|buffer| fnv1a(buffer));
                lines += &format!(" front {}", digits(&list[..SHOWN]));
                lines += &format!(" store {} work {} list {}\n", sums[0], sums[1], sums[2]);
            }
        }
    }
    lines
}

/// A part of the input, cut where the input ends.
fn part(input: &[u8], start: usize, length: usize) -> &[u8] {
    let cut = |at: usize| at.min(input.len());
    &input[cut(start)..cut(start + length)]
}

fn classified(catalogue: &[u8], store: &mut [u8], work: &mut [u8]) -> String {
    match calls::classify(catalogue, store, work) {
        Ok(counts) => format!("pairs {} links {}", counts.pairs, counts.links),
        Err(refusal) => refused(refusal),
    }
}

fn changed(answer: Result<Changed, Refusal>) -> String {
    match answer {
        Ok(counts) => format!(
            "removed {} returned {} gained {} touched {}",
            counts.removed, counts.returned, counts.gained, counts.touched
        ),
        Err(refusal) => refused(refusal),
    }
}
