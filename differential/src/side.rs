//! Who makes the calls.

use crate::calls;
use crate::case::{Call, Lent};
use reference::exports::{answered, entries, size_entries};

/// An implementation of the exported functions.
#[derive(Clone, Copy)]
pub struct Side {
    pub name: &'static str,
    /// Makes a call on a catalogue; the number that is returned.
    pub make: fn(&Call, &[u8], &mut Lent<'_>) -> usize,
}

/// The functions of a module, by the call.
macro_rules! functions {
    ($module:path) => {
        |call, catalogue, lent| {
            use $module as functions;
            let answer = &mut *lent.answer;
            match call {
                Call::Check => functions::check(catalogue, answer),
                Call::Classify => functions::classify(catalogue, lent.store, lent.work, answer),
                Call::Change { withdrawn, added } => functions::change(
                    catalogue, withdrawn, added, lent.store, lent.work, lent.list, answer,
                ),
                Call::Lookup(first, second) => {
                    functions::lookup(catalogue, *first, *second, lent.store, answer)
                }
                Call::List(second) => {
                    functions::list(catalogue, *second, lent.store, lent.list, answer)
                }
                Call::Row(concept) => functions::row(catalogue, *concept, lent.store, answer),
                Call::Write => functions::write(catalogue, lent.store, lent.output, answer),
            }
        }
    };
}

/// The reference, which others are compared with.
pub const REFERENCE: Side = Side {
    name: "the reference",
    make: functions!(reference::exports),
};

/// The library's exported functions.
pub const EXPORTED: Side = Side {
    name: "the exported function",
    make: functions!(girvotal::exported),
};

/// The crate's typed calls, answered as the exported functions answer.
pub const TYPED: Side = Side {
    name: "the typed call",
    make: typed,
};

/// The library, both ways.
pub const LIBRARY: [Side; 2] = [EXPORTED, TYPED];

fn typed(call: &Call, catalogue: &[u8], lent: &mut Lent<'_>) -> usize {
    answered(lent.answer, || {
        Ok(match call {
            Call::Check => size_entries(calls::sizes(catalogue)?),
            Call::Classify => {
                let counts = calls::classify(catalogue, lent.store, lent.work)?;
                [counts.pairs, counts.links, 0, 0]
            }
            Call::Change { withdrawn, added } => entries(calls::change(
                catalogue, withdrawn, added, lent.store, lent.work, lent.list,
            )?),
            Call::Lookup(first, second) => {
                let yes = calls::lookup(catalogue, *first, *second, lent.store)?;
                [usize::from(yes), 0, 0, 0]
            }
            Call::List(second) => {
                let count = calls::listing(catalogue, *second, lent.store, lent.list)?;
                [count, 0, 0, 0]
            }
            Call::Row(concept) => {
                let row = calls::row(catalogue, *concept, lent.store)?;
                [row.offset, row.bytes.len(), 0, 0]
            }
            Call::Write => [calls::write(catalogue, lent.store, lent.output)?, 0, 0, 0],
        })
    })
}
