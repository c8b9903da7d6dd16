//! What the calls that read a store cost, the library's and plain Rust's with the
//! same questions.

use crate::plain::reading as plain;
use crate::statistics::Sample;
use crate::timing;
use girvotal::exported;
use reference::catalogue::{Catalogue, Concept};
use std::hint::black_box;

/// Who makes a call: the library, plain Rust with the same questions, or the
/// test of the pair's bit alone.
#[derive(Clone, Copy, PartialEq)]
pub enum Side {
    Library,
    Plain,
    Bit,
}

#[derive(Clone, Copy)]
pub enum Call {
    Lookup(usize, usize),
    List(usize),
    Row(usize),
    Write,
    Check,
}

/// A call on a store, and the question that it stops at, if any.
pub struct Case {
    pub name: &'static str,
    pub call: Call,
    pub store: Vec<u8>,
    pub stops_at: usize,
}

/// Who makes the call of a case.
pub struct Run<'a>(pub Side, pub &'a Case);

/// Makes a call; 0, or the number of the question that refused it.
#[inline(always)]
pub fn make(side: Side, call: Call, catalogue: &[u8], store: &[u8], buffer: &mut [u8]) -> usize {
    if side == Side::Library {
        let answer = &mut black_box([0; exported::ENTRIES]);
        let returned = match call {
            Call::Lookup(first, second) => {
                exported::lookup(catalogue, first, second, store, answer)
            }
            Call::List(second) => exported::list(catalogue, second, store, buffer, answer),
            Call::Row(concept) => exported::row(catalogue, concept, store, answer),
            Call::Write => exported::write(catalogue, store, buffer, answer),
            Call::Check => exported::check(catalogue, answer),
        };
        black_box(answer);
        return returned % 65_536;
    }
    let result = match (side, call) {
        (Side::Bit, Call::Lookup(c, d)) => Ok(usize::from(plain::bit(catalogue, c, d, store))),
        (_, Call::Lookup(c, d)) => plain::lookup(catalogue, c, d, store).map(usize::from),
        (_, Call::List(d)) => plain::listing(catalogue, d, store, buffer),
        (_, Call::Row(c)) => plain::row(catalogue, c, store).map(|(offset, _)| offset),
        (_, Call::Write) => plain::write(catalogue, store, buffer),
        (_, Call::Check) => plain::check(catalogue),
    };
    black_box(result).map_or_else(|refusal| refusal.number, |_| 0)
}

/// Space for a listing or for a written catalogue.
pub fn buffer(catalogue: &[u8]) -> Vec<u8> {
    vec![0; catalogue.len().max(1024)]
}

/// The first atomic record, and the first composite on a side of an axiom, if any,
/// else the atomic one.
pub fn kind_and_composite(catalogue: &Catalogue) -> [usize; 2] {
    let atomic = |&i: &usize| catalogue.concepts[i] == Concept::Atomic;
    let mut records = 0..catalogue.concepts.len();
    let kind = records.find(atomic).expect("an atomic record");
    let mut sides = catalogue
        .axioms
        .iter()
        .flat_map(|&(left, right)| [left, right]);
    let composite = sides.find(|&side| !catalogue.concepts[side].parts().is_empty());
    [kind, composite.unwrap_or(kind)]
}

/// What the accepted lookups are called.
pub const COMPOSITES: &str = "accepted, composites";
const KINDS: &str = "accepted, kinds";

/// The accepted calls on a catalogue's store: lookups of a composite and of a kind,
/// the others of a kind.
pub fn accepted(bytes: &[u8], store: &[u8]) -> [Case; 6] {
    let catalogue = Catalogue::read(bytes).expect("an accepted catalogue");
    let [kind, composite] = kind_and_composite(&catalogue);
    let calls = [
        (COMPOSITES, Call::Lookup(composite, composite)),
        (KINDS, Call::Lookup(kind, kind)),
        ("list", Call::List(kind)),
        ("row", Call::Row(kind)),
        ("write", Call::Write),
        ("check", Call::Check),
    ];
    calls.map(|(name, call)| Case {
        name,
        call,
        store: store.to_vec(),
        stops_at: 0,
    })
}

/// Nanoseconds of each call, in so many rounds.
pub fn nanoseconds(rounds: usize, runs: &[Run], catalogue: &[u8]) -> Vec<Sample> {
    let mut buffer = buffer(catalogue);
    let times = timing::nanoseconds(rounds, runs.len(), |i| {
        let Run(side, case) = runs[i];
        let (catalogue, store) = (black_box(catalogue), black_box(&case.store[..]));
        let call = black_box(case.call);
        black_box(make(side, call, catalogue, store, &mut buffer));
    });
    times.into_iter().map(Sample::of).collect()
}

/// Nanoseconds of a call, the library's and plain Rust's.
#[derive(Clone, Copy)]
pub struct Cost {
    pub library: Sample,
    pub plain: Sample,
}

/// Nanoseconds of the accepted calls.
pub struct Costs {
    pub composites: Cost,
    pub kinds: Cost,
    pub list: Cost,
    pub row: Cost,
    pub write: Cost,
    pub check: Cost,
}

/// Times the accepted calls on a catalogue's store.
pub fn time(bytes: &[u8], store: &[u8], rounds: usize) -> Costs {
    let cases = accepted(bytes, store);
    let both = |case| [Run(Side::Library, case), Run(Side::Plain, case)];
    let runs: Vec<Run> = cases.iter().flat_map(both).collect();
    let samples = nanoseconds(rounds, &runs, bytes);
    let cost = |i: usize| Cost {
        library: samples[2 * i],
        plain: samples[2 * i + 1],
    };
    let [composites, kinds, list, row, write, check] = std::array::from_fn(cost);
    Costs {
        composites,
        kinds,
        list,
        row,
        write,
        check,
    }
}
