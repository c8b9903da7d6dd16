//! What the calls that read a store cost, and each of their questions: a call
//! that is refused by a question has paid for it and for those before it.

use super::counting;
use benchmark::catalogues::{self, Named};
use benchmark::measures::classify;
use benchmark::measures::reading::{self, COMPOSITES, Call, Case, Run, Side, buffer, make};
use benchmark::scratch::Scratch;
use reference::catalogue::{Catalogue, MAX_AXIOMS};
use reference::store::Layout;
use std::hint::black_box;
use std::path::Path;

const FILES: [&str; 4] = ["w1", "bookings-0", "timing-medium", "timing-dense"];

/// Words that say the call, and that `from_words` reads.
fn words(call: Call) -> [String; 3] {
    let (name, first, second) = match call {
        Call::Lookup(first, second) => ("lookup", first, second),
        Call::List(second) => ("list", second, 0),
        Call::Row(concept) => ("row", concept, 0),
        Call::Write => ("write", 0, 0),
        Call::Check => ("check", 0, 0),
    };
    [name.to_string(), first.to_string(), second.to_string()]
}

fn from_words(name: &str, first: &str, second: &str) -> Call {
    let number = |word: &str| word.parse().expect("a number");
    match name {
        "lookup" => Call::Lookup(number(first), number(second)),
        "list" => Call::List(number(first)),
        "row" => Call::Row(number(first)),
        "write" => Call::Write,
        _ => Call::Check,
    }
}

/// The lookups that stop at each question where the catalogue has a store for
/// it, then the accepted calls.
fn cases(bytes: &[u8]) -> Vec<Case> {
    let catalogue = Catalogue::read(bytes).expect("an accepted catalogue");
    let (n, width) = (catalogue.concepts.len(), Layout::new(&catalogue).width());
    let store = classify::site(bytes).store().to_vec();
    let [_, c] = reading::kind_and_composite(&catalogue);
    let used = store.len();
    let lookup = |name, stops_at, change: &dyn Fn(&mut Vec<u8>)| {
        let mut store = store.clone();
        change(&mut store);
        let call = match stops_at {
            15 => Call::Lookup(c, n),
            19 => Call::Lookup(c, n - 1),
            _ => Call::Lookup(c, c),
        };
        Case {
            name,
            call,
            store,
            stops_at,
        }
    };
    let mut cases = vec![lookup("refused by 10", 10, &|store| {
        store.pop();
    })];
    if n % 8 != 0 {
        cases.push(lookup("refused by 13", 13, &|store| store[used - 1] |= 128));
    }
    if n * n > MAX_AXIOMS {
        cases.push(lookup("refused by 14", 14, &|store| {
            let rows = store[..n * width].chunks_exact_mut(width);
            rows.for_each(|row| row[..width - 1].fill(255));
        }));
    }
    cases.push(lookup("refused by 15", 15, &|_| {}));
    // The last concept is a composite and part of none: without its axioms it does
    // not occur.
    cases.push(lookup("refused by 19", 19, &|store| {
        let clear = |row: &mut [u8]| row[(n - 1) / 8] &= !(1 << ((n - 1) % 8));
        let (before, last) = store[..n * width].split_at_mut((n - 1) * width);
        before.chunks_exact_mut(width).for_each(clear);
        last.fill(0);
    }));
    cases.extend(reading::accepted(bytes, &store));
    cases
}

/// Nanoseconds of each call, the least of the averages.
fn nanoseconds(runs: &[Run], catalogue: &[u8]) -> Vec<f64> {
    let samples = reading::nanoseconds(super::ROUNDS, runs, catalogue);
    samples.iter().map(|sample| sample.least).collect()
}

/// Instructions of a call.
fn counted(&Run(side, case): &Run, catalogue: &[u8]) -> f64 {
    const CALLS: usize = 10;
    let [name, first, second] = words(case.call);
    let (word, function) = match (side, name.as_str()) {
        (Side::Library, name) => ("library", format!("girvotal_{name}")),
        (Side::Plain, "list") => ("plain", "benchmark::plain::reading::listing*".to_string()),
        (Side::Plain, name) => ("plain", format!("benchmark::plain::reading::{name}*")),
        (Side::Bit, _) => ("bit", "benchmark::plain::reading::bit*".to_string()),
    };
    let scratch = Scratch::new();
    let files = [("catalogue", catalogue), ("store", &case.store)];
    let [catalogue, store] = files.map(|(name, bytes)| scratch.file(name, bytes));
    let calls = CALLS.to_string();
    let words = [
        "read", word, &name, &first, &second, &catalogue, &store, &calls,
    ];
    counting::instructions(&function, &words) as f64 / CALLS as f64
}

/// Makes a call many times: SIDE CALL FIRST SECOND CATALOGUE STORE CALLS.
pub fn repeat(words: &[&str]) {
    let &[side, name, first, second, catalogue, store, calls] = words else {
        panic!("seven words: {words:?}");
    };
    let side = match side {
        "library" => Side::Library,
        "plain" => Side::Plain,
        _ => Side::Bit,
    };
    let call = from_words(name, first, second);
    let Named { bytes, .. } = catalogues::at(Path::new(catalogue));
    let Named { bytes: store, .. } = catalogues::at(Path::new(store));
    let mut buffer = buffer(&bytes);
    for _ in 0..calls.parse().expect("a number of calls") {
        black_box(make(side, call, &bytes, &store, &mut buffer));
    }
}

/// Prints what each case costs, and what it costs more than the lookup before it.
fn table(unit: &str, named: &Named, measure: impl Fn(&[Run], &[u8]) -> Vec<f64>) {
    let Named { name, bytes } = named;
    let catalogue = Catalogue::read(bytes).expect("an accepted catalogue");
    println!(
        "{name} ({} concepts, {} roles, {} axioms), {unit}:\n",
        catalogue.concepts.len(),
        catalogue.roles,
        catalogue.axioms.len()
    );
    println!("| call | library | more | plain Rust | more | ratio |");
    println!("|---|---|---|---|---|---|");
    let cases = cases(bytes);
    let lookup = |case: &&Case| case.name == COMPOSITES;
    let accepted = cases.iter().find(lookup).expect("an accepted lookup");
    let by_both = |case| [Run(Side::Library, case), Run(Side::Plain, case)];
    let mut runs: Vec<Run> = cases.iter().flat_map(by_both).collect();
    runs.push(Run(Side::Bit, accepted));
    for &Run(side, case) in runs.iter().filter(|run| run.0 != Side::Bit) {
        let got = make(side, case.call, bytes, &case.store, &mut buffer(bytes));
        assert_eq!(got, case.stops_at, "{name}: {}", case.name);
    }
    let costs = measure(&runs, bytes);
    let (both, bit) = costs.as_chunks();
    let mut before = [0.0; 2];
    for (case, &[library, plain]) in cases.iter().zip(both) {
        let ratio = library / plain;
        if case.stops_at > 0 || case.name == COMPOSITES {
            let [more, plain_more] = [library - before[0], plain - before[1]];
            println!(
                "| lookup, {} | {library:.0} | {more:.0} | {plain:.0} | {plain_more:.0} | {ratio:.2} |",
                case.name
            );
            before = [library, plain];
        } else {
            println!(
                "| {} | {library:.0} | | {plain:.0} | | {ratio:.2} |",
                case.name
            );
        }
    }
    println!("| the pair's bit alone | | | {:.0} | | |\n", bit[0]);
}

/// Times of a call.
pub fn times() {
    for name in FILES {
        let unit = "nanoseconds of a call, least of 100 averages";
        table(unit, &catalogues::file(name), nanoseconds);
    }
}

/// Instructions of a call.
pub fn instructions() {
    for name in FILES {
        let unit = "instructions of a call, by callgrind";
        let each =
            |runs: &[Run], bytes: &[u8]| runs.iter().map(|run| counted(run, bytes)).collect();
        table(unit, &catalogues::file(name), each);
    }
}
