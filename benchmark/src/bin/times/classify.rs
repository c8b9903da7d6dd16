//! Times of classify.

use super::counting;
use benchmark::catalogues::{self, Named};
use benchmark::measures::classify::{self, SIDES};
use benchmark::scratch::Scratch;
use benchmark::timing::Budget;
use reference::catalogue::{Catalogue, MAX_CONCEPTS};
use std::path::Path;

const BUDGET: Budget = Budget {
    milliseconds: 5000.0,
    least: 6,
    most: 300,
};

/// Prints the least times of some runs, the library's and plain Rust's in turn.
fn time_one(named: &Named) {
    let Named { name, bytes } = named;
    let catalogue = Catalogue::read(bytes).expect("an accepted catalogue");
    let cost = classify::time(name, &mut classify::site(bytes), &classify::ALL, BUDGET);
    let least = |side| cost.of(side).expect("all are run").least;
    let [library, sweeping, indexed] = classify::ALL.map(least);
    println!(
        "| {name} | {} | {} | {} | {} | {library:.3} | {sweeping:.3} | {indexed:.3} | {:.2} | {} |",
        catalogue.concepts.len(),
        catalogue.roles,
        cost.counts.pairs,
        cost.counts.links,
        library / sweeping.min(indexed),
        cost.library.runs
    );
}

/// Times classify of these files, or of those in `data` and of a catalogue in
/// which all concepts and all roles are equal.
pub fn time(files: &[&str]) {
    println!("classify, milliseconds, the least of some runs; ratio to the better plain Rust:\n");
    println!(
        "| catalogue | concepts | roles | pairs | links | library | sweeping | indexed | ratio \
         | runs |"
    );
    println!("|---|---|---|---|---|---|---|---|---|---|");
    if files.is_empty() {
        let files = catalogues::FILES.iter();
        files.for_each(|name| time_one(&catalogues::file(name)));
        let all_equal = catalogues::family("all equal").expect("a family");
        time_one(&all_equal.named(MAX_CONCEPTS));
    } else {
        let paths = files.iter().map(Path::new);
        paths.for_each(|path| time_one(&catalogues::at(path)));
    }
}

/// Classifies a file once, by the library or by plain Rust.
pub fn once(side: &str, file: &str) {
    let Named { bytes, .. } = catalogues::at(Path::new(file));
    let (side, ..) = SIDES
        .iter()
        .find(|(_, name, _)| *name == side)
        .expect("a side");
    classify::once(*side, &bytes);
}

/// Instructions of classify of the files in `data`.
pub fn instructions() {
    println!("classify, millions of instructions, by callgrind; ratio to the better plain Rust:\n");
    println!("| catalogue | library | sweeping | indexed | ratio |");
    println!("|---|---|---|---|---|");
    for name in catalogues::FILES {
        let scratch = Scratch::new();
        let file = scratch.file("catalogue", &catalogues::file(name).bytes);
        let [library, sweeping, indexed] = SIDES.map(|(_, side, function)| {
            1e-6 * counting::instructions(function, &["once", side, &file]) as f64
        });
        let ratio = library / sweeping.min(indexed);
        println!("| {name} | {library:.3} | {sweeping:.3} | {indexed:.3} | {ratio:.2} |");
    }
}
