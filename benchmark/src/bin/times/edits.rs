//! Times of changes, beside classify in the same run.

use super::counting;
use benchmark::catalogues::{self, Named};
use benchmark::measures::edits::{self, AXIOMS, Axioms, Cost, KINDS, Kind};
use benchmark::statistics::median;
use reference::catalogue::{Catalogue, MAX_CONCEPTS};

const FILES: [&str; 3] = ["timing-sparse", "timing-medium", "timing-dense"];

/// What the catalogue is called in which all concepts and all roles are equal.
const ALL_EQUAL: &str = "all equal";

/// How many axioms of each kind, and how often each is timed; of that catalogue,
/// which takes long, fewer.
const COUNTS: (usize, usize) = (AXIOMS, 7);
const FEWER: (usize, usize) = (5, 3);

/// Of the axioms, every so many-th is counted by callgrind.
const STRIDE: usize = 5;

/// A line of the table: the middle classify and edit, the dearest edit, and the
/// greatest ratio of an edit to the classify before it.
fn print_row(name: &str, kind: &Kind, costs: &[Cost]) {
    let greatest = |cost: fn(&Cost) -> f64| costs.iter().map(cost).fold(0.0, f64::max);
    let classify = median(costs.iter().map(|cost| cost.classify));
    let edit = median(costs.iter().map(|cost| cost.edit));
    println!(
        "| {name} | {} | {classify:.2} | {edit:.2} | {:.3} | {:.2} | {:.3} |",
        kind.name,
        edit / classify,
        greatest(|cost| cost.edit),
        greatest(|cost| cost.edit / cost.classify)
    );
}

/// A catalogue by its name: one of `data`, or the one in which all concepts and
/// all roles are equal.
fn catalogue(name: &str) -> Catalogue {
    let Named { bytes, .. } = match name {
        ALL_EQUAL => catalogues::family(ALL_EQUAL)
            .expect("a family")
            .named(MAX_CONCEPTS),
        _ => catalogues::file(name),
    };
    Catalogue::read(&bytes).expect("an accepted catalogue")
}

/// The head of the table.
fn print_head(unit: &str) {
    println!("edits beside classify, {unit}, medians:\n");
    println!("| catalogue | edit | classify | edit | ratio | the dearest | greatest ratio |");
    println!("|---|---|---|---|---|---|---|");
}

/// Times edits of the catalogues with 512 concepts.
pub fn times() {
    print_head("milliseconds");
    let files = FILES.map(|name| (name, COUNTS));
    for (name, counts) in files.into_iter().chain([(ALL_EQUAL, FEWER)]) {
        let catalogue = catalogue(name);
        for kind in KINDS {
            let costs = edits::time_kind(name, &catalogue, kind, counts);
            print_row(name, kind, &costs);
        }
    }
}

/// Classifies a catalogue and edits the store once.
pub fn once(kind: &str, name: &str, which: &str) {
    let number = |word: &str| word.parse::<usize>().expect("a number");
    let (kind, catalogue) = (&KINDS[number(kind)], catalogue(name));
    let axioms = Axioms::chosen(&catalogue)[number(which)];
    let [before, _] = axioms.around(&catalogue, kind);
    edits::edit(&mut edits::classified(&before), kind, axioms);
}

/// Instructions of edits, and of classify before the first of them.
pub fn instructions() {
    print_head("millions of instructions by callgrind");
    for name in FILES {
        for (number, kind) in KINDS.iter().enumerate() {
            let count = |function: &str, which: usize| {
                let words = ["edit", &number.to_string(), name, &which.to_string()];
                1e-6 * counting::instructions(function, &words) as f64
            };
            let classify = count("girvotal_classify", 0);
            let counted = (0..AXIOMS).step_by(STRIDE).map(|i| Cost {
                classify,
                edit: count("girvotal_change", i),
            });
            print_row(name, kind, &counted.collect::<Vec<Cost>>());
        }
    }
}
