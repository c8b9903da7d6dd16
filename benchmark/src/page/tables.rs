//! The measured part of docs/BENCHMARKS.md.

use super::calls::{growth, slow, worst};
use super::{Table, digits, grouped, wrapped};
use crate::measures::{classify, reading};
use crate::results::{Costs, Measured, Results};
use crate::statistics::Sample;
use crate::whole::{KONCLUDE, Took, Whole};

/// Percent of the median that the quartiles lie apart, halved.
fn spread(sample: &Sample) -> String {
    match sample.runs {
        1 => "one run".to_string(),
        _ => format!("±{:.0}%", 100.0 * sample.spread()),
    }
}

/// A median, where there is one.
fn median(sample: Option<Sample>) -> String {
    sample.map_or(String::new(), |sample| digits(sample.median))
}

/// The ratio of two medians, where there are both.
fn ratio(sample: Sample, other: Option<Sample>) -> String {
    let ratio = |other: Sample| format!("{:.2}", sample.median / other.median);
    other.map_or(String::new(), ratio)
}

/// A row for each catalogue, after the names of family and size.
fn by_catalogue(
    head: &[&str],
    families: &[Measured],
    cells: impl Fn(&Costs) -> Vec<String>,
) -> String {
    let mut table = Table::new(&[&["catalogue", "n"], head].concat());
    for measured in families {
        for (i, costs) in measured.costs.iter().enumerate() {
            let name = if i == 0 { measured.family.name } else { "" };
            let first = [name.to_string(), costs.concepts.to_string()];
            table.row(&[&first[..], &cells(costs)].concat());
        }
    }
    table.text()
}

/// Columns of a table of classify, and what stands there.
const CLASSIFY: [&str; 8] = [
    "pairs", "links", "least", "median", "", "sweeping", "indexed", "ratio",
];

fn classify_cells(cost: &classify::Cost) -> Vec<String> {
    vec![
        grouped(cost.counts.pairs),
        grouped(cost.counts.links),
        digits(cost.library.least),
        digits(cost.library.median),
        spread(&cost.library),
        median(cost.sweeping),
        median(cost.indexed),
        ratio(cost.library, cost.plain()),
    ]
}

fn classify(families: &[Measured]) -> String {
    by_catalogue(&CLASSIFY, families, |costs| classify_cells(&costs.classify))
}

fn change(families: &[Measured]) -> String {
    let head = [
        "withdrawn",
        "added",
        "plain classify",
        "ratio",
        "ratio",
        "axioms",
    ];
    by_catalogue(&head, families, |costs| {
        let (change, plain) = (&costs.change, costs.classify.plain());
        vec![
            digits(change.withdraw.median),
            digits(change.add.median),
            median(plain),
            ratio(change.withdraw, plain),
            ratio(change.add, plain),
            change.axioms.to_string(),
        ]
    })
}

fn reading(families: &[Measured]) -> String {
    let plain = ["plain", "ratio"];
    let head = [
        ["kinds"].as_slice(),
        &plain,
        &["composites"],
        &plain,
        &["listing"],
        &plain,
    ];
    by_catalogue(&head.concat(), families, |costs| {
        let cells = |cost: &reading::Cost| {
            let [library, plain] = [cost.library.median, cost.plain.median].map(digits);
            [library, plain, ratio(cost.library, Some(cost.plain))]
        };
        let reading::Costs {
            composites,
            kinds,
            list,
            ..
        } = &costs.reading;
        [kinds, composites, list].map(cells).concat()
    })
}

/// The greatest spread of a lookup or listing.
fn reading_spread(families: &[Measured]) -> f64 {
    let all = families.iter().flat_map(|measured| &measured.costs);
    let spreads = all.flat_map(|costs| {
        let reading::Costs {
            composites,
            kinds,
            list,
            ..
        } = &costs.reading;
        [composites, kinds, list].map(|cost| cost.library.spread())
    });
    100.0 * spreads.fold(0.0, f64::max)
}

fn files(results: &Results) -> String {
    let mut table = Table::new(&[&["file"], &CLASSIFY[..]].concat());
    for (name, cost) in &results.files {
        table.row(&[vec![name.to_string()], classify_cells(cost)].concat());
    }
    table.text()
}

fn megabytes(bytes: f64) -> String {
    format!("{:.1}", bytes / 1e6)
}

/// Konclude's row.
fn konclude(whole: &Whole) -> Option<&Took> {
    whole.took.iter().find(|took| took.program == KONCLUDE)
}

/// What is said where Konclude is missing from the table.
fn missing(whole: &[Whole]) -> String {
    let failed = whole.iter().filter(|whole| whole.failed);
    let failed: Vec<&str> = failed.map(|whole| whole.file).collect();
    let mut said = String::new();
    if !failed.is_empty() {
        let text = format!(
            "Konclude has no row of {}: three times in a row it crashed or did not end.",
            failed.join(", ")
        );
        said += &format!("\n{}\n", wrapped(&text, ""));
    }
    let measured = |whole: &Whole| whole.failed || konclude(whole).is_some();
    if !whole.iter().all(measured) {
        said += "\nKonclude was not measured: it is not installed, or the command has no \
                 `text --owl`.\n";
    }
    said
}

pub fn processes(whole: &[Whole]) -> String {
    let head = [
        "file",
        "program",
        "least",
        "median",
        "",
        "processor",
        "Konclude's / this",
        "peak MB",
    ];
    let mut table = Table::new(&head);
    for of_file in whole {
        let konclude = konclude(of_file);
        for (i, took) in of_file.took.iter().enumerate() {
            let times = |other: &Took| other.milliseconds.median / took.milliseconds.median;
            let ahead = konclude.map_or("".to_string(), |other| format!("{:.1}", times(other)));
            table.row(&[
                if i == 0 {
                    of_file.file.to_string()
                } else {
                    String::new()
                },
                took.program.to_string(),
                digits(took.milliseconds.least),
                digits(took.milliseconds.median),
                spread(&took.milliseconds),
                digits(took.processor.median),
                ahead,
                megabytes(took.peak),
            ]);
        }
    }
    table.text() + &missing(whole)
}

fn memory(results: &Results) -> String {
    let mut table = Table::new(&[
        "catalogue, 512 concepts",
        "lent",
        "file read",
        "library",
        "sweeping",
        "indexed",
    ]);
    for peaks in &results.peaks {
        let mut cells = vec![peaks.family.to_string(), megabytes(peaks.lent as f64)];
        cells.push(megabytes(peaks.reading));
        cells.extend(
            peaks
                .by_side
                .map(|peak| peak.map_or(String::new(), megabytes)),
        );
        table.row(&cells);
    }
    table.text()
}

fn stack(results: &Results) -> String {
    let calls = results.stacks.iter();
    let said = calls.map(|(call, bytes)| format!("{call} {}", grouped(*bytes)));
    let said = said.collect::<Vec<_>>().join(", ");
    wrapped(
        &format!("Bytes of stack, the most of each call: {said}."),
        "",
    )
}

/// Lines of a list.
fn listed(lines: impl Iterator<Item = String>) -> String {
    lines
        .map(|line| wrapped(&format!("- {line}"), "  ") + "\n")
        .collect()
}

/// The measured part.
pub fn measured(results: &Results) -> String {
    let families = &results.families;
    let about =
        |measured: &Measured| format!("{}: {}", measured.family.name, measured.family.about);
    format!(
        "## Machine\n\n{}\n## Catalogues\n\nOf n concepts:\n\n{}\n\
         ## Worst of each call\n\nThe largest median of all these catalogues; of changes, which \
         are each by another axiom, the\nlongest:\n\n{}\n{}\
         ## Classify\n\nMilliseconds of processor time:\n\n{}\n\
         The files in `data/`:\n\n{}\n\
         ## Growth\n\nThe factor of classify from each of 64, 128, 256 and 512 concepts to the \
         next, and the exponent k\nof the power law n^k that fits best, by all sizes; of changes \
         where they are by 20 axioms or more at\nevery size:\n\n{}\n\
         ## Change\n\nMilliseconds of processor time of a change by one axiom:\n\n{}\n\
         ## Lookup and listing\n\nNanoseconds of processor time:\n\n{}\n\
         The quartiles lie at most {:.0}% of the median from their middle.\n\n\
         ## Whole processes\n\nMilliseconds from start to end:\n\n{}\n\
         ## Memory\n\nMegabytes: what classify and change are lent, and the most that a process \
         had resident\nthat read the file, and that classified it once:\n\n{}\n\
         {}\n",
        listed(results.machine.iter().cloned()),
        listed(families.iter().map(about)),
        worst(families),
        slow(families),
        classify(families),
        files(results),
        growth(families),
        change(families),
        reading(families),
        reading_spread(families),
        processes(&results.whole),
        memory(results),
        stack(results),
    )
}
