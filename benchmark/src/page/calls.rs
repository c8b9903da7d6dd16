//! The calls on all catalogues: where they take longest, how they grow, their plot.

use super::plot::{self, Bars, Panel, Series};
use super::{Table, digits, wrapped};
use crate::catalogues::DOUBLINGS;
use crate::results::{Costs, Measured, Results};
use crate::statistics::{Sample, exponent};
use crate::whole::Took;

/// What a call costs on a catalogue, so that the worst is the largest.
type Longest = fn(&Costs) -> f64;

/// All calls: name, unit, cost.
const WORST: [(&str, &str, Longest); 9] = [
    ("classify", "ms", |costs| costs.classify.library.median),
    ("change, one axiom withdrawn", "ms", |costs| {
        costs.change.withdraw.most
    }),
    ("change, one axiom added", "ms", |costs| {
        costs.change.add.most
    }),
    ("lookup of kinds", "ns", |costs| {
        costs.reading.kinds.library.median
    }),
    ("lookup of composites", "ns", |costs| {
        costs.reading.composites.library.median
    }),
    ("listing", "ns", |costs| costs.reading.list.library.median),
    ("row", "ns", |costs| costs.reading.row.library.median),
    ("write", "ns", |costs| costs.reading.write.library.median),
    ("check", "ns", |costs| costs.reading.check.library.median),
];

/// Each call with the catalogue on which it takes longest.
pub fn worst(families: &[Measured]) -> String {
    let mut table = Table::new(&["call", "catalogue", "n", "longest"]);
    for (call, unit, cost) in WORST {
        let all = families.iter().flat_map(|measured| {
            let costs = measured.costs.iter();
            costs.map(|costs| (cost(costs), measured.family.name, costs.concepts))
        });
        let longest = all.max_by(|one, other| one.0.total_cmp(&other.0));
        let (longest, family, concepts) = longest.expect("a catalogue");
        table.row(&[
            call.to_string(),
            family.to_string(),
            concepts.to_string(),
            format!("{} {unit}", digits(longest)),
        ]);
    }
    table.text()
}

/// Where families were measured no further, and why.
pub fn slow(families: &[Measured]) -> String {
    let slow = families.iter().filter_map(|measured| {
        let slow = measured.slow?;
        let (name, seconds) = (measured.family.name, digits(slow.milliseconds / 1e3));
        Some(format!(
            "{name} at {} concepts ({}: {seconds} seconds)",
            slow.concepts, slow.call
        ))
    });
    let slow: Vec<String> = slow.collect();
    if slow.is_empty() {
        return String::new();
    }
    let said = format!(
        "Worse still, and left out from there on: {}.",
        slow.join(", ")
    );
    wrapped(&said, "") + "\n\n"
}

/// What a call costs on a catalogue, the library's and plain Rust's.
type Call = fn(&Costs) -> [Option<Sample>; 2];

/// The calls that are plotted: name, unit, cost.
const CALLS: [(&str, &str, Call); 4] = [
    ("classify", "milliseconds", |costs| {
        [Some(costs.classify.library), costs.classify.plain()]
    }),
    ("change, one axiom withdrawn", "milliseconds", |costs| {
        [Some(costs.change.withdraw), costs.classify.plain()]
    }),
    ("lookup of kinds", "nanoseconds", |costs| {
        let kinds = costs.reading.kinds;
        [kinds.library, kinds.plain].map(Some)
    }),
    ("listing", "nanoseconds", |costs| {
        let list = costs.reading.list;
        [list.library, list.plain].map(Some)
    }),
];

/// A family's costs of a call, where it was made: sizes and costs.
fn points(measured: &Measured, call: Call, side: usize) -> Vec<(f64, f64)> {
    let point = |costs: &Costs| Some((costs.concepts as f64, call(costs)[side]?.median));
    measured.costs.iter().filter_map(point).collect()
}

/// Whether a family's changes are by enough axioms, at every size, to say how they grow.
fn by_enough_axioms(measured: &Measured) -> bool {
    const FEWEST: usize = 20;
    let mut costs = measured.costs.iter();
    costs.all(|costs| costs.change.axioms >= FEWEST)
}

/// The factors of classify from each size to its double, where both were measured.
fn factors(measured: &Measured) -> Vec<Option<f64>> {
    let at = |size| Some(measured.at(size)?.classify.library.median);
    let factor = |pair: &[usize]| Some(at(pair[1])? / at(pair[0])?);
    DOUBLINGS.windows(2).map(factor).collect()
}

/// A number with one place, where there is one.
fn rounded(value: Option<f64>) -> String {
    value.map_or(String::new(), |value| format!("{value:.1}"))
}

pub fn growth(families: &[Measured]) -> String {
    let mut head = vec!["catalogue".to_string()];
    head.extend(DOUBLINGS[1..].iter().map(|size| format!("to {size}")));
    let exponents = ["classify", "plain", "withdrawn", "lookup", "listing"];
    head.extend(exponents.map(String::from));
    let mut table = Table::new(&head.iter().map(String::as_str).collect::<Vec<_>>());
    for measured in families {
        let [of_classify, of_change, of_lookup, of_list] = CALLS.map(|(_, _, call)| call);
        let fitted = [
            Some(points(measured, of_classify, 0)),
            Some(points(measured, of_classify, 1)),
            by_enough_axioms(measured).then(|| points(measured, of_change, 0)),
            Some(points(measured, of_lookup, 0)),
            Some(points(measured, of_list, 0)),
        ];
        let told = |points: Option<Vec<_>>| {
            let enough = points.filter(|points| points.len() > 1);
            rounded(enough.map(|points| exponent(&points)))
        };
        let mut cells = vec![measured.family.name.to_string()];
        cells.extend(factors(measured).into_iter().map(rounded));
        cells.extend(fitted.map(told));
        table.row(&cells);
    }
    table.text()
}

/// The plot, by the sizes that are powers of two.
pub fn plotted(results: &Results) -> String {
    let families = results.families.iter();
    let names: Vec<&str> = families.map(|measured| measured.family.name).collect();
    let series = |call: Call, side: usize| {
        let families = results.families.iter().enumerate();
        families.map(move |(name, measured)| Series {
            name,
            plain: side == 1,
            points: points(measured, call, side)
                .into_iter()
                .filter(|point| DOUBLINGS.contains(&(point.0 as usize)))
                .collect(),
        })
    };
    let panels = CALLS.map(|(title, unit, call)| Panel {
        title,
        unit,
        series: series(call, 1).chain(series(call, 0)).collect(),
    });
    let bar = |took: &Took| (took.program.to_string(), took.milliseconds.median);
    let bars: Vec<Bars> = results
        .whole
        .iter()
        .map(|whole| Bars {
            name: whole.file.to_string(),
            costs: whole.took.iter().map(bar).collect(),
        })
        .collect();
    plot::plot(&names, &panels, &bars)
}
