//! What the benchmark writes: numbers, tables, the document.

use benchmark::catalogues::FAMILIES;
use benchmark::measures::{classify, edits, reading};
use benchmark::page::calls::{growth, slow, worst};
use benchmark::page::tables::processes;
use benchmark::page::{BEGIN, END, Table, digits, grouped, replaced, wrapped};
use benchmark::results::{Costs, Measured, Slow};
use benchmark::statistics::Sample;
use benchmark::whole::{KONCLUDE, Took, Whole};
use girvotal::Counts;

#[test]
fn numbers() {
    let written = [0, 7, 999, 1000, 65_536, 2_097_152].map(grouped);
    assert_eq!(written, ["0", "7", "999", "1,000", "65,536", "2,097,152"]);
    let written = [0.01234, 0.1234, 1.234, 12.34, 123.4, 1234.0].map(digits);
    assert_eq!(written, ["0.0123", "0.123", "1.23", "12.3", "123", "1,234"]);
    assert_eq!(
        [0.99999, 9.9999, 99.99, 999.9].map(digits),
        ["1.00", "10.0", "100", "1,000"]
    );
}

#[test]
fn tables() {
    let mut table = Table::new(&["a", "b"]);
    table.row(&["1".to_string(), "2".to_string()]);
    assert_eq!(table.text(), "| a | b |\n|---|---|\n| 1 | 2 |\n");
}

#[test]
fn lines() {
    assert_eq!(wrapped("- a few words", "  "), "- a few words");
    let long = format!("- {}", ["four"; 50].join(" "));
    let text = wrapped(&long, "  ");
    let lines: Vec<&str> = text.lines().collect();
    assert_eq!(lines.len(), 3);
    assert!(lines.iter().all(|line| line.len() <= 100), "{text}");
    assert!(
        lines[1].starts_with("  four four") && lines[0].len() > 95,
        "{text}"
    );
    assert_eq!(text.split_whitespace().collect::<Vec<_>>().join(" "), long);
}

#[test]
fn documents() {
    let document = format!("before\n{BEGIN}\nold\n{END}\nafter\n");
    let expected = format!("before\n{BEGIN}\n\nnew\n\n{END}\nafter\n");
    assert_eq!(replaced(&document, "\nnew\n"), Some(expected.clone()));
    assert_eq!(replaced(&expected, "new"), Some(expected));
    assert_eq!(replaced("without the lines", "new"), None);
}

/// A family's costs at a size: n² of every call at n concepts, but for withdrawals.
fn square(concepts: usize, axioms: usize, withdrawals: &[f64]) -> Costs {
    let sample = Sample::of(vec![(concepts * concepts) as f64]);
    let reading = reading::Cost {
        library: sample,
        plain: sample,
    };
    Costs {
        concepts,
        lent: 0,
        classify: classify::Cost {
            counts: Counts { pairs: 0, links: 0 },
            library: sample,
            sweeping: None,
            indexed: Some(sample),
        },
        change: edits::OneAxiom {
            withdraw: Sample::of(withdrawals.to_vec()),
            add: sample,
            axioms,
        },
        reading: reading::Costs {
            composites: reading,
            kinds: reading,
            list: reading,
            row: reading,
            write: reading,
            check: reading,
        },
    }
}

/// A family whose calls take n² at n concepts, changed by so many axioms at each size.
fn squares(family: usize, axioms: [usize; 3]) -> Measured {
    let sizes = [64, 100, 128].into_iter().zip(axioms);
    let costs = sizes.map(|(n, axioms)| square(n, axioms, &[(n * n) as f64]));
    Measured {
        family: &FAMILIES[family],
        costs: costs.collect(),
        slow: None,
    }
}

#[test]
fn growth_by_doublings() {
    let mut unknown = squares(2, [100; 3]);
    let sizes = unknown.costs.iter_mut();
    sizes.for_each(|costs| costs.classify.indexed = None);
    unknown.costs.remove(0);
    let families = [
        squares(0, [20, 100, 30]),
        squares(1, [100, 19, 100]),
        unknown,
    ];
    let text = growth(&families);
    let rows: Vec<&str> = text.lines().skip(2).collect();
    let [first, second, third] = [0, 1, 2].map(|i| FAMILIES[i].name);
    assert_eq!(
        rows,
        [
            format!("| {first} | 4.0 |  |  | 2.0 | 2.0 | 2.0 | 2.0 | 2.0 |"),
            format!("| {second} | 4.0 |  |  | 2.0 | 2.0 |  | 2.0 | 2.0 |"),
            format!("| {third} |  |  |  | 2.0 |  | 2.0 | 2.0 | 2.0 |"),
        ]
    );
}

/// The largest of all; of changes the longest, and not the median.
#[test]
fn the_worst_of_each_call() {
    let mut other = squares(1, [1; 3]);
    other.costs[1] = square(100, 3, &[1.0, 1.0, 20_000.0]);
    other.costs[0].reading.write.library = Sample::of(vec![16_385.0]);
    let text = worst(&[squares(0, [1; 3]), other]);
    let rows: Vec<&str> = text.lines().skip(2).collect();
    let [first, second] = [0, 1].map(|i| FAMILIES[i].name);
    assert_eq!(rows.len(), 9);
    assert_eq!(
        [rows[0], rows[1], rows[7]],
        [
            format!("| classify | {second} | 128 | 16,384 ms |"),
            format!("| change, one axiom withdrawn | {second} | 100 | 20,000 ms |"),
            format!("| write | {second} | 64 | 16,385 ns |"),
        ]
    );
    let text = worst(&[squares(0, [1; 3])]);
    assert!(
        text.contains(&format!("| check | {first} | 128 | 16,384 ns |")),
        "{text}"
    );
}

#[test]
fn what_was_too_slow() {
    let fast = squares(0, [1; 3]);
    assert_eq!(slow(std::slice::from_ref(&fast)), "");
    let call = |call, concepts| Slow {
        call,
        concepts,
        milliseconds: 8123.0,
    };
    let [mut one, mut other] = [squares(1, [1; 3]), squares(2, [1; 3])];
    one.slow = Some(call("classify", 200));
    other.slow = Some(call("change", 504));
    let [first, second] = [1, 2].map(|i| FAMILIES[i].name);
    assert_eq!(
        slow(&[fast, one, other]),
        format!(
            "Worse still, and left out from there on: {first} at 200 concepts (classify: 8.12 \
             seconds), {second} at\n504 concepts (change: 8.12 seconds).\n\n"
        )
    );
}

/// A file on which these programs took a millisecond.
fn whole(file: &'static str, programs: &[&'static str], failed: bool) -> Whole {
    let took = programs.iter().map(|&program| Took {
        program,
        milliseconds: Sample::of(vec![1.0]),
        processor: Sample::of(vec![1.0]),
        peak: 3e6,
    });
    Whole {
        file,
        took: took.collect(),
        failed,
    }
}

#[test]
fn where_konclude_is_missing() {
    let both = |file| whole(file, &["girvotal", KONCLUDE], false);
    let text = processes(&[both("a"), both("b")]);
    assert_eq!(text.lines().count(), 2 + 4, "{text}");
    assert!(text.ends_with("| 1.0 | 3.0 |\n"), "{text}");
    let failed = |file| whole(file, &["girvotal"], true);
    let text = processes(&[both("a"), failed("b"), failed("c")]);
    let said = "Konclude has no row of b, c: three times in a row it crashed or did not end.";
    assert!(
        text.ends_with(&format!(
            "| c | girvotal | 1.00 | 1.00 | one run | 1.00 |  | 3.0 |\n\n{said}\n"
        )),
        "{text}"
    );
    let text = processes(&[whole("a", &["girvotal"], false)]);
    assert!(
        text.contains("it is not installed") && !text.contains("crashed"),
        "{text}"
    );
}
