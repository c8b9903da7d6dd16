//! A family is measured at rising sizes, until a call is slow.

use benchmark::catalogues::{SIZES, family};
use benchmark::measures::classify::{ALL, Cost, Side};
use benchmark::results::{Budgets, Measured};
use benchmark::statistics::Sample;
use benchmark::timing::Budget;
use girvotal::Counts;
use std::cell::RefCell;

/// Measures the sparse family with one round of each call; and what was said.
fn measured(limit: f64) -> (Measured, Vec<String>) {
    let budgets = Budgets {
        classify: Budget::exactly(1),
        change: Budget::exactly(1),
        reading: 1,
        limit,
        ..Budgets::QUICK
    };
    let said = RefCell::new(vec![]);
    let sparse = family("sparse").expect("a family");
    let measured = Measured::measure(sparse, budgets, &|next| {
        said.borrow_mut().push(next.to_string());
    });
    (measured, said.into_inner())
}

#[test]
fn all_sizes() {
    let (measured, said) = measured(f64::INFINITY);
    let sizes: Vec<usize> = measured.costs.iter().map(|costs| costs.concepts).collect();
    assert_eq!(sizes, SIZES);
    assert_eq!(said, SIZES.map(|size| format!("sparse, {size}")));
    assert_eq!(measured.slow, None);
    for costs in &measured.costs {
        assert!(ALL.iter().all(|&side| costs.classify.of(side).is_some()));
    }
    assert_eq!(measured.at(504).map(|costs| costs.concepts), Some(504));
    assert!(measured.at(505).is_none());
}

#[test]
fn a_slow_call_ends_it() {
    let (measured, said) = measured(0.0);
    let slow = measured.slow.expect("every call takes some time");
    assert_eq!((slow.call, slow.concepts), ("classify", 64));
    assert!(slow.milliseconds > 0.0);
    assert_eq!(
        (measured.costs.len(), said),
        (0, vec!["sparse, 64".to_string()])
    );
}

/// A side of plain Rust stays while it was run and would take no longer than the
/// limit at the next size, by the fourth power of what that is larger.
#[test]
fn a_slow_side_is_left_out() {
    let (mut measured, _) = measured(f64::INFINITY);
    let sides = |measured: &Measured, limit| measured.sides(1024, limit);
    measured.costs[7].classify = Cost {
        counts: Counts { pairs: 0, links: 0 },
        library: Sample::of(vec![5.0]),
        sweeping: Some(Sample::of(vec![1.0, 1.0, 4.0])),
        indexed: Some(Sample::of(vec![1.0])),
    };
    assert_eq!(sides(&measured, 64.0), ALL);
    assert_eq!(sides(&measured, 63.0), [Side::Library, Side::Indexed]);
    measured.costs[7].classify.indexed = None;
    assert_eq!(sides(&measured, 63.0), [Side::Library]);
    measured.costs.clear();
    assert_eq!(sides(&measured, 0.0), ALL);
}

#[test]
fn the_better_of_plain_rust() {
    let slower = Cost {
        counts: Counts { pairs: 0, links: 0 },
        library: Sample::of(vec![1.0]),
        sweeping: Some(Sample::of(vec![3.0])),
        indexed: None,
    };
    assert_eq!(slower.plain(), slower.of(Side::Sweeping));
    let both = Cost {
        indexed: Some(Sample::of(vec![2.0])),
        ..slower
    };
    assert_eq!(both.plain(), both.of(Side::Indexed));
}
