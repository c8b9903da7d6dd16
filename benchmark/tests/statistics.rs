//! Medians, quartiles, fitted exponents, and rounds that fit a budget.

use benchmark::statistics::{Sample, exponent, median};
use benchmark::timing::{Budget, in_turn, nanoseconds};

#[test]
fn samples() {
    let sample = Sample::of(vec![5.0, 1.0, 4.0, 2.0, 3.0]);
    let expected = Sample {
        least: 1.0,
        lower_quartile: 2.0,
        median: 3.0,
        upper_quartile: 4.0,
        most: 5.0,
        runs: 5,
    };
    assert_eq!(sample, expected);
    assert_eq!(sample.spread(), 1.0 / 3.0);
    let one = Sample::of(vec![7.0]);
    assert_eq!(
        [one.least, one.median, one.upper_quartile, one.spread()],
        [7.0, 7.0, 7.0, 0.0]
    );
}

#[test]
fn medians() {
    assert_eq!(median([3.0, 1.0, 2.0].into_iter()), 2.0);
    assert_eq!(median([4.0, 1.0, 2.0, 3.0].into_iter()), 2.5);
    assert_eq!(median([10.0, 1.0].into_iter()), 5.5);
}

#[test]
fn growth() {
    for power in [0.0, 1.0, 1.5, 3.0] {
        let points = [64.0, 128.0, 256.0, 512.0].map(|n: f64| (n, 7.0 * n.powf(power)));
        assert!((exponent(&points) - power).abs() < 1e-9, "{power}");
    }
    let doubled_twice = [(1.0, 1.0), (2.0, 2.0), (4.0, 16.0)];
    assert!((exponent(&doubled_twice) - 2.0).abs() < 1e-9);
}

#[test]
fn rounds() {
    let budget = Budget {
        milliseconds: 100.0,
        least: 3,
        most: 10,
    };
    let rounds = [0.0, 1.0, 20.0, 1000.0].map(|one| budget.rounds(one));
    assert_eq!(rounds, [10, 10, 5, 3]);
    assert_eq!(
        [99.0, 101.0].map(|one| budget.is_exceeded(one)),
        [false, true]
    );
    let always = Budget::exactly(7);
    assert_eq!([0.0, 1e9].map(|one| always.rounds(one)), [7, 7]);
}

/// All calls in turn, in every round.
#[test]
fn turns() {
    let mut made = vec![];
    let times = in_turn(Budget::exactly(4), 3, |call| made.push(call));
    assert_eq!(made, [0, 1, 2].repeat(5));
    assert_eq!(times.iter().map(Vec::len).collect::<Vec<_>>(), [4, 4, 4]);
    let mut count = 0;
    let short = nanoseconds(100, 1, |_| count += 1);
    assert_eq!(short[0].len(), 100);
    assert!(count > 500 && short[0].iter().all(|&time| time > 0.0));
}

/// A first round that exceeds the budget counts, and is the only one.
#[test]
fn slow_rounds() {
    let budget = Budget {
        milliseconds: 0.0,
        least: 4,
        most: 4,
    };
    let mut made = vec![];
    let times = in_turn(budget, 2, |call| made.push(call));
    assert_eq!(made, [0, 1]);
    assert_eq!(times.iter().map(Vec::len).collect::<Vec<_>>(), [1, 1]);
}
