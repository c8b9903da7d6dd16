//! The text of gate_rows, which reads no input. A row is the set of its set
//! bits. What the program is run on stands here again.

use crate::fixed::spaced;
use std::collections::BTreeSet;

type Row = BTreeSet<usize>;

/// Rows of three bytes, and rows of several lengths.
pub fn text(_: &[u8]) -> String {
    let short = [0, 1, 7, 8, 9, 63, 64, 65].map(|bytes| lines(bytes) + &singles(bytes));
    let long = [1_048_575, 1_048_576].map(lines);
    small() + &short.concat() + &long.concat()
}

/// Sets of numbers below 24, as rows of three bytes.
fn small() -> String {
    let none = Row::new();
    let put = Row::from([0, 7, 8, 19]);
    let cleared = Row::from([0, 19]);
    let other = Row::from([4, 5, 6, 7, 16, 23]);
    let joined = &cleared | &other;
    let last = &joined | &Row::from([16 + 6]);
    let has = [0, 1, 7, 8, 18, 19, 24, 99].map(|i| usize::from(put.contains(&i)));
    let places = [0, 1, 7, 8, 9, 19, 20, 24, 1_000_000];
    let nexts = |row: &Row| places.map(|from| format!(" {}", next(row, from))).concat();
    [
        format!("empty:{} {}", row_text(&none), next(&none, 0)),
        format!("put 0 7 8 19:{}", row_text(&put)),
        format!("has 0 1 7 8 18 19 24 99:{}", spaced(has)),
        format!("next{}:{}", spaced(places), nexts(&put)),
        format!("clear 7 8:{}", row_text(&cleared)),
        format!("next{}:{}", spaced(places), nexts(&cleared)),
        format!("or 240 0 129:{}", row_text(&joined)),
        format!("row 2 of three, bit 6:{}", row_text(&last)),
    ]
    .map(|line| line + " \n")
    .concat()
}

/// The first number from a place on.
fn next(row: &Row, from: usize) -> String {
    let found = row.range(from..).next();
    found.map_or("none".to_string(), usize::to_string)
}

/// The bytes of a row, whether it has a bit, and how many.
fn row_text(row: &Row) -> String {
    let bits = |byte| row.iter().filter(move |&&i| i / 8 == byte);
    let bytes = (0..3).map(|byte| bits(byte).map(|i| 1 << (i % 8)).sum());
    let any = if row.is_empty() { "none" } else { "any" };
    format!("{} {any} {}", spaced(bytes), row.len())
}

/// The first and last bit of each word, and of the bytes that are left over.
fn edges(bytes: usize) -> Row {
    let words = (0..bytes / 8).flat_map(|k| [64 * k, 64 * k + 63]);
    let rest = bytes / 8 * 64..8 * bytes;
    words.chain(rest.clone().min()).chain(rest.max()).collect()
}

/// A line for each pattern of a row of so many bytes.
fn lines(bytes: usize) -> String {
    let bits = 8 * bytes;
    let words = bytes / 8 * 64;
    let line = |pattern: &str, shown: bool, row: Row| {
        let count = row.len();
        let walk = walk(&row, shown);
        let nexts = nexts(&row, [0, 64, words, bits]);
        format!("{bytes} bytes, {pattern}: count {count} walk{walk} next{nexts}\n")
    };
    [
        line("whole", false, (0..bits).collect()),
        line("edges", bytes < 100, edges(bytes)),
        line("fives", false, (0..bits).step_by(5).collect()),
        line("final", false, (0..bits).last().into_iter().collect()),
        line("words", false, (0..words).collect()),
        line("empty", false, Row::new()),
    ]
    .concat()
}

/// The numbers of a row, if they are to be shown, how many they are, and
/// their checksum.
fn walk(row: &Row, shown: bool) -> String {
    let numbers = spaced(row.iter().copied().filter(|_| shown));
    let sum = row.iter().fold(0, |sum, i| (31 * sum + i) % (1 << 32));
    format!("{numbers} finds {} sum {sum}", row.len())
}

/// The first numbers from places near these on, and from far past the end.
fn nexts(row: &Row, near: [usize; 4]) -> String {
    let near = near.into_iter().flat_map(|k| k.saturating_sub(2)..=k + 2);
    let places: BTreeSet<usize> = near.chain([1_000_000_000, usize::MAX]).collect();
    places.into_iter().map(|from| pair(row, from)).collect()
}

/// A place, and the first number from there on.
fn pair(row: &Row, from: usize) -> String {
    format!(" {from}:{}", next(row, from))
}

/// A line of the edges of a row of so many bytes, one at a time.
fn singles(bytes: usize) -> String {
    let single = |i: usize| {
        let row = Row::from([i]);
        let pairs = [0, i, i + 1].map(|from| pair(&row, from)).concat();
        format!(" | {}{pairs}", row.len())
    };
    let singles: String = edges(bytes).into_iter().map(single).collect();
    format!("{bytes} bytes, alone: edges{singles}\n")
}
