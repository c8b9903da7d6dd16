//! Rows of 64 bytes counted, and walked by `next` from bit 0 until there is none,
//! by words and byte by byte.

use super::counting;
use benchmark::rows::{self, Way};
use benchmark::statistics::Sample;
use benchmark::timing;
use std::hint::black_box;

const BYTES: usize = 64;

type Row = [u8; BYTES];

/// What a row is called, and its bytes.
const ROWS: [(&str, Row); 4] = [
    ("empty", [0; BYTES]),
    ("one bit, 300", with_bit_300()),
    ("half: every other bit", [0x55; BYTES]),
    ("full", [0xff; BYTES]),
];

const fn with_bit_300() -> Row {
    let mut row = [0; BYTES];
    row[300 / 8] = 1 << (300 % 8);
    row
}

#[derive(Clone, Copy)]
enum Task {
    Count,
    Walk,
}

/// Tasks, each with its name and the function of each way that carries it out.
const TASKS: [(Task, &str, [&str; 2]); 2] = [
    (Task::Count, "count", ["words_count", "bytes_count"]),
    (Task::Walk, "walk", ["words_next", "bytes_next"]),
];

const WAYS: [Way; 2] = [Way::Words, Way::Bytes];

/// How many bits are found.
#[inline(always)]
fn run(task: Task, way: Way, row: &[u8]) -> usize {
    match task {
        Task::Count => rows::count(way, row).expect("a short row"),
        Task::Walk => {
            let mut found = 0;
            let mut from = 0;
            loop {
                from = rows::next(way, row, from).expect("a short row") + 1;
                if from > 8 * row.len() {
                    return found;
                }
                found += 1;
            }
        }
    }
}

/// Prints a line for each row and task: by words, byte by byte, the ratio.
fn table(unit: &str, measured: impl Fn() -> Vec<f64>) {
    println!("rows of {BYTES} bytes, {unit}:\n");
    println!("| row | task | words | bytes | bytes / words |");
    println!("|---|---|---|---|---|");
    let costs = measured();
    let (costs, _) = costs.as_chunks();
    for ((row, task), [words, bytes]) in cases().zip(costs) {
        let (name, row) = ROWS[row];
        let (task, task_name, _) = TASKS[task];
        let [found, other] = WAYS.map(|way| run(task, way, &row));
        assert_eq!(found, other, "{name}: {task_name}");
        let ratio = bytes / words;
        println!("| {name} | {task_name} | {words:.1} | {bytes:.1} | {ratio:.1} |");
    }
}

/// Rows and tasks, by number.
fn cases() -> impl Iterator<Item = (usize, usize)> {
    (0..ROWS.len()).flat_map(|row| (0..TASKS.len()).map(move |task| (row, task)))
}

/// Each case by both ways.
fn runs() -> Vec<(usize, usize, usize)> {
    let both = |(row, task)| [(row, task, 0), (row, task, 1)];
    cases().flat_map(both).collect()
}

/// Times of a task.
pub fn times() {
    table("nanoseconds, least of 100 averages", || {
        let runs = runs();
        let times = timing::nanoseconds(super::ROUNDS, runs.len(), |i| {
            let (row, task, way) = runs[i];
            let row = black_box(&ROWS[row].1);
            black_box(run(TASKS[task].0, WAYS[way], row));
        });
        times
            .into_iter()
            .map(|times| Sample::of(times).least)
            .collect()
    });
}

/// Instructions of a task.
pub fn instructions() {
    table("instructions, by callgrind", || {
        let counted = |(row, task, way): (usize, usize, usize)| {
            let words = [row, task, way].map(|number| number.to_string());
            let [row_word, task_word, way_word] = &words;
            let function = TASKS[task].2[way];
            counting::instructions(function, &["row", row_word, task_word, way_word]) as f64
        };
        runs().into_iter().map(counted).collect()
    });
}

/// Carries out a task once: the numbers of a row, a task and a way.
pub fn once(words: [&str; 3]) {
    let [row, task, way] = words.map(|word| word.parse::<usize>().expect("a number"));
    let row = black_box(&ROWS[row].1);
    black_box(run(TASKS[task].0, WAYS[way], row));
}
