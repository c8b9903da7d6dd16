//! Seeds in a row, until so many calls are made.

use crate::cases::case;
use crate::report::{Report, reported};
use crate::side::Side;
use crate::tally::Tally;
use std::sync::atomic::{AtomicBool, AtomicUsize, Ordering};
use std::time::{Duration, Instant};

/// Says which seed it was where a side panics.
struct Named(u64);

impl Drop for Named {
    fn drop(&mut self) {
        if std::thread::panicking() {
            eprintln!("seed {}", self.0);
        }
    }
}

/// Runs the case of a seed.
pub fn run_seed(seed: u64, sides: &[Side], tally: &mut Tally) -> Result<(), Box<Report>> {
    let _named = Named(seed);
    reported(&case(seed), sides, tally)
}

/// How far a batch goes.
#[derive(Clone, Copy, Debug)]
pub enum Goal {
    /// So many seeds.
    Seeds(u64),
    /// As many seeds as make so many calls.
    Calls(usize),
}

/// What a batch has done so far.
struct Progress<'s> {
    sides: &'s [Side],
    from: u64,
    goal: Goal,
    begin: Instant,
    calls: AtomicUsize,
    stop: AtomicBool,
}

/// Runs seeds from one on, on some threads; the counts, or a difference that was met. Each thread
/// has every so-many-th seed.
pub fn run_batch(
    sides: &[Side],
    from: u64,
    goal: Goal,
    threads: usize,
) -> Result<Tally, Box<Report>> {
    let progress = &Progress {
        sides,
        from,
        goal,
        begin: Instant::now(),
        calls: AtomicUsize::new(0),
        stop: AtomicBool::new(false),
    };
    std::thread::scope(|scope| {
        let seeds = (0..threads).map(|thread| (from + thread as u64..).step_by(threads));
        let started: Vec<_> = seeds
            .map(|seeds| scope.spawn(move || progress.run(seeds)))
            .collect();
        let mut total = Tally::default();
        for thread in started {
            total.add(&thread.join().expect("a side that does not panic")?);
        }
        Ok(total)
    })
}

impl Progress<'_> {
    /// Whether a seed is past the goal, or a difference was met.
    fn over(&self, seed: u64) -> bool {
        let reached = match self.goal {
            Goal::Seeds(count) => seed >= self.from + count,
            Goal::Calls(count) => self.calls.load(Ordering::Relaxed) >= count,
        };
        reached || self.stop.load(Ordering::Relaxed)
    }

    /// Runs seeds up to the goal. The thread with the first one prints a line every now and then.
    fn run(&self, seeds: impl Iterator<Item = u64>) -> Result<Tally, Box<Report>> {
        let mut tally = Tally::default();
        let mut seeds = seeds.take_while(|&seed| !self.over(seed)).peekable();
        let tells = seeds.peek() == Some(&self.from);
        let mut told = Duration::ZERO;
        for seed in seeds {
            let (elapsed, made) = (self.begin.elapsed(), self.calls.load(Ordering::Relaxed));
            if tells && elapsed > told + Duration::from_secs(20) {
                told = elapsed;
                println!("{made} calls, seed {seed}, {} s", elapsed.as_secs());
            }
            let before = tally.calls();
            if let Err(report) = run_seed(seed, self.sides, &mut tally) {
                self.stop.store(true, Ordering::Relaxed);
                return Err(report);
            }
            let more = tally.calls() - before;
            self.calls.fetch_add(more, Ordering::Relaxed);
        }
        Ok(tally)
    }
}
