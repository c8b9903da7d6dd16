//! Times of calls: processor time of this thread, since the machine may be busy
//! with something else, and all calls in turn.

use std::hint::black_box;

mod raw {
    use std::ffi::c_int;

    /// `struct timespec` of Linux on 64 bits.
    #[repr(C)]
    #[derive(Default)]
    pub struct Time {
        pub seconds: i64,
        pub nanoseconds: i64,
    }

    /// `CLOCK_THREAD_CPUTIME_ID`.
    pub const THREAD: c_int = 3;

    unsafe extern "C" {
        pub fn clock_gettime(clock: c_int, time: *mut Time) -> c_int;
    }
}

/// Milliseconds of processor time that this thread has had.
fn now() -> f64 {
    let mut time = raw::Time::default();
    // SAFETY: the pointer is to a value of the type that the call fills.
    let failed = unsafe { raw::clock_gettime(raw::THREAD, &mut time) };
    assert_eq!(failed, 0, "the thread's clock");
    1e3 * time.seconds as f64 + 1e-6 * time.nanoseconds as f64
}

/// Milliseconds of one call, and what it returns.
pub fn timed<T>(call: impl FnOnce() -> T) -> (f64, T) {
    let start = now();
    let returned = black_box(call());
    (now() - start, returned)
}

/// Milliseconds of one call.
pub fn milliseconds<T>(call: impl FnOnce() -> T) -> f64 {
    timed(call).0
}

/// How many rounds there are: as many as some milliseconds hold, in these limits.
#[derive(Clone, Copy)]
pub struct Budget {
    pub milliseconds: f64,
    pub least: usize,
    pub most: usize,
}

impl Budget {
    /// So many rounds, however long they take.
    pub const fn exactly(rounds: usize) -> Budget {
        Budget {
            milliseconds: f64::INFINITY,
            least: rounds,
            most: rounds,
        }
    }

    /// The rounds, where one takes that long.
    pub fn rounds(&self, one: f64) -> usize {
        let fitting = (self.milliseconds / one) as usize;
        fitting.clamp(self.least, self.most)
    }

    /// Whether one round that takes that long is more than all of it: then the first
    /// one counts.
    pub fn is_exceeded(&self, one: f64) -> bool {
        one > self.milliseconds
    }
}

/// Milliseconds of each of some calls, in rounds, all calls in turn. The first round
/// says how many there are, and does not count; if it exceeds the budget, it is the
/// only one.
pub fn in_turn(budget: Budget, calls: usize, mut make: impl FnMut(usize)) -> Vec<Vec<f64>> {
    let mut round = || -> Vec<f64> {
        let timed = (0..calls).map(|call| milliseconds(|| make(call)));
        timed.collect()
    };
    let first = round();
    let one = first.iter().sum();
    if budget.is_exceeded(one) {
        return first.into_iter().map(|time| vec![time]).collect();
    }
    let mut times = vec![vec![]; calls];
    for _ in 0..budget.rounds(one) {
        let all = times.iter_mut().zip(round());
        all.for_each(|(times, time)| times.push(time));
    }
    times
}

/// Nanoseconds of each of some short calls: averages of many calls in half a
/// millisecond, in so many rounds, all calls in turn.
pub fn nanoseconds(rounds: usize, calls: usize, mut make: impl FnMut(usize)) -> Vec<Vec<f64>> {
    const AVERAGED: Budget = Budget {
        milliseconds: 0.5,
        least: 5,
        most: 100_000,
    };
    const TRIED: usize = 5;
    let tried = |call: usize, make: &mut dyn FnMut(usize)| {
        milliseconds(|| (0..TRIED).for_each(|_| make(call))) / TRIED as f64
    };
    let averaged: Vec<usize> = (0..calls)
        .map(|call| AVERAGED.rounds(tried(call, &mut make)))
        .collect();
    let times = in_turn(Budget::exactly(rounds), calls, |call| {
        (0..averaged[call]).for_each(|_| make(call));
    });
    let each = |(times, count): (Vec<f64>, usize)| -> Vec<f64> {
        times
            .into_iter()
            .map(|time| 1e6 * time / count as f64)
            .collect()
    };
    times.into_iter().zip(averaged).map(each).collect()
}
