//! What the system alone can say or do: signals held back, and whether standard output was closed.
//! The only unsafe code of the command.

use std::sync::atomic::{AtomicBool, AtomicUsize, Ordering};

unsafe extern "C" {
    fn signal(number: i32, action: usize) -> usize;
    fn raise(number: i32) -> i32;
    #[cfg(target_os = "linux")]
    fn fcntl(file: i32, command: i32, ...) -> i32;
}

/// Hang-up, interrupt and termination, which have these numbers on every Unix.
const SIGNALS: [i32; 3] = [1, 2, 15];

/// What `signal` gives for a signal that is passed over, and where it fails.
const IGNORED: usize = 1;
const FAILED: usize = usize::MAX;

/// The signals that came while they were held back, a bit each.
static CAME: AtomicUsize = AtomicUsize::new(0);

/// Notes that a signal came.
extern "C" fn note(number: i32) {
    CAME.fetch_or(1 << number, Ordering::SeqCst);
}

/// While it lives, hang-up, interrupt and termination wait; then they have their effect.
#[derive(Debug)]
pub struct Held {
    /// What each signal did before.
    before: [usize; 3],
}

impl Held {
    /// Holds the signals back. One that is passed over stays so.
    pub fn back() -> Held {
        let hold = |number| {
            // SAFETY: the handler does nothing but set a bit of an atomic number.
            let before = unsafe { signal(number, note as extern "C" fn(i32) as usize) };
            if before == IGNORED {
                // SAFETY: what was before is put back.
                unsafe { signal(number, IGNORED) };
            }
            before
        };
        Held {
            before: SIGNALS.map(hold),
        }
    }
}

impl Drop for Held {
    fn drop(&mut self) {
        for (number, before) in SIGNALS.into_iter().zip(self.before) {
            if before != FAILED {
                // SAFETY: what was before is put back.
                unsafe { signal(number, before) };
            }
        }
        let came = CAME.swap(0, Ordering::SeqCst);
        for number in SIGNALS.into_iter().filter(|number| came >> number & 1 == 1) {
            // SAFETY: it does what the signal does by itself.
            unsafe { raise(number) };
        }
    }
}

/// Whether standard output was closed when the program began.
static CLOSED: AtomicBool = AtomicBool::new(false);

/// Runs before Rust's own start, which opens a closed standard output to the null device.
#[cfg(target_os = "linux")]
#[used]
#[unsafe(link_section = ".init_array")]
static BEGIN: extern "C" fn() = {
    extern "C" fn begin() {
        const GET_FLAGS: i32 = 1;
        // SAFETY: it asks for the flags of a file that may be closed.
        let closed = unsafe { fcntl(1, GET_FLAGS) } == -1;
        CLOSED.store(closed, Ordering::SeqCst);
    }
    begin
};

/// Whether standard output was closed when the program began.
pub fn output_was_closed() -> bool {
    #[cfg(target_os = "linux")]
    std::hint::black_box(&BEGIN); // so that it is linked
    CLOSED.load(Ordering::SeqCst)
}
