//! Whole processes: how long they run, and the most memory they have.
//!
//! A process that is started counts what its starter had resident as its own, so a
//! small process starts it: this program again, by the words that [`measure`] takes.

use std::io::{Error, Result};
use std::process::{Command, Stdio};
use std::time::Instant;

/// What a process took.
#[derive(Clone, Copy, Debug, PartialEq)]
pub struct Ran {
    pub milliseconds: f64,
    /// Milliseconds of processor time, its own and in the system.
    pub processor: f64,
    /// The most bytes resident.
    pub peak: f64,
    pub status: i32,
}

mod raw {
    use std::ffi::c_int;

    /// `struct rusage` of Linux on 64 bits.
    #[repr(C)]
    #[derive(Default)]
    pub struct Usage {
        pub user: [i64; 2],
        pub system: [i64; 2],
        pub most_kilobytes: i64,
        pub others: [i64; 13],
    }

    unsafe extern "C" {
        pub fn wait4(
            process: c_int,
            status: *mut c_int,
            options: c_int,
            usage: *mut Usage,
        ) -> c_int;
    }
}

/// Waits for a process; its status and what it used.
fn wait(process: i32) -> Result<(i32, raw::Usage)> {
    let (mut status, mut usage) = (0, raw::Usage::default());
    // SAFETY: both pointers are to values of the types that the call fills.
    match unsafe { raw::wait4(process, &mut status, 0, &mut usage) } {
        -1 => Err(Error::last_os_error()),
        _ => Ok((status, usage)),
    }
}

/// Runs a program. Prints milliseconds, those of processor time, kilobytes and the
/// exit status, -1 if it was ended by a signal.
pub fn measure(program: &str, arguments: &[&str]) -> Result<()> {
    let mut command = Command::new(program);
    command.args(arguments);
    command
        .stdin(Stdio::null())
        .stdout(Stdio::null())
        .stderr(Stdio::null());
    let start = Instant::now();
    let process = command.spawn()?.id();
    let (status, usage) = wait(i32::try_from(process).expect("a process number"))?;
    let milliseconds = 1000.0 * start.elapsed().as_secs_f64();
    let exit = if status & 0x7f == 0 {
        status >> 8 & 0xff
    } else {
        -1
    };
    let processor = [usage.user, usage.system]
        .map(|[seconds, microseconds]| 1e3 * seconds as f64 + 1e-3 * microseconds as f64);
    let processor: f64 = processor.iter().sum();
    println!("{milliseconds} {processor} {} {exit}", usage.most_kilobytes);
    Ok(())
}

/// Runs a program in a small process of its own; nothing where it can't be started.
pub fn run(program: &str, arguments: &[&str]) -> Option<Ran> {
    let this = std::env::current_exe().expect("this program");
    let mut command = Command::new(this);
    command.args(["process", program]).args(arguments);
    let output = command.stderr(Stdio::null()).output().ok()?;
    let text = String::from_utf8(output.stdout).ok()?;
    let words: Vec<f64> = text
        .split_whitespace()
        .filter_map(|word| word.parse().ok())
        .collect();
    match words[..] {
        [milliseconds, processor, kilobytes, status] => Some(Ran {
            milliseconds,
            processor,
            peak: 1024.0 * kilobytes,
            status: status as i32,
        }),
        _ => None,
    }
}
