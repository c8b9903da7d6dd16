//! Whole processes are measured.

use std::process::Command;

/// What the benchmark prints of a process: milliseconds, those of processor time,
/// kilobytes, exit status.
fn measured(words: &[&str]) -> Vec<f64> {
    let mut command = Command::new(env!("CARGO_BIN_EXE_bench"));
    let output = command
        .arg("process")
        .args(words)
        .output()
        .expect("it runs");
    let text = String::from_utf8(output.stdout).expect("numbers");
    text.split_whitespace()
        .map(|word| word.parse().expect("a number"))
        .collect()
}

#[test]
fn time_memory_and_status() {
    let ran = measured(&["sh", "-c", "exit 7"]);
    assert!(
        ran[0] > 0.0 && ran[1] <= ran[0] + 20.0 && ran[2] > 100.0,
        "{ran:?}"
    );
    assert_eq!(ran[3], 7.0);
    let slept = measured(&["sleep", "0.2"]);
    assert!(
        slept[0] >= 200.0 && slept[1] < 100.0 && slept[3] == 0.0,
        "{slept:?}"
    );
    assert_eq!(measured(&["sh", "-c", "kill -KILL $$"])[3], -1.0);
    assert_eq!(measured(&["/nowhere/no-such-program"]), [0.0; 0]);
}

/// A process that takes memory is seen to.
#[test]
fn more_memory() {
    let little = measured(&["sh", "-c", "true"])[2];
    let much = measured(&["sh", "-c", "x=$(head -c 30000000 /dev/zero | tr '\\0' x)"])[2];
    assert!(much > little + 20_000.0, "{little}, {much} kilobytes");
}

#[test]
fn usage() {
    let output = Command::new(env!("CARGO_BIN_EXE_bench"))
        .arg("what")
        .output()
        .expect("it runs");
    assert_eq!(output.status.code(), Some(1));
    assert_eq!(
        String::from_utf8_lossy(&output.stderr),
        "bench: usage: bench [quick] [--print]\n"
    );
}
