//! Instructions, counted by callgrind while this program runs one of its own
//! hidden commands.

use std::process::Command;

/// The instructions inside a function, in all its calls, while this program
/// runs with these words.
pub fn instructions(function: &str, words: &[&str]) -> u64 {
    let output = Command::new("valgrind")
        .arg("--tool=callgrind")
        .arg("--callgrind-out-file=/dev/null")
        .arg(format!("--toggle-collect={function}"))
        .arg(std::env::current_exe().expect("this program"))
        .args(words)
        .output()
        .unwrap_or_else(|error| panic!("valgrind: {error}"));
    let text = String::from_utf8_lossy(&output.stderr);
    text.lines()
        .find_map(|line| line.split_once("Collected : "))
        .and_then(|(_, count)| count.trim().parse().ok())
        .filter(|&count| count > 0)
        .unwrap_or_else(|| panic!("no count of instructions of {function}: {text}"))
}
