//! What the benchmark ran on.

use std::process::Command;

/// The first line that a program prints; nothing if it is not there.
fn first_line(program: &str, argument: &str) -> Option<String> {
    let output = Command::new(program).arg(argument).output().ok()?;
    let text = String::from_utf8_lossy(&output.stdout).into_owned();
    Some(text.lines().next()?.trim().to_string())
}

/// The value of the first line of a file that begins with a word and a colon.
fn field(file: &str, name: &str) -> Option<String> {
    let text = std::fs::read_to_string(file).ok()?;
    let value = |line: &str| {
        let (key, value) = line.split_once(':')?;
        (key.trim() == name).then(|| value.trim().to_string())
    };
    text.lines().find_map(value)
}

/// Processor, cores and compilers, one each line.
pub fn description() -> Vec<String> {
    let cores = std::thread::available_parallelism().map_or(1, usize::from);
    let processor = field("/proc/cpuinfo", "model name").unwrap_or("unknown".to_string());
    let programs = [
        ("rustc", "--version"),
        ("cc", "--version"),
        ("rt", "version"),
    ];
    let versions = programs.into_iter().filter_map(|(program, argument)| {
        Some(format!("{program}: {}", first_line(program, argument)?))
    });
    let processor = format!("processor: {processor}, {cores} cores");
    std::iter::once(processor).chain(versions).collect()
}
