//! The examples of the documents: each line that begins with `$` is run in a shell, in one folder
//! for a document, and must print what stands below it.

mod support;

use girvotal_command::manual::EXAMPLES;
use support::Folder;

/// A line that is run, and what it must print.
struct Example {
    line: String,
    output: String,
}

/// The examples of a document: indented lines after `$`, until another kind of line.
fn examples(document: &str) -> Vec<Example> {
    let mut examples: Vec<Example> = Vec::new();
    let mut inside = false;
    for line in document.lines() {
        let Some(line) = line.strip_prefix("    ") else {
            inside = false;
            continue;
        };
        if let Some(line) = line.strip_prefix("$ ") {
            let (line, output) = (line.to_string(), String::new());
            examples.push(Example { line, output });
            inside = true;
        } else if inside {
            let example = examples.last_mut().expect("a line that is run");
            example.output += &format!("{line}\n");
        }
    }
    examples
}

/// Runs all examples of a document of the repository.
fn run_document(path: &str, least: usize) {
    let root = std::path::Path::new(env!("CARGO_MANIFEST_DIR")).join("..");
    let document = std::fs::read_to_string(root.join(path)).expect("a document");
    run_all(path, &document, least);
}

/// Runs all examples that call the command; at least so many.
fn run_all(path: &str, document: &str, least: usize) {
    let folder = Folder::new();
    let text = String::from_utf8(folder.read("lake.gv")).expect("UTF-8");
    folder.write("wrong.gv", text.replace("has some tap", "has some tapp"));
    let mut examples = examples(document);
    examples.retain(|example| example.line.starts_with("girvotal"));
    assert!(
        examples.len() >= least,
        "{path}: {} examples",
        examples.len()
    );
    for Example { line, output } in examples {
        let (_, printed, errors) = folder.shell(&line);
        assert_eq!(format!("{printed}{errors}"), output, "{path}: {line}");
    }
}

#[test]
fn readme() {
    run_document("README.md", 5);
}

#[test]
fn command() {
    run_document("docs/COMMAND.md", 8);
}

#[test]
fn manual() {
    let indented: String = EXAMPLES
        .lines()
        .map(|line| format!("    {line}\n"))
        .collect();
    run_all("the manual page", &indented, 5);
}

#[test]
fn campsite() {
    run_document("docs/CAMPSITE.md", 5);
}
