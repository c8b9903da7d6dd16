//! The manual page and bash's completion: made from the table of verbs, and of use.

use std::fs;
use std::io::ErrorKind;
use std::path::{Path, PathBuf};
use std::process::Command;

use girvotal_command::arguments::{COMMON, Flag, OPTIONS};
use girvotal_command::completion::completion;
use girvotal_command::manual::{GRAMMAR, manual};
use girvotal_command::verbs::{VERBS, Verb};

fn path(name: &str) -> PathBuf {
    Path::new(env!("CARGO_MANIFEST_DIR")).join(name)
}

fn read(name: &str) -> String {
    fs::read_to_string(path(name)).expect("a file")
}

/// A table unlike that of the command.
const OTHER: &[Verb] = &[Verb {
    name: "bend",
    usage: "THING STATE [-x | --y-z 'A \\ B'] -o FILE",
    operands: &["THING", "STATE"],
    optional: 0,
    flags: &[
        Flag {
            name: "-x",
            value: "",
            help: ".x is no request, nor is 'x'",
        },
        Flag {
            name: "--y-z",
            value: "THING",
            help: "^a~ `b",
        },
        Flag {
            name: "-o",
            value: "FILE",
            help: "ä",
        },
    ],
    summary: "",
    help: "..and on `--y-z`\n'it'\n\\fBends\\fP.",
    run: |_, _| unreachable!("it is in no table that is run"),
}];

/// The files are what the table gives.
#[test]
fn made_from_the_table() {
    let anew = "`cargo run --example manual` writes it anew";
    assert_eq!(read("girvotal.1"), manual(VERBS), "{anew}");
    assert_eq!(read("girvotal.bash"), completion(VERBS), "{anew}");
}

/// The page has each verb and option as it is typed, and the grammar of docs/COMMAND.md.
#[test]
fn page() {
    let page = read("girvotal.1");
    let plain = page
        .replace("\\fB", "")
        .replace("\\fI", "")
        .replace("\\fP", "")
        .replace("\\(aq", "'")
        .replace("\\-", "-");
    let words = |text: &str| {
        text.split_whitespace()
            .map(String::from)
            .collect::<Vec<_>>()
    };
    let prose = words(&plain).join(" ");
    for Verb {
        name, usage, flags, ..
    } in VERBS
    {
        assert!(plain.contains(&format!("\ngirvotal {name} {usage}\n")));
        assert!(plain.contains(&format!("\n.TP\n{name} {usage}\n")));
        for Flag { name, value, help } in *flags {
            let option = format!("{name} {value}");
            let help = help.replace('`', "");
            assert!(prose.contains(&format!(".TP {} {help} .", option.trim_end())));
        }
    }
    let grammar = words(GRAMMAR);
    let documented = words(&read("../docs/COMMAND.md"));
    assert!(
        documented
            .windows(grammar.len())
            .any(|some| some == grammar)
    );
}

/// Only these requests stand in a page, whatever the table says; the formatters that are here
/// complain of nothing.
#[test]
fn formatted() {
    let requests = [".\\\"", ".TH", ".SH", ".TP", ".RS", ".RE", ".nf", ".fi"];
    for page in [manual(VERBS), manual(OTHER)] {
        for line in page.lines().filter(|line| line.starts_with(['.', '\''])) {
            let request = line.split(' ').next().expect("a word");
            assert!(requests.contains(&request), "{line}");
        }
        let file = std::env::temp_dir().join(format!("girvotal-{}.1", std::process::id()));
        fs::write(&file, &page).expect("a file");
        for formatter in ["groff -man -Tutf8 -ww -z", "mandoc -Tlint"] {
            let mut words = formatter.split(' ');
            let mut command = Command::new(words.next().expect("a program"));
            match command.args(words).arg(&file).output() {
                Err(error) => {
                    assert_eq!(error.kind(), ErrorKind::NotFound, "{formatter}");
                    println!("manual: not formatted, there is no {formatter}");
                }
                Ok(run) => {
                    let said = [run.stdout, run.stderr].concat();
                    let said = String::from_utf8_lossy(&said);
                    assert_eq!(said, "", "{formatter}");
                }
            }
        }
        fs::remove_file(file).expect("the file");
    }
}

/// What bash completes after these words, the last as far as it is typed; `FILE` for its own
/// completion by files.
fn completed(script: &str, words: &[&str]) -> Vec<String> {
    const RUN: &str = r#"eval "$1"; shift
        compopt() { [ "$*" = '-o default' ] && echo FILE; }
        COMP_WORDS=("$@") COMP_CWORD=$(($# - 1))
        IFS=: _girvotal && [ ${#COMPREPLY[@]} = 0 ] || printf '%s\n' "${COMPREPLY[@]}""#;
    let run = Command::new("bash")
        .args([
            "--norc",
            "--noprofile",
            "-c",
            RUN,
            "bash",
            script,
            "girvotal",
        ])
        .args(words)
        .output()
        .expect("bash");
    let errors = String::from_utf8_lossy(&run.stderr);
    assert_eq!(errors, "", "{words:?}");
    let output = String::from_utf8(run.stdout).expect("UTF-8");
    output.lines().map(String::from).collect()
}

/// What is expected where an operand or a value of this name stands.
fn expected(name: &str) -> Vec<String> {
    match name {
        "TEXT" | "CATALOGUE" | "STATE" | "FILE" => vec!["FILE".to_owned()],
        _ => vec![],
    }
}

fn owned(words: &[&str]) -> Vec<String> {
    words.iter().map(|word| (*word).to_owned()).collect()
}

/// Every verb, option and operand of a table, in its place.
fn check_completion(verbs: &[Verb]) {
    let script = completion(verbs);
    let completed = |words: &[&str]| completed(&script, words);
    let names: Vec<&str> = verbs.iter().map(|verb| verb.name).collect();
    let globals = OPTIONS.map(|flag| flag.name);
    let first = [&names[..], &["help"], &globals].concat();
    assert_eq!(completed(&[""]), owned(&first));
    assert_eq!(completed(&["help", ""]), owned(&names));
    assert_eq!(completed(&["--json", ""]), completed(&[""]));
    assert_eq!(completed(&["--"]), owned(&globals));
    for verb in verbs {
        let Verb {
            name,
            operands,
            flags,
            ..
        } = verb;
        assert!(completed(&[&name[..2]]).contains(&(*name).to_owned()));
        let flags_and_common = flags.iter().chain(&COMMON);
        let options: Vec<&str> = flags_and_common.map(|flag| flag.name).collect();
        assert_eq!(completed(&[name, "-"]), owned(&options), "{name}");
        let given = vec!["given"; operands.len()];
        let after = |more: &[&str]| completed(&[&[*name], &given[..], more].concat());
        assert_eq!(after(&[""]), owned(&options), "{name}");
        assert_eq!(after(&["--", ""]), owned(&[]), "{name} --");
        assert_eq!(after(&["--", "-"]), owned(&[]), "{name} --");
        for (place, operand) in operands.iter().enumerate() {
            let words = [&[*name, "--json"], &given[..place], &["s"]].concat();
            assert_eq!(completed(&words), expected(operand), "{name} {operand}");
            let words = [&[*name, "--"], &given[..place], &["-"]].concat();
            assert_eq!(completed(&words), expected(operand), "{name} -- {operand}");
        }
        for flag in flags.iter().filter(|flag| !flag.value.is_empty()) {
            assert_eq!(after(&[flag.name, ""]), expected(flag.value), "{name}");
            assert_eq!(after(&[flag.name, "given", ""]), owned(&options), "{name}");
        }
    }
}

#[test]
fn completion_of_any_table() {
    check_completion(VERBS);
    check_completion(OTHER);
}

#[test]
fn completion_in_bash() {
    let script = read("girvotal.bash");
    for (words, expected) in [
        (&["cl"][..], &["classify"][..]),
        (&["c"], &["check", "compile", "classify", "change"]),
        (&["frobnicate", ""], &[]),
        (&["text", "--e"], &["--exact"]),
        (&["text", "--o"], &["--owl"]),
        (&["text", "la"], &["FILE"]),
        (&["classify", "lake.gv", "-o", "la"], &["FILE"]),
        (&["lookup", "lake.state", "ta"], &[]),
        (
            &["change", "lake.state", "--out", "tap < water", "--"],
            &[
                "--out",
                "--in",
                "--touched",
                "--dry-run",
                "--wait",
                "--json",
                "--help",
            ],
        ),
        (&["change", "lake.state", "--out", "--in", "--i"], &["--in"]),
    ] {
        assert_eq!(completed(&script, words), owned(expected), "{words:?}");
    }
}
