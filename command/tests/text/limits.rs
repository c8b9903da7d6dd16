//! Texts at the limits of a catalogue, and over them.

use crate::compiled;
use girvotal::{Catalogue, Question};
use girvotal_command::text::{Compiled, Failure, compile, compile_split, print};
use std::fmt::Write;

/// Names of so many kinds or roles, by commas.
fn list(letter: char, count: usize) -> String {
    let names = (0..count).map(|number| format!("{letter}{number}"));
    names.collect::<Vec<_>>().join(", ")
}

/// The counts that a text is refused for; none where it compiles.
fn refused(text: &str) -> Option<String> {
    match compile(text.as_bytes()) {
        Ok(_) => None,
        Err(Failure::Refused { refusal, detail }) => {
            assert_eq!((refusal.question, refusal.record), (Question::Counts, 0));
            Some(detail)
        }
        Err(Failure::Faults(faults)) => panic!("{faults:?}"),
    }
}

fn refused_for(detail: &str, text: &str) {
    assert_eq!(refused(text).as_deref(), Some(detail));
}

#[test]
fn concepts() {
    refused_for("0 concepts", "");
    refused_for("0 concepts", "# nothing\nrole r\n");
    let kinds = |count| format!("kind {}\n", list('k', count));
    assert_eq!(refused(&kinds(512)), None);
    assert_eq!(refused(&(kinds(511) + "k0 < k1 and k2\n")), None);
    refused_for("513 concepts (513 kinds, 0 composites)", &kinds(513));
    refused_for(
        "513 concepts (512 kinds, 1 composite), 1 fewer with right sides split: `girvotal text FILE \
         --split`",
        &(kinds(512) + "k0 < k1 and k2\n"),
    );
    for count in [10_000, 10_920, 10_921, 65_535] {
        let detail = format!("{count} concepts ({count} kinds, 0 composites)");
        refused_for(&detail, &kinds(count));
    }
    for count in [65_536, 65_537, 70_000] {
        refused_for("more than 65535 concepts", &kinds(count));
    }
    let last = kinds(70_000) + "role r\nlet x = k69999 and k69998\nx < r some x\n";
    refused_for("more than 65535 concepts", &last);
}

#[test]
fn role_axioms() {
    let roles = |count| format!("kind k\nrole {}\n", list('r', count));
    assert_eq!(refused(&roles(16)), None);
    refused_for("17 roles", &roles(17));
    refused_for(
        "more than 65535 roles",
        &(roles(70_000) + "k < r69999 some k\n"),
    );
    let some = |count: usize, axiom: fn(usize, usize) -> String| {
        let axioms = (0..count).map(|i| axiom(i / 16, i % 16));
        roles(16) + &axioms.collect::<String>()
    };
    let inclusion = |r, s| format!("r{r} < r{s}\n");
    let composition = |r, s| format!("r{r} then r{s} < r0\n");
    assert_eq!(refused(&some(64, inclusion)), None);
    refused_for("65 inclusions", &some(65, inclusion));
    assert_eq!(refused(&some(64, composition)), None);
    refused_for("65 compositions", &some(65, composition));
    // Those that are repeated count once.
    let times = |line: &str, count| roles(2) + &line.repeat(count);
    assert_eq!(refused(&times("r0 < r1\n", 70_000)), None);
    assert_eq!(refused(&times("r0 then r1 < r1\n", 70_000)), None);
}

#[test]
fn axioms() {
    let axioms = |count: usize| {
        let mut text = format!("kind {}\n", list('k', 65));
        for number in 0..count {
            writeln!(text, "k{} < k{}", number / 65, number % 65).expect("a string");
        }
        text
    };
    assert_eq!(refused(&axioms(4_096)), None);
    assert_eq!(refused(&(axioms(4_096) + "k0 < k0\n")), None);
    refused_for("4097 axioms", &axioms(4_097));
    let all = axioms(4_097) + &format!("role {}\nkind {}\n", list('r', 17), list('l', 500));
    refused_for(
        "565 concepts (565 kinds, 0 composites), 17 roles, 4097 axioms",
        &all,
    );
}

/// Expressions of any depth: too many records, and no more trouble than that.
#[test]
fn depth() {
    let declared = "kind a\nrole r\n";
    let deep = |count| format!("{declared}a < {}a\n", "r some ".repeat(count));
    assert_eq!(refused(&deep(511)), None);
    refused_for("513 concepts (1 kind, 512 composites)", &deep(512));
    refused_for("more than 65535 concepts", &deep(100_000));
    let wide = |count| format!("{declared}a < a{}\n", " and a".repeat(count));
    assert_eq!(refused(&wide(511)), None);
    refused_for(
        "513 concepts (1 kind, 512 composites), 512 fewer with right sides split: `girvotal text \
         FILE --split`",
        &wide(512),
    );
    refused_for("more than 65535 concepts", &wide(100_000));
    let nested = |count| {
        let (open, close) = ("(".repeat(count), ")".repeat(count));
        compile(format!("{declared}a < {open}a{close}\n").as_bytes())
    };
    assert!(nested(512).is_ok());
    for count in [513, 100_000] {
        let Err(Failure::Faults(faults)) = nested(count) else {
            panic!("{count} parentheses are accepted");
        };
        let told: Vec<String> = faults.iter().map(ToString::to_string).collect();
        assert_eq!(told, ["3:517: error: parentheses nest more than 512 deep"]);
    }
}

/// A balanced expression of 2^17 leaves has 18 records.
#[test]
fn wide_and_equal() {
    let mut expression = "a".to_owned();
    for _ in 0..17 {
        expression = format!("({expression} and {expression})");
    }
    let compiled = compile(format!("kind a\na < {expression}\n").as_bytes()).expect("a right text");
    assert_eq!(crate::records(&compiled.catalogue).len(), 18);
    assert_eq!(crate::axioms(&compiled.catalogue), [(0, 17)]);
}

/// Over the limit it is told how many are kinds, and how many fewer there are with right sides
/// split; that text is within the limits then.
#[test]
fn over_by_right_sides() {
    let kinds = format!("kind {}\nrole r\n", list('k', 300));
    let axiom = |i: usize| format!("k{i} < k{} and r some k{}\n", i + 1, i + 2);
    let text = kinds + &(0..150).map(axiom).collect::<String>();
    let detail = "600 concepts (300 kinds, 300 composites), 150 fewer with right sides split: \
                  `girvotal text FILE --split`";
    refused_for(detail, &text);
    let Compiled { catalogue, names } = compile_split(text.as_bytes()).expect("within the limits");
    let catalogue = Catalogue::new(&catalogue).expect("accepted");
    assert_eq!((catalogue.concepts(), catalogue.axioms().len()), (450, 300));
    let again = compiled(&print(catalogue, &names, false));
    assert_eq!(again.catalogue.len(), catalogue.bytes().len());
}
