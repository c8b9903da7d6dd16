//! Expressions and axioms of a command line.

use crate::{axioms as numbers, compiled, records};
use girvotal::{Axiom, Catalogue, Concept, Question};
use girvotal_command::text::{
    Compiled, Expression, Extended, Failure, Fault, Reader, extended, print, written,
};

/// Two doubles of `has some tap` (5 and 7), of which the second is in an axiom; one conjunction
/// over each.
fn doubles() -> Compiled {
    compiled(
        "kind pitch, tap, \"Seeplatz Süd\", \"tap and pitch\"\nrole has\n\
         let wet = has some tap\npitch and wet < pitch\nlet damp = has some tap\n\
         let both = pitch and damp\ntap < damp\n\"Seeplatz Süd\" = both\n",
    )
}

fn read(compiled: &Compiled) -> Catalogue<'_> {
    Catalogue::new(&compiled.catalogue).expect("an accepted catalogue")
}

fn told(faults: Vec<Fault>) -> Vec<String> {
    faults.iter().map(ToString::to_string).collect()
}

fn parsed(source: &str, compiled: &Compiled) -> Expression {
    let parsed = Reader::of(&compiled.names, read(compiled)).expression(source);
    parsed.unwrap_or_else(|faults| panic!("{source}: {faults:?}"))
}

fn sides(source: &str, compiled: &Compiled) -> Vec<(Expression, Expression)> {
    let parsed = Reader::of(&compiled.names, read(compiled)).axioms(source);
    parsed.unwrap_or_else(|faults| panic!("{source}: {faults:?}"))
}

#[test]
fn expressions_and_their_records() {
    let doubles = doubles();
    assert_eq!(
        records(&doubles.catalogue)[4..],
        ["0 some 1", "0 and 4", "0 some 1", "0 and 6"]
    );
    for (source, text, expected) in [
        ("pitch", "pitch", vec![0]),
        (" ( pitch ) ", "pitch", vec![0]),
        ("\"Seeplatz Süd\"", "\"Seeplatz Süd\"", vec![2]),
        ("has some tap", "has some tap", vec![4, 6]),
        ("damp", "damp", vec![4, 6]),
        ("pitch and wet", "pitch and wet", vec![5, 7]),
        ("pitch and (damp)", "pitch and damp", vec![5, 7]),
        (
            "(pitch) and (has some (tap))",
            "pitch and has some tap",
            vec![5, 7],
        ),
        ("both", "both", vec![5, 7]),
        ("wet and pitch", "wet and pitch", vec![]),
        ("any", "any", vec![]),
        (
            "has some any and (pitch and tap)",
            "has some any and (pitch and tap)",
            vec![],
        ),
        (
            "has some (has some tap and any)",
            "has some (has some tap and any)",
            vec![],
        ),
        // The whole of a name does without quotes, where it would be faulty.
        ("Seeplatz Süd", "\"Seeplatz Süd\"", vec![2]),
        ("(tap and pitch)", "tap and pitch", vec![]),
        ("\"tap and pitch\"", "\"tap and pitch\"", vec![3]),
    ] {
        let expression = parsed(source, &doubles);
        let catalogue = read(&doubles);
        assert_eq!(written(&expression, &doubles.names, catalogue), text);
        let found = Reader::of(&doubles.names, catalogue).candidates(&expression);
        let found: Vec<u16> = found.into_iter().map(|concept| concept.0).collect();
        assert_eq!(found, expected, "{source}");
    }
    assert_eq!(parsed("damp", &doubles).named(), Some(Concept(6)));
    assert_eq!(parsed("has some tap", &doubles).named(), None);
}

#[test]
fn faulty_expressions() {
    let doubles = doubles();
    for (source, expected) in [
        (
            "",
            "1:1: error: expected a concept, found the end of the line",
        ),
        (
            "tapp",
            "1:1: error: `tapp` is not declared; did you mean `tap`?",
        ),
        (
            "has",
            "1:4: error: expected `some` after the role `has`, found the end of the line",
        ),
        (
            "tap < pitch",
            "1:5: error: expected `and` or the end of the line, found `<`",
        ),
        ("tap\npitch", "1:4: error: unexpected character U+000A"),
        ("kind", "1:1: error: expected a concept, found `kind`"),
        (
            "damp some tap",
            "1:1: error: `damp` is named by `let`, and a role is meant here",
        ),
        (
            "has some\ttapp",
            "1:10: error: `tapp` is not declared; did you mean `tap`?",
        ),
    ] {
        let faults = Reader::of(&doubles.names, read(&doubles))
            .expression(source)
            .unwrap_err();
        assert_eq!(told(faults), [expected], "{source}");
    }
}

#[test]
fn axioms_by_their_sides() {
    let doubles = doubles();
    for (source, expected) in [
        ("tap < has some tap", vec!["tap < has some tap"]),
        (
            "tap = pitch and wet",
            vec!["tap < pitch and wet", "pitch and wet < tap"],
        ),
    ] {
        let side = |side| written(side, &doubles.names, read(&doubles));
        let sides = sides(source, &doubles);
        let sides = sides
            .iter()
            .map(|(left, right)| format!("{} < {}", side(left), side(right)));
        assert_eq!(sides.collect::<Vec<_>>(), expected);
    }
    for (source, expected) in [
        (
            "",
            "1:1: error: expected a concept, found the end of the line",
        ),
        (
            "tap",
            "1:4: error: expected `and`, `<` or `=`, found the end of the line",
        ),
        (
            "kind x",
            "1:1: error: `kind` is no axiom: print the text by `girvotal text STATE`, change it, and \
             `girvotal update STATE TEXT`",
        ),
        (
            "role x",
            "1:1: error: `role` is no axiom: print the text by `girvotal text STATE`, change it, and \
             `girvotal update STATE TEXT`",
        ),
        (
            "let x = any",
            "1:1: error: `let` is no axiom: print the text by `girvotal text STATE`, change it, and \
             `girvotal update STATE TEXT`",
        ),
        (
            "has < has",
            "1:1: error: role axioms cannot be changed; classify the changed text",
        ),
        (
            "has then has < has",
            "1:1: error: role axioms cannot be changed; classify the changed text",
        ),
        (
            "tap < tapp",
            "1:7: error: `tapp` is not declared; did you mean `tap`?",
        ),
    ] {
        let faults = Reader::of(&doubles.names, read(&doubles))
            .axioms(source)
            .unwrap_err();
        assert_eq!(told(faults), [expected], "{source}");
    }
}

/// The axioms of an extended catalogue by number.
fn pairs(extended: &Extended) -> Vec<(u16, u16)> {
    let pair = |axiom: &Axiom| (axiom.left.0, axiom.right.0);
    extended.axioms.iter().map(pair).collect()
}

#[test]
fn records_that_are_there() {
    let doubles = doubles();
    for (source, expected) in [
        ("tap < pitch", vec![(1, 0)]),
        // The lowest record, or the one of an equal axiom in force.
        ("pitch < has some tap", vec![(0, 4)]),
        ("tap < has some tap", vec![(1, 6)]),
        ("tap < wet", vec![(1, 6)]),
        ("pitch and damp < pitch", vec![(5, 0)]),
        ("Seeplatz = both", vec![]),
        ("\"Seeplatz Süd\" = both", vec![(2, 7), (7, 2)]),
        (
            "\"Seeplatz Süd\" = pitch and has some tap",
            vec![(2, 7), (7, 2)],
        ),
        // A named composite is itself.
        ("pitch < damp", vec![(0, 6)]),
    ] {
        let Ok(sides) = Reader::of(&doubles.names, read(&doubles)).axioms(source) else {
            assert!(expected.is_empty(), "{source}");
            continue;
        };
        let extended = extended(read(&doubles), &doubles.names, &sides).expect("no limit is near");
        assert_eq!(pairs(&extended), expected, "{source}");
        assert_eq!(extended.catalogue, doubles.catalogue);
        assert_eq!(extended.names, doubles.names);
    }
}

/// Of equal axioms in force, the one that is said.
#[test]
fn equal_axioms() {
    let text = "kind tap\nlet wet = any\nlet damp = any\nlet dank = any\ntap < damp\ntap < dank\n";
    let equal = compiled(text);
    for (source, expected) in [
        ("tap < wet", (0, 2)),
        ("tap < any", (0, 2)),
        ("tap < damp", (0, 2)),
        ("tap < dank", (0, 3)),
    ] {
        let sides = sides(source, &equal);
        let extended = extended(read(&equal), &equal.names, &sides).expect("no limit is near");
        assert_eq!(pairs(&extended), [expected], "{source}");
    }
}

#[test]
fn records_that_are_added() {
    let doubles = doubles();
    let mut all = sides("tap = has some (pitch and has some tap)", &doubles);
    all.extend(sides("any < has some (pitch and damp) and any", &doubles));
    let extended = extended(read(&doubles), &doubles.names, &all).expect("no limit is near");
    assert_eq!(pairs(&extended), [(1, 8), (8, 1), (9, 10)]);
    let before = records(&doubles.catalogue);
    let after = records(&extended.catalogue);
    assert_eq!(after[..8], before);
    assert_eq!(after[8..], ["0 some 5", "any", "8 and 9"]);
    assert_eq!(numbers(&extended.catalogue), numbers(&doubles.catalogue));
    assert_eq!(extended.names.concepts[..8], doubles.names.concepts);
    assert_eq!(extended.names.concepts[8..], [None, None, None]);
    assert_eq!(extended.names.roles, doubles.names.roles);
    let catalogue = Catalogue::new(&extended.catalogue).expect("accepted");
    assert_eq!(catalogue.compositions().len(), 0);
    let short = print(catalogue, &extended.names, false);
    let exact = print(catalogue, &extended.names, true);
    assert_eq!(compiled(&exact).catalogue, extended.catalogue);
    assert!(!short.contains("any") && exact.contains("let c10 = c8 and c9"));
}

#[test]
fn extended_over_a_limit() {
    let kinds: Vec<String> = (0..511).map(|number| format!("k{number}")).collect();
    let full = compiled(&format!("kind {}\nrole r\n", kinds.join(", ")));
    let one = sides("k0 < r some k1", &full);
    assert!(extended(read(&full), &full.names, &one).is_ok());
    let two = sides("k0 < r some r some k1", &full);
    let Err(Failure::Refused { refusal, detail }) = extended(read(&full), &full.names, &two) else {
        panic!("513 records are accepted");
    };
    assert_eq!(refusal.question, Question::Counts);
    assert_eq!(detail, "513 concepts (511 kinds, 2 composites)");
}

/// Deep expressions, and those with many equal parts, are no trouble.
#[test]
fn deep_arguments() {
    let small = compiled("kind a\nrole r\na < r some a\n");
    for source in [
        "r some ".repeat(100_000) + "a",
        "a and ".repeat(100_000) + "a",
    ] {
        let expression = parsed(&source, &small);
        assert_eq!(
            Reader::of(&small.names, read(&small)).candidates(&expression),
            []
        );
        assert_eq!(written(&expression, &small.names, read(&small)), source);
    }
    let nested = "(".repeat(100_000);
    let faults = Reader::of(&small.names, read(&small))
        .expression(&nested)
        .unwrap_err();
    assert_eq!(
        told(faults),
        ["1:513: error: parentheses nest more than 512 deep"]
    );
}
