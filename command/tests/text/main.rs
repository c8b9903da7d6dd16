//! The text language: texts to catalogues and back, and every error.

mod arguments;
mod faults;
mod fuzzing;
mod limits;
mod mutations;
mod printing;
mod sources;
#[path = "../support/mod.rs"]
mod support;

use girvotal::{Catalogue, Record};
use girvotal_command::text::{Compiled, Failure, compile, repeated};

/// A text that compiles.
fn compiled(text: &str) -> Compiled {
    match compile(text.as_bytes()) {
        Ok(compiled) => compiled,
        Err(failure) => panic!("{failure:?} in\n{text}"),
    }
}

/// A text's faults as they are told: line, column and message.
fn faults(text: &[u8]) -> Vec<String> {
    match compile(text) {
        Err(Failure::Faults(faults)) => faults.iter().map(ToString::to_string).collect(),
        other => panic!("{other:?} for {}", String::from_utf8_lossy(text)),
    }
}

/// The records of a catalogue, written by numbers.
fn records(bytes: &[u8]) -> Vec<String> {
    let catalogue = Catalogue::new(bytes).expect("an accepted catalogue");
    let written = |record| match record {
        Record::Atomic => "kind".to_owned(),
        Record::Top => "any".to_owned(),
        Record::Conjunction(left, right) => format!("{} and {}", left.0, right.0),
        Record::Existential(role, part) => format!("{} some {}", role.0, part.0),
    };
    catalogue.records().map(written).collect()
}

/// The axioms of a catalogue, by numbers.
fn axioms(bytes: &[u8]) -> Vec<(u16, u16)> {
    let catalogue = Catalogue::new(bytes).expect("an accepted catalogue");
    let axioms = catalogue.axioms();
    axioms.map(|axiom| (axiom.left.0, axiom.right.0)).collect()
}

/// The lake's text, with its names and numbers.
#[test]
fn the_lake() {
    let text = sources::file("lake.gv");
    let Compiled { catalogue, names } = compile(&text).expect("a right text");
    let concepts = [
        "pitch",
        "corner-pitch",
        "Seeplatz Süd",
        "powered-pitch",
        "comfort-pitch",
        "pillar",
        "tap",
        "electricity",
        "water",
    ];
    let named = concepts.map(|name| Some(name.to_owned()));
    assert_eq!(names.concepts[..9], named);
    assert_eq!(names.concepts[9..], vec![None; 10]);
    assert_eq!(names.roles, ["has", "supplies", "offers"]);
    let composites = [
        "2 some 7", "0 and 9", "2 some 8", "3 and 11", "0 some 5", "0 and 13", "0 some 6",
        "1 and 15", "1 some 7", "1 some 8",
    ];
    assert_eq!(records(&catalogue)[9..], composites);
    assert_eq!(
        axioms(&catalogue),
        [
            (1, 14),
            (2, 16),
            (3, 10),
            (4, 12),
            (5, 17),
            (6, 18),
            (10, 3),
            (12, 4)
        ]
    );
    let catalogue = Catalogue::new(&catalogue).expect("accepted");
    let composition = catalogue.compositions().next().expect("one composition");
    assert_eq!(
        [composition.first, composition.second, composition.result].map(|role| role.0),
        [0, 1, 2]
    );
}

/// Example W1 of the papers has the bytes of data/w1.bin.
#[test]
fn w1() {
    let text = sources::file("w1.gv");
    let compiled = compile(&text).expect("a right text");
    assert_eq!(compiled.catalogue, sources::file("w1.bin"));
}

/// Records are numbered as first met, parts first; what is equal is one record, but for `let`.
#[test]
fn numbering() {
    let declared = "kind a, b\nrole r, s\n";
    for (lines, composites, sides) in [
        // Parts first, from left to right.
        (
            "a < r some (a and s some b) and b",
            vec!["1 some 1", "0 and 2", "0 some 3", "4 and 1"],
            vec![(0, 5)],
        ),
        // `and` groups to the left, and `some` binds tighter.
        (
            "a and b and a < b",
            vec!["0 and 1", "2 and 0"],
            vec![(3, 1)],
        ),
        (
            "a and (b and a) < b",
            vec!["1 and 0", "0 and 2"],
            vec![(3, 1)],
        ),
        (
            "r some a and b < b",
            vec!["0 some 0", "2 and 1"],
            vec![(3, 1)],
        ),
        (
            "r some s some a < b",
            vec!["1 some 0", "0 some 2"],
            vec![(3, 1)],
        ),
        // Equal composites are one record, and axioms count once.
        (
            "a = r some b\na < r some b\n((r some b)) < a\nany < a\nb < any",
            vec!["0 some 1", "any"],
            vec![(0, 2), (1, 3), (2, 0), (3, 0)],
        ),
        // `let` makes a new record; what is written out later is the lowest.
        (
            "let x = r some b\na < r some b\nlet y = r some b\nb < r some b\nb < y",
            vec!["0 some 1", "0 some 1"],
            vec![(0, 2), (1, 2), (1, 3)],
        ),
        (
            "let x = a and b\nlet y = x\nlet z = (y)\nlet t = any\nlet u = any\nz < u",
            vec!["0 and 1", "0 and 1", "0 and 1", "any", "any"],
            vec![(4, 6)],
        ),
        // Composites are equal if they are with every `let` written out.
        (
            "let x = r some b\nlet y = r some b\na < a and y\nb < a and x\nlet z = a and x",
            vec!["0 some 1", "0 some 1", "0 and 3", "0 and 2"],
            vec![(0, 4), (1, 4)],
        ),
        (
            "let x = any\nlet y = any\na < s some y\nb < s some any",
            vec!["any", "any", "1 some 3"],
            vec![(0, 4), (1, 4)],
        ),
        // Kinds are numbered at their declaration.
        (
            "a < r some b\nkind c\nc < c",
            vec!["0 some 1", "kind"],
            vec![(0, 2), (3, 3)],
        ),
    ] {
        let compiled = compiled(&format!("{declared}{lines}\n"));
        assert_eq!(records(&compiled.catalogue)[2..], composites, "{lines}");
        assert_eq!(axioms(&compiled.catalogue), sides, "{lines}");
    }
}

/// Inclusions and compositions keep their order and their repeats.
#[test]
fn role_axioms() {
    let text = "role r, s\ns < r\nr then r < s\nr < r\ns < r\ns then r < r\nr then r < s\nkind a";
    let compiled = compiled(text);
    let catalogue = Catalogue::new(&compiled.catalogue).expect("accepted");
    let inclusions = catalogue.inclusions().map(|i| (i.within.0, i.around.0));
    assert_eq!(inclusions.collect::<Vec<_>>(), [(1, 0), (0, 0)]);
    let compositions = catalogue.compositions();
    let compositions = compositions.map(|c| (c.first.0, c.second.0, c.result.0));
    assert_eq!(compositions.collect::<Vec<_>>(), [(0, 0, 1), (1, 0, 0)]);
    let lines = [(5, 2), (7, 3)];
    assert_eq!(repeated(text.as_bytes()), Ok(lines.to_vec()));
}

/// Lines, blanks, comments and names in every way that they can be written.
#[test]
fn lexical() {
    let plain = compiled("kind a, b\nrole r\na < r some b\n");
    for same in [
        "kind a, b\nrole r\na < r some b",
        "kind a, b\r\nrole r\r\na < r some b\r\n",
        "\u{feff}kind a, b\nrole r\na < r some b\n",
        "\tkind\ta\t,b\t\n\n   \nrole r # a role\n#\n# \"\n\ta<r some b# (\n\n",
        "kind \"a\",\"b\"#\u{1}\u{feff}\nrole \"r\"\n\"a\"<r some\"b\"\n",
        "kind a\nkind b\nrole r\n(a)<(((r some((b)))))\n",
    ] {
        assert_eq!(compiled(same), plain, "{same:?}");
    }
    let names = ["é", "Süd", "湖", "a1", "a-b_c-", "x²", "kinds", "Kind"];
    let text = format!("kind {}\n", names.join(", "));
    let spelled = names.map(|name| Some(name.to_owned()));
    assert_eq!(compiled(&text).names.concepts, spelled);
    let quoted =
        compiled("kind \"a # b\", \"\\\"\\\\\", \"some\", \" \", \"1\", \"a,b<c\", \"\u{2028}\"");
    let spelled = ["a # b", "\"\\", "some", " ", "1", "a,b<c", "\u{2028}"];
    assert_eq!(
        quoted.names.concepts,
        spelled.map(|name| Some(name.to_owned()))
    );
    // A reserved word in quotes is a name everywhere.
    let reserved = compiled(
        "kind \"any\", \"kind\"\nrole \"some\"\n\"kind\" < \"some\" some \"any\" and any\n",
    );
    assert_eq!(
        records(&reserved.catalogue)[2..],
        ["0 some 0", "any", "2 and 3"]
    );
}
