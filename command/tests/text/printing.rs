//! Catalogues to text and back.

use crate::support::once;
use crate::{compiled, sources};
use girvotal::{Catalogue, Concept, Question, Record, Site};
use girvotal_command::text::{Names, print};
use reference::catalogue;
use reference::random::Random;
use std::collections::BTreeMap;

fn read(bytes: &[u8]) -> Catalogue<'_> {
    Catalogue::new(bytes).expect("an accepted catalogue")
}

/// For each kind, by name, the kinds above it, or why it is refused.
type Above = BTreeMap<String, Result<Vec<String>, Question>>;

fn above(bytes: &[u8], names: &Names) -> Above {
    let site = Site::classify(bytes.to_vec()).expect("an accepted catalogue");
    let catalogue = site.catalogue();
    let records: Vec<Record> = catalogue.records().collect();
    let name = |concept: Concept| {
        let number = usize::from(concept.0);
        let kind = records[number] == Record::Atomic;
        kind.then(|| names.concepts[number].clone().expect("a kind's name"))
    };
    let all = (0..).take(records.len()).map(Concept);
    all.filter_map(|concept| {
        let row = site.row(concept).map_err(|refusal| refusal.question);
        let above = row.map(|row| {
            let mut above: Vec<String> = row.iter().filter_map(name).collect();
            above.sort();
            above
        });
        Some((name(concept)?, above))
    })
    .collect()
}

/// Checks the exact text of a catalogue: the same bytes but for repeated role axioms, and the names
/// given.
fn check_exact(what: &str, bytes: &[u8], names: &Names) {
    let text = print(read(bytes), names, true);
    let again = compiled(&text);
    assert_eq!(again.catalogue, once(bytes), "{what}\n{text}");
    assert_eq!(again.names.roles, names.roles, "{what}\n{text}");
    for (again, name) in again.names.concepts.iter().zip(&names.concepts) {
        assert!(name.is_none() || again == name, "{what}\n{text}");
    }
}

/// Checks the short text of a catalogue: the same names of kinds, roles and lets, and the same
/// kinds under each other. Gives the text.
fn check_short(what: &str, bytes: &[u8], names: &Names) -> String {
    let text = print(read(bytes), names, false);
    let again = compiled(&text);
    let sorted = |names: &Names| {
        let mut concepts: Vec<String> = names.concepts.iter().flatten().cloned().collect();
        concepts.sort();
        concepts
    };
    let (given, kept) = (sorted(names), sorted(&again.names));
    assert!(
        given.iter().all(|name| kept.contains(name)),
        "{what}\n{text}"
    );
    assert_eq!(again.names.roles, names.roles, "{what}\n{text}");
    let inclusions = |bytes| read(bytes).inclusions().collect::<Vec<_>>();
    let compositions = |bytes| read(bytes).compositions().collect::<Vec<_>>();
    let once = once(bytes);
    assert_eq!(inclusions(&again.catalogue), inclusions(&once), "{what}");
    assert_eq!(
        compositions(&again.catalogue),
        compositions(&once),
        "{what}"
    );
    assert_eq!(
        above(&again.catalogue, &again.names),
        above(bytes, names),
        "{what}\n{text}"
    );
    text
}

/// Every file and example, and so many random catalogues, each with numbered names and with random
/// ones.
fn each(seeds: u64, check: impl Fn(&str, &[u8], &Names)) {
    let both = |what: &str, bytes: &[u8], random: &mut Random| {
        check(what, bytes, &Names::numbered(read(bytes)));
        check(what, bytes, &sources::names(random, read(bytes)));
    };
    for (name, bytes) in sources::catalogues() {
        both(&name, &bytes, &mut Random::new(bytes.len() as u64));
    }
    for seed in 0..seeds {
        let random = &mut Random::new(seed);
        let bytes = sources::random(random);
        both(&format!("seed {seed}"), &bytes, random);
    }
}

#[test]
fn exact_texts() {
    each(1_000, check_exact);
}

#[test]
fn short_texts() {
    each(300, |what, bytes, names| {
        drop(check_short(what, bytes, names))
    });
}

/// The short text is linear in the catalogue, also where parts are shared.
#[test]
fn short_texts_are_short() {
    for (name, bytes) in sources::catalogues() {
        let catalogue = read(&bytes);
        let text = print(catalogue, &Names::numbered(catalogue), false);
        let bound = 10 * bytes.len();
        assert!(text.len() < bound, "{name}: {} of {bound}", text.len());
    }
}

/// A text comes back as it was, but for comments and the order of statements.
#[test]
fn short_text_of_the_lake() {
    let text = String::from_utf8(sources::file("lake.gv")).expect("UTF-8");
    let lake = compiled(&text);
    let printed = print(read(&lake.catalogue), &lake.names, false);
    let expected = r#"kind pitch, corner-pitch, "Seeplatz Süd", powered-pitch, comfort-pitch, pillar, tap, electricity
kind water
role has, supplies, offers
has then supplies < offers
corner-pitch < pitch and has some pillar
"Seeplatz Süd" < corner-pitch and has some tap
powered-pitch = pitch and offers some electricity
comfort-pitch = powered-pitch and offers some water
pillar < supplies some electricity
tap < supplies some water
"#;
    assert_eq!(printed, expected);
}

/// What has a `let`, what is written out, and where parentheses stand.
#[test]
fn short_forms() {
    let declared = "kind a, b\nrole r\n";
    for (text, expected) in [
        ("", ""),
        // Flat composites and `any` are written out each time.
        (
            "a < r some b\nb < r some b\na < any\nany and a < any",
            "a < r some b\na < any\nb < r some b\nany and a < any\n",
        ),
        (
            "a < any and a\nb < any and a",
            "a < any and a\nb < any and a\n",
        ),
        // One use: written out; two: by `let`.
        ("a < r some r some b", "a < r some r some b\n"),
        (
            "a < r some r some b\nb < r some r some b",
            "let c3 = r some r some b\na < c3\nb < c3\n",
        ),
        // Both directions are one line and one use, with the kind first.
        ("r some r some b = a", "a = r some r some b\n"),
        ("a = b\na < a", "a < a\na = b\n"),
        ("r some b = r some a", "r some b = r some a\n"),
        // A named composite keeps its `let`, and uses its parts.
        (
            "let x = a and r some r some b\nb < r some r some b",
            "let c3 = r some r some b\nlet x = a and c3\nb < c3\n",
        ),
        ("let x = r some (a and b)", "let x = r some (a and b)\n"),
        ("let x = any\na < any", "let x = any\na < x\n"),
        // A made-up name does not clash.
        (
            "let c3 = any\na < r some r some b\nb < r some r some b",
            "let c3 = any\nlet c4 = r some r some b\na < c4\nb < c4\n",
        ),
        (
            "let c4 = any\na < r some r some b\nb < r some r some b",
            "let c4 = any\nlet c4_ = r some r some b\na < c4_\nb < c4_\n",
        ),
        ("a < (a and b) and a", "a < a and b and a\n"),
        ("a < a and (b and a)", "a < a and (b and a)\n"),
        (
            "a < r some (a and b) and (r some b)",
            "a < r some (a and b) and r some b\n",
        ),
    ] {
        let compiled = compiled(&format!("{declared}{text}\n"));
        let printed = print(read(&compiled.catalogue), &compiled.names, false);
        assert_eq!(printed, format!("{declared}{expected}"), "{text}");
    }
}

/// A nameless composite in no axiom is left out, with its uses of others; a kind stands at the left
/// of `=`, whatever its number.
#[test]
fn left_out_and_turned() {
    let mut compiled = compiled(
        "kind a\nrole r\nlet x = a and r some r some a\na < r some r some a\n\
         kind b\nr some a = b\n",
    );
    assert_eq!(compiled.names.concepts[3].take().as_deref(), Some("x"));
    let printed = print(read(&compiled.catalogue), &compiled.names, false);
    let expected = "kind a, b\nrole r\na < r some r some a\nb = r some a\n";
    assert_eq!(printed, expected);
}

#[test]
fn exact_forms() {
    let text =
        "kind a\nlet x = any\nrole r, s\nlet y = r some x\nkind b, \"c c\"\nx < y\nx < a and x\n";
    let compiled = compiled(text);
    let printed = print(read(&compiled.catalogue), &compiled.names, true);
    let expected = "role r, s\nkind a\nlet x = any\nlet y = r some x\nkind b, \"c c\"\n\
                    let c5 = a and x\nx < y\nx < c5\n";
    assert_eq!(printed, expected);
}

/// Written out, the concepts of dag-0 are exponential; and parts nest as deep as there are records.
#[test]
fn shared_and_deep_parts() {
    let dag = sources::file("dag-0.bin");
    let text = check_short("dag-0", &dag, &Names::numbered(read(&dag)));
    assert!(text.len() < 3_000, "{}", text.len());
    let nested = |next: fn(usize) -> catalogue::Concept| {
        let concepts = (0..512).map(|number| match number {
            0 => catalogue::Concept::Atomic,
            _ => next(number),
        });
        let catalogue = catalogue::Catalogue {
            concepts: concepts.collect(),
            roles: 1,
            inclusions: vec![],
            compositions: vec![],
            axioms: vec![(0, 511)],
        };
        catalogue.bytes()
    };
    for bytes in [
        nested(|i| catalogue::Concept::Conjunction(0, i - 1)),
        nested(|i| catalogue::Concept::Conjunction(i - 1, 0)),
        nested(|i| catalogue::Concept::Existential(0, i - 1)),
    ] {
        let names = Names::numbered(read(&bytes));
        let text = check_short("nested", &bytes, &names);
        assert_eq!(text.lines().count(), 3);
        assert_eq!(compiled(&text).catalogue, bytes);
    }
}
