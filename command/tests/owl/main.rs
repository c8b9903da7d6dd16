//! Catalogues as OWL: read back, and classified by another program.

mod hierarchy;
mod konclude;
mod reader;
mod regular;
#[path = "../text/sources.rs"]
mod sources;
#[path = "../support/mod.rs"]
mod support;

use girvotal::{Catalogue, Record};
use girvotal_command::text::{Names, compile, owl};
use reader::Ontology;
use reference::catalogue::{self, Concept};
use reference::random::Random;

fn read(bytes: &[u8]) -> Catalogue<'_> {
    Catalogue::new(bytes).expect("an accepted catalogue")
}

/// The name that an IRI of the prefix `what` encodes.
fn decoded(iri: &str, what: &str) -> Option<String> {
    let mut rest = iri.strip_prefix(&format!("urn:girvotal:{what}:"))?.bytes();
    let mut name = vec![];
    while let Some(byte) = rest.next() {
        if byte == b'%' {
            let digits = [rest.next()?, rest.next()?];
            let digits = std::str::from_utf8(&digits).ok()?;
            name.push(u8::from_str_radix(digits, 16).ok()?);
        } else {
            name.push(byte);
        }
    }
    String::from_utf8(name).ok()
}

/// A catalogue with the first of its tops for each that is used; a conjunction of tops is one.
fn with_one_top(bytes: &[u8]) -> catalogue::Catalogue {
    let mut catalogue = catalogue::Catalogue::read(bytes).expect("an accepted catalogue");
    let is_top = |concept: &Concept| *concept == Concept::Top;
    let tops: Vec<bool> = catalogue.concepts.iter().map(is_top).collect();
    let first = tops.iter().position(|&top| top).unwrap_or(0);
    let used = |concept: usize| if tops[concept] { first } else { concept };
    for concept in &mut catalogue.concepts {
        *concept = match *concept {
            Concept::Conjunction(left, right) if tops[left] && tops[right] => Concept::Top,
            Concept::Conjunction(left, right) => Concept::Conjunction(used(left), used(right)),
            Concept::Existential(role, part) => Concept::Existential(role, used(part)),
            other => other,
        };
    }
    for (left, right) in &mut catalogue.axioms {
        (*left, *right) = (used(*left), used(*right));
    }
    catalogue
}

/// Checks that an ontology reads back as the catalogue, with its names.
fn check(what: &str, bytes: &[u8], names: &Names) {
    let catalogue = read(bytes);
    let ontology = Ontology::read(&owl(catalogue, names));
    assert_eq!(ontology.catalogue(), with_one_top(bytes), "{what}");
    let mut labelled = 0;
    let mut named = |iri: &String, prefix: &str, name: Option<&String>| {
        let encoded = decoded(iri, prefix).expect("an IRI of the prefix");
        let label = ontology.labels.get(iri);
        assert_eq!(label, name, "{what}");
        assert!(label.is_none() || label == Some(&encoded), "{what}: {iri}");
        labelled += usize::from(label.is_some());
    };
    for (number, record) in catalogue.records().enumerate() {
        let iri = &ontology.classes[number];
        let prefix = if record == Record::Atomic {
            "kind"
        } else {
            "let"
        };
        named(iri, prefix, names.concepts[number].as_ref());
        let defined = ontology.definitions.contains_key(iri);
        assert_eq!(defined, record != Record::Atomic, "{what}: {iri}");
    }
    for (iri, name) in ontology.properties.iter().zip(&names.roles) {
        named(iri, "role", Some(name));
    }
    assert_eq!(labelled, ontology.labels.len(), "{what}");
}

#[test]
fn read_back() {
    for (name, bytes) in sources::catalogues() {
        check(&name, &bytes, &Names::numbered(read(&bytes)));
        let random = &mut Random::new(bytes.len() as u64);
        check(&name, &bytes, &sources::names(random, read(&bytes)));
    }
    for seed in 0..500 {
        let random = &mut Random::new(seed);
        let bytes = sources::random(random);
        let what = format!("seed {seed}");
        check(&what, &bytes, &Names::numbered(read(&bytes)));
        check(&what, &bytes, &sources::names(random, read(&bytes)));
    }
}

/// Written out, dag-0 is exponential; with a class for each composite it is linear.
#[test]
fn linear() {
    for (name, bytes) in sources::catalogues() {
        let catalogue = read(&bytes);
        let text = owl(catalogue, &Names::numbered(catalogue));
        let bound = 400 + 20 * bytes.len();
        assert!(text.len() < bound, "{name}: {} of {bound}", text.len());
        let definitions = text.matches("EquivalentClasses(").count();
        let composites = catalogue
            .records()
            .filter(|record| *record != Record::Atomic);
        assert_eq!(definitions, composites.count(), "{name}");
    }
}

/// Names that differ have IRIs that differ, each with the name as its label.
#[test]
fn names() {
    let kinds = [
        "Süd",
        "S%C3%BCd",
        "S\u{fc}d ",
        "Su\u{308}d",
        "a b",
        "a_b",
        "a%20b",
        "a+b",
        "1",
        "-",
        "湖",
        "\"",
        "\\",
        "\\\"",
        "<a>",
        "(",
        ")",
        "a)(",
        "#",
        "kind:a",
        "\u{2028}",
        "owl:Thing",
        "Class",
    ];
    let quoted = kinds.map(|name| {
        let escaped = name.replace('\\', "\\\\").replace('"', "\\\"");
        format!("\"{escaped}\"")
    });
    let text = format!(
        "kind {}\nrole \"r r\", r\nlet \"l l\" = \"r r\" some \"#\"\n\"#\" < r some \"l l\" and any\n",
        quoted.join(", ")
    );
    let compiled = compile(text.as_bytes()).expect("a right text");
    check("names", &compiled.catalogue, &compiled.names);
    let ontology = Ontology::read(&owl(read(&compiled.catalogue), &compiled.names));
    let mut labels: Vec<&str> = ontology.labels.values().map(String::as_str).collect();
    let mut expected = [&kinds[..], &["r r", "r", "l l"]].concat();
    labels.sort_unstable();
    expected.sort_unstable();
    assert_eq!(labels, expected);
}
