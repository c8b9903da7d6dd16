//! Catalogue to OWL 2, in functional-style syntax.

use girvotal::{Catalogue, Concept, Record, Role};

use super::names::{Names, in_quotes};

/// The prefixes of an ontology. Those of its own name no host.
const PREFIXES: [(&str, &str); 5] = [
    ("owl", "http://www.w3.org/2002/07/owl#"),
    ("rdfs", "http://www.w3.org/2000/01/rdf-schema#"),
    (KIND, "urn:girvotal:kind:"),
    (LET, "urn:girvotal:let:"),
    (ROLE, "urn:girvotal:role:"),
];

const KIND: &str = "kind";
const LET: &str = "let";
const ROLE: &str = "role";

/// The ontology of a catalogue: a class for each record and an object property for each role, in
/// their order.
///
/// A composite is a class of its own that one `EquivalentClasses` defines out of the classes of its
/// parts, so that shared parts stand once; a top is `owl:Thing` wherever it is used.
///
/// An IRI is the prefix of kinds, lets or roles and the name, percent-encoded but for ASCII letters,
/// digits, `-` and `_`; what has a name has it as its `rdfs:label`, as it is. A composite without
/// one is named as [`print()`](super::print()) does.
pub fn owl(catalogue: Catalogue<'_>, names: &Names) -> String {
    let entities = Entities::new(catalogue, names);
    let mut text = String::new();
    for (name, iri) in PREFIXES {
        text += &format!("Prefix({name}:=<{iri}>)\n");
    }
    text += "Ontology(\n";
    for class in &entities.classes {
        text += &format!("Declaration(Class({class}))\n");
    }
    for property in &entities.properties {
        text += &format!("Declaration(ObjectProperty({property}))\n");
    }
    text += &entities.labels(names);
    text += &entities.role_axioms(catalogue);
    for (class, record) in entities.classes.iter().zip(catalogue.records()) {
        if let Some(definition) = entities.definition(record) {
            text += &format!("EquivalentClasses({class} {definition})\n");
        }
    }
    for axiom in catalogue.axioms() {
        let (left, right) = (entities.used(axiom.left), entities.used(axiom.right));
        text += &format!("SubClassOf({left} {right})\n");
    }
    text + ")\n"
}

/// What everything is.
const THING: &str = "owl:Thing";

/// The IRIs of a catalogue's concepts and roles, as they are written.
struct Entities {
    classes: Vec<String>,
    /// Whether a class is a top's.
    tops: Vec<bool>,
    properties: Vec<String>,
}

impl Entities {
    fn new(catalogue: Catalogue<'_>, names: &Names) -> Entities {
        let Names { concepts, roles } = names.completed(catalogue);
        let concepts = concepts.iter().flatten().zip(catalogue.records());
        let class = |(name, record): (&String, Record)| match record {
            Record::Atomic => iri(KIND, name),
            _ => iri(LET, name),
        };
        Entities {
            classes: concepts.map(class).collect(),
            tops: catalogue
                .records()
                .map(|record| record == Record::Top)
                .collect(),
            properties: roles.iter().map(|name| iri(ROLE, name)).collect(),
        }
    }

    /// A concept where it is used.
    fn used(&self, Concept(number): Concept) -> &str {
        match self.tops[usize::from(number)] {
            true => THING,
            false => &self.classes[usize::from(number)],
        }
    }

    fn property(&self, Role(number): Role) -> &str {
        &self.properties[usize::from(number)]
    }

    /// The names, of what has one.
    fn labels(&self, names: &Names) -> String {
        let classes = self.classes.iter().zip(&names.concepts);
        let classes = classes.filter_map(|(class, name)| Some((class, name.as_ref()?)));
        let properties = self.properties.iter().zip(&names.roles);
        let label = |(entity, name): (&String, &String)| {
            let name = in_quotes(name);
            format!("AnnotationAssertion(rdfs:label {entity} {name})\n")
        };
        classes.chain(properties).map(label).collect()
    }

    fn role_axioms(&self, catalogue: Catalogue<'_>) -> String {
        let mut text = String::new();
        for inclusion in catalogue.inclusions() {
            let within = self.property(inclusion.within);
            let around = self.property(inclusion.around);
            text += &format!("SubObjectPropertyOf({within} {around})\n");
        }
        for composition in catalogue.compositions() {
            let first = self.property(composition.first);
            let second = self.property(composition.second);
            let result = self.property(composition.result);
            let chain = format!("ObjectPropertyChain({first} {second})");
            text += &format!("SubObjectPropertyOf({chain} {result})\n");
        }
        text
    }

    /// What a composite is, by the classes of its parts. OWL's intersections have operands that
    /// differ: `A and A` is A.
    fn definition(&self, record: Record) -> Option<String> {
        match record {
            Record::Atomic => None,
            Record::Top => Some(THING.to_owned()),
            Record::Conjunction(left, right) => {
                let (left, right) = (self.used(left), self.used(right));
                Some(match left == right {
                    true => left.to_owned(),
                    false => format!("ObjectIntersectionOf({left} {right})"),
                })
            }
            Record::Existential(role, part) => {
                let (role, part) = (self.property(role), self.used(part));
                Some(format!("ObjectSomeValuesFrom({role} {part})"))
            }
        }
    }
}

/// The IRI of a name under one of the prefixes: short where a letter is first and nothing is
/// encoded, else in full.
fn iri(prefix: &str, name: &str) -> String {
    let plain = |byte: u8| byte.is_ascii_alphanumeric() || byte == b'-' || byte == b'_';
    if name.starts_with(|c: char| c.is_ascii_alphabetic()) && name.bytes().all(plain) {
        return format!("{prefix}:{name}");
    }
    let before = PREFIXES.iter().find(|(short, _)| *short == prefix);
    let (_, before) = before.expect("a prefix that is declared");
    let encoded = name.bytes().map(|byte| match plain(byte) {
        true => char::from(byte).to_string(),
        false => format!("%{byte:02X}"),
    });
    format!("<{before}{}>", encoded.collect::<String>())
}

#[cfg(test)]
mod tests {
    use super::*;

    #[test]
    fn iris() {
        for (name, expected) in [
            ("tap", "kind:tap"),
            ("a-b_1", "kind:a-b_1"),
            ("1a", "<urn:girvotal:kind:1a>"),
            ("-", "<urn:girvotal:kind:->"),
            ("Süd", "<urn:girvotal:kind:S%C3%BCd>"),
            ("a%20b", "<urn:girvotal:kind:a%2520b>"),
            ("a b>\"\\", "<urn:girvotal:kind:a%20b%3E%22%5C>"),
        ] {
            assert_eq!(iri(KIND, name), expected);
        }
    }
}
