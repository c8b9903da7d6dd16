//! A reader of what is used of OWL's functional-style syntax, back to a catalogue.

use reference::catalogue::{Catalogue, Concept};
use std::collections::{BTreeMap, HashMap};

/// A term of the syntax, its names written out.
#[derive(Clone, Debug, PartialEq, Eq)]
pub enum Term {
    Iri(String),
    Text(String),
    Applied(String, Vec<Term>),
}

pub const THING: &str = "http://www.w3.org/2002/07/owl#Thing";

fn thing() -> Term {
    Term::Iri(THING.to_owned())
}

/// What an ontology says.
#[derive(Debug, Default)]
pub struct Ontology {
    pub classes: Vec<String>,
    pub properties: Vec<String>,
    pub labels: BTreeMap<String, String>,
    /// By class, and no class has two.
    pub definitions: HashMap<String, Term>,
    inclusions: Vec<(String, String)>,
    compositions: Vec<(String, String, String)>,
    axioms: Vec<(String, String)>,
}

/// The words and signs of a document.
fn tokens(text: &str) -> Vec<String> {
    let mut tokens = vec![];
    let mut rest = text.trim_start();
    while let Some(first) = rest.chars().next() {
        let end = match first {
            '(' | ')' => 1,
            '<' => 1 + rest.find('>').expect("an IRI's end"),
            '"' => {
                let mut escaped = false;
                let end = rest.char_indices().skip(1).find(|&(_, c)| {
                    let end = c == '"' && !escaped;
                    escaped = c == '\\' && !escaped;
                    end
                });
                1 + end.expect("a string's end").0
            }
            _ => rest
                .find(|c: char| c.is_whitespace() || "()<\"".contains(c))
                .expect("a word's end"),
        };
        tokens.push(rest[..end].to_owned());
        rest = rest[end..].trim_start();
    }
    tokens
}

/// The terms from a token on, up to a closing parenthesis or the end.
fn terms(
    tokens: &mut impl Iterator<Item = String>,
    prefixes: &mut HashMap<String, String>,
) -> Vec<Term> {
    let mut terms: Vec<Term> = vec![];
    while let Some(token) = tokens.next() {
        match token.as_str() {
            ")" => return terms,
            "(" => match terms.pop() {
                Some(Term::Iri(head)) => {
                    let parts = self::terms(tokens, prefixes);
                    if let ("Prefix", [Term::Iri(name), Term::Iri(iri)]) = (&*head, &parts[..]) {
                        let name = name.strip_suffix('=').expect("a prefix's name").to_owned();
                        assert!(prefixes.insert(name, iri.clone()).is_none());
                    }
                    terms.push(Term::Applied(head, parts));
                }
                other => panic!("{other:?} before a parenthesis"),
            },
            _ => terms.push(term(&token, prefixes)),
        }
    }
    terms
}

/// One word, IRI or string.
fn term(token: &str, prefixes: &HashMap<String, String>) -> Term {
    if let Some(inner) = token.strip_prefix('"') {
        let inner = inner.strip_suffix('"').expect("a string's end");
        let mut text = String::new();
        let mut characters = inner.chars();
        while let Some(c) = characters.next() {
            text.push(match c {
                '\\' => characters.next().expect("what is escaped"),
                _ => c,
            });
        }
        return Term::Text(text);
    }
    if let Some(inner) = token.strip_prefix('<') {
        return Term::Iri(inner.strip_suffix('>').expect("an IRI's end").to_owned());
    }
    match token.split_once(':') {
        Some((prefix, name)) if !token.ends_with('=') => {
            let plain = |c: char| c.is_ascii_alphanumeric() || c == '-' || c == '_';
            assert!(!name.is_empty() && name.chars().all(plain), "{token}");
            Term::Iri(format!("{}{name}", prefixes[&format!("{prefix}:")]))
        }
        _ => Term::Iri(token.to_owned()),
    }
}

/// Two IRIs.
fn pair([one, other]: [&Term; 2]) -> (String, String) {
    match (one, other) {
        (Term::Iri(one), Term::Iri(other)) => (one.clone(), other.clone()),
        other => panic!("{other:?}"),
    }
}

impl Ontology {
    pub fn read(text: &str) -> Ontology {
        let mut prefixes = HashMap::new();
        let document = terms(&mut tokens(text).into_iter(), &mut prefixes);
        let (last, before) = document.split_last().expect("an ontology");
        assert!(
            before
                .iter()
                .all(|term| matches!(term, Term::Applied(head, _) if head == "Prefix"))
        );
        let Term::Applied(head, axioms) = last else {
            panic!("{last:?} is no ontology");
        };
        assert_eq!(head, "Ontology");
        let mut ontology = Ontology::default();
        for axiom in axioms {
            match axiom {
                Term::Applied(head, parts) => {
                    ontology.axiom(head, &parts.iter().collect::<Vec<_>>())
                }
                other => panic!("{other:?} is no axiom"),
            }
        }
        ontology
    }

    fn axiom(&mut self, head: &str, parts: &[&Term]) {
        match (head, parts) {
            ("Declaration", [Term::Applied(what, entity)]) => {
                let [Term::Iri(entity)] = &entity[..] else {
                    panic!("{entity:?} is declared");
                };
                let entities = match what.as_str() {
                    "Class" => &mut self.classes,
                    "ObjectProperty" => &mut self.properties,
                    _ => panic!("{what} is declared"),
                };
                assert!(!entities.contains(entity), "{entity} is declared twice");
                entities.push(entity.clone());
            }
            ("AnnotationAssertion", [Term::Iri(property), Term::Iri(of), Term::Text(label)]) => {
                assert_eq!(property, "http://www.w3.org/2000/01/rdf-schema#label");
                assert!(self.labels.insert(of.clone(), label.clone()).is_none());
            }
            ("EquivalentClasses", [Term::Iri(class), definition]) => {
                let definition = (*definition).clone();
                let before = self.definitions.insert(class.clone(), definition);
                assert!(before.is_none(), "{class} is defined twice");
            }
            ("SubClassOf", &[left, right]) => self.axioms.push(pair([left, right])),
            ("SubObjectPropertyOf", [Term::Applied(chain, roles), Term::Iri(result)]) => {
                assert_eq!((chain.as_str(), roles.len()), ("ObjectPropertyChain", 2));
                let (first, second) = pair([&roles[0], &roles[1]]);
                self.compositions.push((first, second, result.clone()));
            }
            ("SubObjectPropertyOf", &[within, around]) => {
                self.inclusions.push(pair([within, around]));
            }
            other => panic!("{other:?}"),
        }
    }

    /// The number of a class: that of its record.
    pub fn class(&self, iri: &str) -> Option<usize> {
        self.classes.iter().position(|class| class == iri)
    }

    /// The number of a class that is used; of `owl:Thing` that of the first top.
    fn used(&self, iri: &str) -> usize {
        let thing = |class: &String| self.definitions.get(class) == Some(&thing());
        let number = match iri {
            THING => self.classes.iter().position(thing),
            _ => self.class(iri),
        };
        number.expect("a class that is declared")
    }

    fn property(&self, iri: &str) -> usize {
        let place = self.properties.iter().position(|role| role == iri);
        place.expect("a property that is declared")
    }

    fn concept(&self, definition: &Term) -> Concept {
        let class = |iri: &str| self.used(iri);
        match definition {
            Term::Iri(iri) if iri == THING => Concept::Top,
            Term::Iri(same) => Concept::Conjunction(class(same), class(same)),
            Term::Applied(head, parts) => {
                let (one, other) = pair([&parts[0], &parts[1]]);
                match (head.as_str(), parts.len()) {
                    ("ObjectIntersectionOf", 2) => {
                        assert_ne!(one, other, "an intersection has two operands");
                        Concept::Conjunction(class(&one), class(&other))
                    }
                    ("ObjectSomeValuesFrom", 2) => {
                        Concept::Existential(self.property(&one), class(&other))
                    }
                    other => panic!("{other:?}"),
                }
            }
            Term::Text(text) => panic!("{text:?} is no class"),
        }
    }

    /// The catalogue that the ontology is of.
    pub fn catalogue(&self) -> Catalogue {
        let class = |iri: &String| self.used(iri);
        let property = |iri: &String| self.property(iri);
        let concepts = self.classes.iter();
        let concepts = concepts.map(|class| match self.definitions.get(class) {
            Some(definition) => self.concept(definition),
            None => Concept::Atomic,
        });
        let inclusions = self
            .inclusions
            .iter()
            .map(|(r, s)| (property(r), property(s)));
        let compositions = self.compositions.iter();
        let compositions = compositions.map(|(r, s, t)| (property(r), property(s), property(t)));
        let axioms = self
            .axioms
            .iter()
            .map(|(left, right)| (class(left), class(right)));
        Catalogue {
            concepts: concepts.collect(),
            roles: self.properties.len(),
            inclusions: inclusions.collect(),
            compositions: compositions.collect(),
            axioms: axioms.collect(),
        }
    }
}
