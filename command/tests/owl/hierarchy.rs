//! The hierarchy of classes that Konclude writes, in OWL/XML.

use super::reader::{Ontology, THING};

/// For each class of an ontology the classes above it.
pub struct Hierarchy {
    above: Vec<Vec<bool>>,
}

impl Hierarchy {
    /// Whether a class lies under another.
    pub fn under(&self, class: usize, other: usize) -> bool {
        self.above[class][other]
    }

    /// The hierarchy of a document about the classes of an ontology.
    pub fn read(document: &str, ontology: &Ontology) -> Hierarchy {
        let thing = ontology.classes.len();
        let nothing = thing + 1;
        let number = |iri: &str| match iri {
            THING => thing,
            "http://www.w3.org/2002/07/owl#Nothing" => nothing,
            _ => ontology.class(iri).expect("a class of the ontology"),
        };
        let mut directly = vec![vec![thing]; thing + 2];
        directly[nothing].extend(0..thing);
        let mut group = vec![];
        for line in document.lines().map(str::trim) {
            if let Some(iri) = line.strip_prefix("<Class IRI=\"") {
                let iri = iri.strip_suffix("\"/>").expect("the end of an element");
                group.push(number(iri));
                continue;
            }
            match line {
                "<SubClassOf>" | "<EquivalentClasses>" | "<Declaration>" => group.clear(),
                "</SubClassOf>" => {
                    assert_eq!(group.len(), 2, "a class and one above it");
                    directly[group[0]].push(group[1]);
                }
                "</EquivalentClasses>" => {
                    for pair in group.windows(2) {
                        directly[pair[0]].push(pair[1]);
                        directly[pair[1]].push(pair[0]);
                    }
                }
                "</Declaration>" | "</Ontology>" | "" => {}
                _ => {
                    let known = ["<?xml ", "<Ontology ", "<Prefix "];
                    let known = known.iter().any(|start| line.starts_with(start));
                    assert!(known, "{line} is not known");
                }
            }
        }
        let above = (0..thing).map(|class| reached(class, &directly));
        Hierarchy {
            above: above.collect(),
        }
    }
}

/// What is reached from a number in any number of steps, none too.
fn reached(from: usize, steps: &[Vec<usize>]) -> Vec<bool> {
    let mut reached = vec![false; steps.len()];
    let mut pending = vec![from];
    while let Some(at) = pending.pop() {
        if !std::mem::replace(&mut reached[at], true) {
            pending.extend(&steps[at]);
        }
    }
    reached
}
