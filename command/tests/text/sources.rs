//! Catalogues and names to try texts with.

use girvotal::{Catalogue, Record};
use girvotal_command::text::Names;
use reference::catalogue::{self, Concept};
use reference::examples::EXAMPLES;
use reference::random::Random;
use std::collections::HashSet;
use std::fs;

use crate::support::{data, data_files};

/// A file of data/.
pub fn file(name: &str) -> Vec<u8> {
    fs::read(data().join(name)).expect("a file of data/")
}

/// The names of the files of data/ with an ending.
fn files(ending: &str) -> Vec<String> {
    let names = data_files(ending).into_iter().map(|path| {
        let name = path.file_name().expect("a file's name");
        name.to_str().expect("UTF-8").to_owned()
    });
    names.collect()
}

/// The names of the texts of data/.
pub fn texts() -> Vec<String> {
    let texts = files("gv");
    assert!(texts.len() >= 2);
    texts
}

/// Every catalogue of data/ and every built-in one, with its name.
pub fn catalogues() -> Vec<(String, Vec<u8>)> {
    let files = files("bin").into_iter();
    let mut all: Vec<_> = files.map(|name| (name.clone(), file(&name))).collect();
    assert!(all.len() >= 14);
    for (name, example) in EXAMPLES {
        all.push(((*name).to_owned(), example().bytes()));
    }
    all
}

/// A random catalogue: a small one; one of up to 16 roles with many axioms on them, repeats among
/// them; or one in which most composites stand twice or oftener.
pub fn random(random: &mut Random) -> Vec<u8> {
    let family = random.below(3);
    let mut catalogue = random.catalogue([8, 60, 20][family]);
    if family == 1 {
        with_roles(random, &mut catalogue);
    }
    if family == 2 {
        with_doubles(random, &mut catalogue);
    }
    catalogue.bytes()
}

fn with_roles(random: &mut Random, catalogue: &mut catalogue::Catalogue) {
    let roles = 1 + random.below(16);
    for concept in &mut catalogue.concepts {
        if let Concept::Existential(role, _) = concept {
            *role = random.below(roles);
        }
    }
    let [inclusions, compositions] = [random.below(65), random.below(65)];
    let mut role = || random.below(roles);
    catalogue.roles = roles;
    catalogue.inclusions = (0..inclusions).map(|_| (role(), role())).collect();
    catalogue.compositions = (0..compositions)
        .map(|_| (role(), role(), role()))
        .collect();
}

/// Adds equal records, with equal parts of other numbers too, and axioms between all.
fn with_doubles(random: &mut Random, catalogue: &mut catalogue::Catalogue) {
    let before = catalogue.concepts.len();
    let mut double: Vec<usize> = (0..before).collect();
    for number in 0..before {
        let concept = match catalogue.concepts[number] {
            Concept::Atomic => continue,
            Concept::Top => Concept::Top,
            Concept::Conjunction(left, right) => Concept::Conjunction(double[left], right),
            Concept::Existential(role, part) => Concept::Existential(role, double[part]),
        };
        double[number] = catalogue.concepts.len();
        catalogue.concepts.push(concept);
    }
    let n = catalogue.concepts.len();
    for _ in 0..n {
        catalogue.axioms.push((random.below(n), random.below(n)));
    }
    catalogue.axioms.sort_unstable();
    catalogue.axioms.dedup();
}

/// Names of all sorts for a catalogue, none for some composites.
pub fn names(random: &mut Random, catalogue: Catalogue<'_>) -> Names {
    const SYLLABLES: [&str; 12] = [
        "tap", "Süd", " ", "\"", "\\", "#", "湖", "-", "1", "k", "some", "c",
    ];
    let mut taken = HashSet::new();
    let mut name = |number: usize, letter: char| loop {
        let syllables: String = (0..random.below(4))
            .map(|_| SYLLABLES[random.below(12)])
            .collect();
        let name = match random.below(3) {
            // What the printer makes up itself for another.
            0 => format!("{letter}{}", number + random.below(3)),
            1 => format!("{syllables}{letter}{number}"),
            _ => format!("{letter}{number}{syllables}_"),
        };
        if taken.insert(name.clone()) {
            return name;
        }
    };
    let concepts = catalogue.records().enumerate();
    let concepts = concepts.map(|(number, record)| match record {
        Record::Atomic => Some(name(number, 'k')),
        _ if number % 3 == 0 => Some(name(number, 'c')),
        _ => None,
    });
    let concepts = concepts.collect();
    let roles = (0..catalogue.roles()).map(|role| name(role, 'r')).collect();
    Names { concepts, roles }
}
