//! Names, and how they are written.

use std::collections::HashSet;

use girvotal::{Catalogue, Record};

/// The words that are names only in quotes.
pub(super) const RESERVED: [&str; 8] =
    ["kind", "role", "let", "then", "some", "and", "any", "none"];

/// The names of a catalogue's concepts and roles, by number. No two are equal.
#[derive(Clone, Debug, Default, PartialEq, Eq)]
pub struct Names {
    /// Of the concepts; none for a composite that no `let` names.
    pub concepts: Vec<Option<String>>,
    /// Of the roles.
    pub roles: Vec<String>,
}

impl Names {
    /// Names for a catalogue that comes without: `k0`, `k1`, .. for kinds by the number of their
    /// record, `r0`, `r1`, .. for roles, none for composites.
    pub fn numbered(catalogue: Catalogue<'_>) -> Names {
        let kind = |(number, record)| (record == Record::Atomic).then(|| format!("k{number}"));
        Names {
            concepts: catalogue.records().enumerate().map(kind).collect(),
            roles: (0..catalogue.roles())
                .map(|role| format!("r{role}"))
                .collect(),
        }
    }

    /// These names, and for every concept and role without one its letter (`k` for kinds, `c` for
    /// composites, `r` for roles) and number, with `_` appended until no other has that name.
    pub(super) fn completed(&self, catalogue: Catalogue<'_>) -> Names {
        let given = self.concepts.iter().flatten().chain(&self.roles);
        let mut taken: HashSet<String> = given.cloned().collect();
        let mut completed = |name: Option<&String>, letter: char, number: usize| {
            let made_up = || {
                let mut name = format!("{letter}{number}");
                while !taken.insert(name.clone()) {
                    name.push('_');
                }
                name
            };
            name.cloned().unwrap_or_else(made_up)
        };
        let mut concepts = vec![];
        for (number, record) in catalogue.records().enumerate() {
            let letter = if record == Record::Atomic { 'k' } else { 'c' };
            let name = self.concepts.get(number).and_then(Option::as_ref);
            concepts.push(Some(completed(name, letter, number)));
        }
        let roles = (0..catalogue.roles()).map(|role| completed(self.roles.get(role), 'r', role));
        Names {
            roles: roles.collect(),
            concepts,
        }
    }
}

/// Whether a name may begin with the character, outside quotes.
pub(super) fn begins(c: char) -> bool {
    c.is_alphabetic()
}

/// Whether the character may stand in a name, outside quotes.
pub(super) fn continues(c: char) -> bool {
    c.is_alphabetic() || c.is_numeric() || c == '-' || c == '_'
}

/// Whether the word is a name or a reserved word, outside quotes.
pub(super) fn is_word(word: &str) -> bool {
    word.starts_with(begins) && word.chars().all(continues)
}

/// Whether a text can hold the name, in quotes if need be: it is not empty and has no control
/// characters.
pub fn is_name(name: &str) -> bool {
    !name.is_empty() && !name.contains(char::is_control)
}

/// A name as a text has it: bare where the grammar allows it, else in quotes.
pub fn quoted(name: &str) -> String {
    if is_word(name) && !RESERVED.contains(&name) {
        name.to_owned()
    } else {
        in_quotes(name)
    }
}

/// A string in quotes, with `\"` and `\\`, as texts and OWL have it.
pub(super) fn in_quotes(string: &str) -> String {
    let escaped = string.replace('\\', "\\\\").replace('"', "\\\"");
    format!("\"{escaped}\"")
}

/// How a text writes each concept and role of a catalogue by name, made-up names included.
pub(super) struct Spelling {
    pub(super) concepts: Vec<String>,
    pub(super) roles: Vec<String>,
}

impl Spelling {
    pub(super) fn new(names: &Names, catalogue: Catalogue<'_>) -> Spelling {
        let Names { concepts, roles } = names.completed(catalogue);
        Spelling {
            concepts: concepts.iter().flatten().map(|name| quoted(name)).collect(),
            roles: roles.iter().map(|name| quoted(name)).collect(),
        }
    }
}

#[cfg(test)]
mod tests {
    use super::*;

    #[test]
    fn names_are_bare_where_the_grammar_allows_it() {
        for bare in ["tap", "x", "É1-_", "Platz-7a", "水", "kinds"] {
            assert_eq!(quoted(bare), bare);
        }
        for quotes in [
            "Seeplatz Süd",
            "1a",
            "-a",
            "_",
            "a.b",
            "a#b",
            "kind",
            "none",
            " ",
        ] {
            assert_eq!(quoted(quotes), format!("\"{quotes}\""));
        }
        assert_eq!(quoted(r#"a"b\"#), r#""a\"b\\""#);
        assert!(is_name("a b") && !is_name("") && !is_name("a\tb") && !is_name("\u{7f}"));
    }
}
