//! What a text could do without.

use girvotal::Catalogue;

use super::count;
use super::tree::Tree;
use crate::failure::Failure;
use crate::json::Json;
use crate::state::State;
use crate::text::{self, Compiled};

/// What is told of a text beside how much it declares.
pub struct Lint {
    lines: Vec<String>,
    fields: Vec<(&'static str, Json)>,
}

impl Lint {
    /// Of a text that compiles, with its bytes.
    pub fn of(compiled: &Compiled, bytes: &[u8]) -> Result<Lint, Failure> {
        let mut lint = Lint {
            lines: vec![],
            fields: vec![],
        };
        lint.unused(compiled)?;
        lint.equal(compiled)?;
        lint.repeated(bytes)?;
        lint.split(compiled)?;
        Ok(lint)
    }

    /// The lines.
    pub fn text(&self) -> String {
        self.lines.iter().map(|line| format!("{line}\n")).collect()
    }

    /// The same for an object.
    pub fn fields(self) -> Vec<(&'static str, Json)> {
        self.fields
    }

    /// Kinds and roles that nothing uses.
    fn unused(&mut self, Compiled { catalogue, names }: &Compiled) -> Result<(), Failure> {
        let catalogue = Catalogue::new(catalogue)?;
        let kinds = State::kinds_of(catalogue);
        let used = text::used(catalogue);
        let kinds = kinds.into_iter().filter(|kind| !used[usize::from(kind.0)]);
        let kinds = kinds.filter_map(|kind| names.concepts[usize::from(kind.0)].as_deref());
        let kinds: Vec<&str> = kinds.collect();
        let roles = names.roles.iter().zip(text::used_roles(catalogue));
        let roles = roles.filter(|(_, used)| !used);
        let roles: Vec<&str> = roles.map(|(name, _)| name.as_str()).collect();
        for (what, names) in [("kind", &kinds), ("role", &roles)] {
            let line = |name: &&str| format!("unused {what}: {}", text::quoted(name));
            self.lines.extend(names.iter().map(line));
        }
        self.fields.push(("unused_kinds", super::listed(&kinds)));
        self.fields.push(("unused_roles", super::listed(&roles)));
        Ok(())
    }

    /// Kinds that came out equal.
    fn equal(&mut self, compiled: &Compiled) -> Result<(), Failure> {
        let state = State::classify(compiled.clone())?.0;
        let tree = Tree::of(&state)?;
        let equal = tree.entries().iter().filter(|entry| entry.names.len() > 1);
        let mut lists = vec![];
        for entry in equal {
            let names: Vec<String> = entry.names.iter().map(|name| text::quoted(name)).collect();
            self.lines
                .push(format!("equal kinds: {}", names.join(" = ")));
            lists.push(super::listed(&entry.names));
        }
        self.fields.push(("equal", Json::List(lists)));
        Ok(())
    }

    /// Role axioms that are repeated.
    fn repeated(&mut self, bytes: &[u8]) -> Result<(), Failure> {
        let repeated = text::repeated(bytes);
        let repeated = repeated.map_err(|failure| super::failed(String::new(), failure))?;
        let line = |(again, first): &(usize, usize)| {
            format!("repeated role axiom: line {again} says what line {first} says")
        };
        self.lines.extend(repeated.iter().map(line));
        let object = |&(again, first): &(usize, usize)| {
            Json::Object(vec![("line", again.into()), ("first", first.into())])
        };
        let list = repeated.iter().map(object).collect();
        self.fields.push(("repeated", list));
        Ok(())
    }

    /// Right sides that could be split.
    fn split(&mut self, compiled: &Compiled) -> Result<(), Failure> {
        let (axioms, fewer) =
            text::splittable(compiled).map_err(|failure| super::failed(String::new(), failure))?;
        let line = |axiom: &String| format!("could be split: {axiom}");
        self.lines.extend(axioms.iter().map(line));
        if fewer > 0 {
            let concepts = count(fewer, "concept");
            self.lines.push(format!(
                "{concepts} fewer with right sides split: `girvotal text FILE --split`"
            ));
        }
        let axioms: Vec<&str> = axioms.iter().map(String::as_str).collect();
        self.fields.push(("splittable", super::listed(&axioms)));
        self.fields.push(("fewer", fewer.into()));
        Ok(())
    }
}
