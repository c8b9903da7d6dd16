//! Text to catalogue.

use std::collections::HashMap;

use girvotal::{Axiom, Catalogue, Composition, Inclusion, Record, Role};

use super::draft::Draft;
use super::expression::{Expression, Node};
use super::faults::{Failure, Fault, Faults, Problem};
use super::names::{Names, quoted};
use super::parser::Parser;
use super::scope::{Declared, Meaning, Scope};
use super::split::{built, split_draft};
use super::statement::{Declaration, Statement};

/// A text's catalogue and names.
#[derive(Clone, Debug, PartialEq, Eq)]
pub struct Compiled {
    /// The catalogue's bytes, which pass questions 1 to 9.
    pub catalogue: Vec<u8>,
    /// The names by number: of kinds, of lets and of roles.
    pub names: Names,
}

/// The catalogue of a text, or everything that is wrong with it.
///
/// A line ends with a line feed; a carriage return before that, and a byte order mark at the start,
/// are passed over. Of a text that is not UTF-8 the first such byte alone is told.
pub fn compile(text: &[u8]) -> Result<Compiled, Failure> {
    let (draft, names) = Compiler::read(text)?.finish()?;
    let catalogue = built(&draft, &names)?;
    Ok(Compiled { catalogue, names })
}

/// The same with right sides split: `A < B and C` as `A < B` and `A < C`. So it may be within the
/// limits where the text is not.
pub fn compile_split(text: &[u8]) -> Result<Compiled, Failure> {
    let (draft, names) = Compiler::read(text)?.finish()?;
    split_draft(&draft, &names)
}

/// A catalogue with right sides split.
pub fn split(Compiled { catalogue, names }: &Compiled) -> Result<Compiled, Failure> {
    let catalogue = Catalogue::new(catalogue)?;
    split_draft(&Draft::of(catalogue), names)
}

/// The lines of a text that repeat a role axiom, each with the line that says it first.
pub fn repeated(text: &[u8]) -> Result<Vec<(usize, usize)>, Failure> {
    Ok(Compiler::read(text)?.repeated)
}

/// The text's characters, without a byte order mark.
fn decoded(bytes: &[u8]) -> Result<&str, Fault> {
    let bytes = bytes.strip_prefix("\u{feff}".as_bytes()).unwrap_or(bytes);
    let Some(chunk) = bytes.utf8_chunks().next() else {
        return Ok("");
    };
    let (before, wrong) = (chunk.valid(), chunk.invalid());
    let Some(byte) = wrong.first() else {
        return Ok(before);
    };
    let begin = before.rfind('\n').map_or(0, |end| end + 1);
    Err(Fault {
        line: 1 + before.matches('\n').count(),
        column: 1 + before[begin..].chars().count(),
        message: format!("the byte 0x{byte:02X} is not UTF-8"),
    })
}

/// The lines read so far.
#[derive(Default)]
struct Compiler {
    scope: Scope,
    draft: Draft,
    faults: Faults,
    /// The lines that say a role axiom first.
    role_axioms: HashMap<RoleAxiom, usize>,
    /// Those that say one again, with the first.
    repeated: Vec<(usize, usize)>,
}

/// An inclusion or a composition.
#[derive(Clone, Copy, PartialEq, Eq, Hash)]
enum RoleAxiom {
    Inclusion(Inclusion),
    Composition(Composition),
}

impl Compiler {
    /// All lines of a text.
    fn read(text: &[u8]) -> Result<Compiler, Failure> {
        let text = decoded(text).map_err(|fault| Failure::Faults(vec![fault]))?;
        let mut compiler = Compiler::default();
        for (line, number) in text.lines().zip(1..) {
            compiler.line(number, line);
        }
        Ok(compiler)
    }

    /// Adds a role axiom, unless it is there.
    fn role_axiom(&mut self, line: usize, axiom: RoleAxiom) {
        match (self.role_axioms.get(&axiom), axiom) {
            (Some(&first), _) => self.repeated.push((line, first)),
            (None, RoleAxiom::Inclusion(inclusion)) => self.draft.inclusions.push(inclusion),
            (None, RoleAxiom::Composition(composition)) => {
                self.draft.compositions.push(composition)
            }
        }
        self.role_axioms.entry(axiom).or_insert(line);
    }

    fn line(&mut self, number: usize, line: &str) {
        let mut parser = Parser::new(number, line, &self.scope, &mut self.faults);
        if let Ok(statement) = parser.statement() {
            self.statement(number, statement);
        }
    }

    fn statement(&mut self, line: usize, statement: Statement) {
        match statement {
            Statement::Empty => {}
            Statement::Kinds(names) => {
                for name in names {
                    let kind = self.draft.push(Record::Atomic);
                    self.declare(line, name, Meaning::Kind(kind));
                }
            }
            Statement::Roles(names) => {
                for name in names {
                    let role = Role(u16::try_from(self.draft.roles).unwrap_or(u16::MAX));
                    self.draft.roles += 1;
                    self.declare(line, name, Meaning::Role(role));
                }
            }
            Statement::Let(name, composite) => {
                // A faulty one stands for anything: nothing is built.
                let composite = composite.unwrap_or_else(|| Expression::new(vec![Node::Top]));
                let record = self.draft.define(&composite);
                self.declare(line, name, Meaning::Let(record));
            }
            Statement::Inclusion(inclusion) => {
                self.role_axiom(line, RoleAxiom::Inclusion(inclusion));
            }
            Statement::Composition(composition) => {
                self.role_axiom(line, RoleAxiom::Composition(composition));
            }
            Statement::Axioms(axioms) => {
                for (left, right) in axioms {
                    let left = self.draft.find_or_add(&left);
                    let right = self.draft.find_or_add(&right);
                    self.draft.axioms.insert(Axiom { left, right });
                }
            }
        }
    }

    fn declare(
        &mut self,
        line: usize,
        Declaration { name, column }: Declaration,
        meaning: Meaning,
    ) {
        if let Some(before) = self.scope.declare(&name, Declared { meaning, line }) {
            let (name, before) = (quoted(&name), before.line);
            let message =
                format!("`{name}` is declared already, on line {before}; take another name");
            self.faults.push(line, column, Problem::Said(message));
        }
    }

    /// The catalogue in the making and its names, or all faults.
    fn finish(self) -> Result<(Draft, Names), Failure> {
        if !self.faults.is_empty() {
            return Err(Failure::Faults(self.faults.told(&self.scope)));
        }
        let mut names = Names {
            concepts: vec![None; self.draft.concepts()],
            roles: vec![],
        };
        for (name, meaning) in self.scope.into_names() {
            match meaning {
                Meaning::Kind(concept) | Meaning::Let(concept) => {
                    names.concepts[usize::from(concept.0)] = Some(name);
                }
                Meaning::Role(_) => names.roles.push(name),
            }
        }
        Ok((self.draft, names))
    }
}
