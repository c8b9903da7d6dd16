//! What is wrong with a text.

use std::fmt;

use girvotal::Refusal;

use super::names::quoted;
use super::nearest::nearest;
use super::scope::{Meaning, Scope};

/// What is wrong at one place. Lines and columns are counted from 1, columns in characters.
#[derive(Clone, Debug, PartialEq, Eq)]
pub struct Fault {
    /// The line.
    pub line: usize,
    /// The column of the first character at fault.
    pub column: usize,
    /// What is wrong there.
    pub message: String,
}

impl fmt::Display for Fault {
    fn fmt(&self, f: &mut fmt::Formatter<'_>) -> fmt::Result {
        write!(f, "{}:{}: error: {}", self.line, self.column, self.message)
    }
}

/// Why there is no catalogue.
#[derive(Clone, Debug, PartialEq, Eq)]
pub enum Failure {
    /// The text is wrong; every fault, in order.
    Faults(Vec<Fault>),
    /// The text is right, and the library refuses its catalogue.
    Refused {
        /// The question that is answered no.
        refusal: Refusal,
        /// The counts outside their limits, such as `513 concepts`; may be empty.
        detail: String,
    },
}

impl Failure {
    /// The same with something added to a refusal's detail.
    pub(super) fn with(self, more: &str) -> Failure {
        match self {
            Failure::Refused { refusal, detail } => Failure::Refused {
                refusal,
                detail: detail + more,
            },
            faults => faults,
        }
    }
}

impl From<Refusal> for Failure {
    fn from(refusal: Refusal) -> Failure {
        let detail = String::new();
        Failure::Refused { refusal, detail }
    }
}

/// What is wrong at a place.
pub(super) enum Problem {
    Said(String),
    /// A name that is not declared there; whether a role is meant by it.
    Undeclared {
        name: String,
        role: bool,
    },
}

/// Faults as they are found. What is said of an undeclared name waits for the names that follow.
#[derive(Default)]
pub(super) struct Faults {
    found: Vec<(usize, usize, Problem)>,
}

/// Above so many names, of a text that is over the limits, none is searched for the nearest; and
/// after so many that are not declared.
const MOST_NAMES: usize = 1_024;

impl Faults {
    /// Adds what is wrong at a line and column.
    pub(super) fn push(&mut self, line: usize, column: usize, problem: Problem) {
        self.found.push((line, column, problem));
    }

    pub(super) fn is_empty(&self) -> bool {
        self.found.is_empty()
    }

    /// All of them, in order, with all names declared.
    pub(super) fn told(mut self, scope: &Scope) -> Vec<Fault> {
        self.found.sort_by_key(|&(line, column, _)| (line, column));
        let mut searches = 0;
        let fault = |(line, column, problem)| Fault {
            line,
            column,
            message: match problem {
                Problem::Said(message) => message,
                Problem::Undeclared { name, role } => {
                    searches += 1;
                    undeclared(&name, role, line, scope, searches <= MOST_NAMES)
                }
            },
        };
        self.found.into_iter().map(fault).collect()
    }
}

/// What is said of a name that is not declared where it is used.
fn undeclared(name: &str, role: bool, line: usize, scope: &Scope, search: bool) -> String {
    let shown = quoted(name);
    match scope.get(name) {
        Some(declared) if declared.line == line => {
            format!("`{shown}` is used in its own definition")
        }
        Some(declared) => {
            let line = declared.line;
            format!("`{shown}` is declared only on line {line}; declare it before its use")
        }
        None => {
            let fits = |meaning| role == matches!(meaning, Meaning::Role(_));
            let names = scope.names();
            let searched = search && names.len() <= MOST_NAMES;
            let fitting = names.filter(|&(_, meaning)| searched && fits(meaning));
            let meant = nearest(name, fitting.map(|(name, _)| name));
            not_declared(name, meant.map(quoted).as_deref())
        }
    }
}

/// What is said of a name that is declared nowhere; `meant` is probably meant, as it is written.
pub(super) fn not_declared(name: &str, meant: Option<&str>) -> String {
    let name = quoted(name);
    match meant {
        Some(meant) => format!("`{name}` is not declared; did you mean `{meant}`?"),
        None => format!("`{name}` is not declared; declare it first"),
    }
}
