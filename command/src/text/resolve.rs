//! Expressions and axioms of a command line, and their records.

use girvotal::{Axiom, Catalogue, Concept, Record};

use super::compile::Compiled;
use super::draft::Draft;
use super::expression::{Expression, Node};
use super::faults::{Failure, Fault, Faults, Problem, not_declared};
use super::lexer::comment;
use super::names::{Names, Spelling, is_word, quoted};
use super::nearest::nearest;
use super::parser::{Ended, Parser};
use super::scope::{Meaning, Scope};
use super::split::built;

/// Reads a line by the names of a catalogue.
fn parsed<T>(
    source: &str,
    scope: &Scope,
    parse: impl FnOnce(&mut Parser<'_>) -> Result<T, Ended>,
) -> Result<T, Vec<Fault>> {
    let mut faults = Faults::default();
    if let Some(column) = comment(source) {
        faults.push(
            1,
            column,
            Problem::Said("an argument has no comment".into()),
        );
        return Err(faults.told(scope));
    }
    let mut parser = Parser::new(1, source, scope, &mut faults);
    let result = parse(&mut parser);
    if result.is_err() {
        parser.rest(false);
    }
    match result {
        Ok(result) if faults.is_empty() => Ok(result),
        _ => Err(faults.told(scope)),
    }
}

/// Reads arguments by the names of a catalogue, and finds their records in it.
pub struct Reader {
    scope: Scope,
    draft: Draft,
}

impl Reader {
    /// By these names and this catalogue.
    pub fn of(names: &Names, catalogue: Catalogue<'_>) -> Reader {
        Reader {
            scope: Scope::of(names, catalogue),
            draft: Draft::of(catalogue),
        }
    }

    /// The expression that an argument says. One that would be faulty, and is the whole name of a
    /// concept without its quotes, is that name; one that could be either is a fault.
    pub fn expression(&self, source: &str) -> Result<Expression, Vec<Fault>> {
        let result = parsed(source, &self.scope, |parser| parser.expression_alone());
        let Some(Meaning::Kind(concept) | Meaning::Let(concept)) =
            self.scope.get(source).map(|declared| declared.meaning)
        else {
            let misspelt = || self.misspelt(source, 1).map(|fault| vec![fault]);
            return result.map_err(|faults| misspelt().unwrap_or(faults));
        };
        match result {
            Ok(other) if other.named() != Some(concept) => Err(vec![Fault {
                line: 1,
                column: 1,
                message: format!(
                    "`{source}` is a name and an expression too: quote it, `{}`, or put it in \
                     parentheses",
                    quoted(source)
                ),
            }]),
            _ => Ok(Expression::new(vec![Node::Named(concept)])),
        }
    }

    /// The axioms that an argument says, by their sides: one of `A < B`, two of `A = B`. Another
    /// statement is a fault.
    pub fn axioms(&self, source: &str) -> Result<Vec<(Expression, Expression)>, Vec<Fault>> {
        let axioms = parsed(source, &self.scope, |parser| parser.axioms_alone());
        axioms.map_err(|faults| self.unquoted(source).unwrap_or(faults))
    }

    /// What is wrong with the sides of an axiom that are, or are near to, names that need quotes;
    /// none where there is no such side.
    fn unquoted(&self, source: &str) -> Option<Vec<Fault>> {
        let (left, right) = source.split_once(['<', '='])?;
        let mut faults = vec![];
        for (side, begin) in [(left, 1), (right, left.chars().count() + 2)] {
            let name = side.trim();
            let column = begin + side.chars().take_while(|c| c.is_whitespace()).count();
            if parsed(name, &self.scope, |parser| parser.expression_alone()).is_ok() {
                continue;
            }
            match self.scope.get(name) {
                Some(_) if is_word(name) => return None,
                Some(_) => faults.push(Fault {
                    line: 1,
                    column,
                    message: format!("in an axiom this name is quoted: `{}`", quoted(name)),
                }),
                None => faults.push(self.misspelt(name, column)?),
            }
        }
        (!faults.is_empty()).then_some(faults)
    }

    /// What is said at a column of what is near to a name with spaces, or another that is quoted.
    fn misspelt(&self, source: &str, column: usize) -> Option<Fault> {
        let concepts = self.scope.names();
        let concepts = concepts.filter(|(_, meaning)| !matches!(meaning, Meaning::Role(_)));
        let quotable = concepts.map(|(name, _)| name).filter(|name| !is_word(name));
        let near = quoted(nearest(source, quotable)?);
        Some(Fault {
            line: 1,
            column,
            message: not_declared(source, Some(&near)),
        })
    }

    /// The kinds that an argument declares by `kind`; none of another argument.
    pub fn kinds(&self, source: &str) -> Result<Vec<String>, Vec<Fault>> {
        parsed(source, &self.scope, |parser| parser.kinds_alone())
    }

    /// The records equal to an expression, rising.
    pub fn candidates(&self, expression: &Expression) -> Vec<Concept> {
        let draft = &self.draft;
        let Some(found) = draft.find(expression) else {
            return vec![];
        };
        let equal = |&concept: &Concept| draft.lowest(concept) == draft.lowest(found);
        let all = (0..).map(Concept).take(draft.concepts());
        all.filter(equal).collect()
    }
}

/// A catalogue with some kinds more, at its end, by names that are free.
pub fn entered(
    catalogue: Catalogue<'_>,
    names: &Names,
    kinds: &[String],
) -> Result<Compiled, Failure> {
    let mut draft = Draft::of(catalogue);
    let mut names = names.clone();
    for kind in kinds {
        draft.push(Record::Atomic);
        names.concepts.push(Some(kind.clone()));
    }
    let catalogue = built(&draft, &names)?;
    Ok(Compiled { catalogue, names })
}

/// The text of an expression over this catalogue.
pub fn written(expression: &Expression, names: &Names, catalogue: Catalogue<'_>) -> String {
    expression.written(&Spelling::new(names, catalogue))
}

/// The axiom of this catalogue that has these sides: the one that is said, or else the first whose
/// sides are equal to them.
pub fn in_force(
    (left, right): &(Expression, Expression),
    catalogue: Catalogue<'_>,
) -> Option<Axiom> {
    let draft = Draft::of(catalogue);
    let (left, right) = (draft.find(left)?, draft.find(right)?);
    let axiom = draft.in_force(Axiom { left, right });
    draft.axioms.contains(&axiom).then_some(axiom)
}

/// A catalogue that has the records of some axioms, and these axioms.
#[derive(Clone, Debug, PartialEq, Eq)]
pub struct Extended {
    /// The catalogue's bytes: the records, role axioms and axioms as before, and new composites at
    /// the end.
    pub catalogue: Vec<u8>,
    /// The names as before; new composites have none.
    pub names: Names,
    /// The axioms by number, in order. Where an equal one is in the catalogue it is that one.
    pub axioms: Vec<Axiom>,
}

/// Adds to a catalogue the composites that some axioms over it need and that it lacks, or says
/// which limit that passes. The axioms themselves are not added.
pub fn extended(
    catalogue: Catalogue<'_>,
    names: &Names,
    axioms: &[(Expression, Expression)],
) -> Result<Extended, Failure> {
    let mut draft = Draft::of(catalogue);
    let mut numbered = vec![];
    for (left, right) in axioms {
        let left = draft.find_or_add(left);
        let right = draft.find_or_add(right);
        numbered.push(draft.in_force(Axiom { left, right }));
    }
    let mut names = names.clone();
    names.concepts.resize(draft.concepts(), None);
    let built = draft.build().or_else(|_| {
        // With the axioms, so that what they need counts.
        draft.axioms.extend(&numbered);
        built(&draft, &names)
    });
    Ok(Extended {
        catalogue: built?,
        names,
        axioms: numbered,
    })
}
