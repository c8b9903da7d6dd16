//! Catalogue to text.

use std::collections::HashSet;
use std::ops::Range;

use girvotal::{Axiom, Catalogue, Concept, Record, Role};

use super::expression::{Shape, write};
use super::names::{Names, Spelling};

/// The column at which lists of names are broken.
const WIDTH: usize = 100;

/// The words, one for each part, above which a composite is long.
const LONG: usize = 100;

/// The text of a catalogue.
///
/// If `exact`, each composite has a `let`, and the text compiles to the same bytes, but for repeated
/// role axioms. Else what can be written out is: a composite has a `let` if it has a name, or if it is used more than once and
/// a composite is written out in it; one without a name that is in no axiom is left out. Either
/// text is linear in the catalogue.
///
/// What has no name gets one: `k`, `c` or `r` for a kind, composite or role, and its number, with
/// `_` appended until it is free.
pub fn print(catalogue: Catalogue<'_>, names: &Names, exact: bool) -> String {
    let printer = Printer::new(catalogue, names, exact);
    let all = 0..printer.records.len();
    let (roles, role_axioms) = (printer.roles(), printer.role_axioms());
    let mut text = match exact {
        true => roles + &role_axioms + &printer.in_order(),
        false => printer.kinds(all.clone()) + &roles + &role_axioms + &printer.lets(all),
    };
    for &(axiom, sign) in &printer.lines {
        text += &format!("{}\n", printer.statement(axiom, sign));
    }
    text
}

/// An axiom as a line of a catalogue's text.
pub struct Line {
    /// The axiom; of two that `=` joins, the one that it reads as.
    pub axiom: Axiom,
    /// Whether its converse is said too, by `=`.
    pub both: bool,
    /// The line.
    pub text: String,
}

/// The axioms as lines of that text that can stand alone: a composite without a name is written out,
/// unless it is long.
pub fn statements(catalogue: Catalogue<'_>, names: &Names) -> Vec<Line> {
    let mut printer = Printer::new(catalogue, names, false);
    printer.write_out(names);
    let statement = |&(axiom, sign): &(Axiom, char)| Line {
        axiom,
        both: sign == '=',
        text: printer.statement(axiom, sign),
    };
    printer.lines.iter().map(statement).collect()
}

/// Which records that text writes by name: kinds, and composites that have a `let` there.
pub(super) fn written_by_name(catalogue: Catalogue<'_>, names: &Names) -> Vec<bool> {
    Printer::new(catalogue, names, false).by_name
}

fn index(Concept(number): Concept) -> usize {
    usize::from(number)
}

/// The axioms by lines, with the sign between their sides. Unless `exact`, an axiom and its
/// converse are one line, with a kind at the left if there is one.
fn lines(catalogue: Catalogue<'_>, records: &[Record], exact: bool) -> Vec<(Axiom, char)> {
    let all: HashSet<Axiom> = catalogue.axioms().collect();
    let mut lines = vec![];
    for axiom in catalogue.axioms() {
        let Axiom { left, right } = axiom;
        let converse = Axiom {
            left: right,
            right: left,
        };
        if exact || left == right || !all.contains(&converse) {
            lines.push((axiom, '<'));
        } else if left < right {
            let [left, right] = [left, right].map(|side| records[index(side)] == Record::Atomic);
            lines.push((if right && !left { converse } else { axiom }, '='));
        }
    }
    lines
}

/// The concepts that a record is made of.
pub(crate) fn parts(record: Record) -> impl Iterator<Item = usize> {
    let parts = match record {
        Record::Atomic | Record::Top => [None, None],
        Record::Conjunction(left, right) => [Some(left), Some(right)],
        Record::Existential(_, part) => [Some(part), None],
    };
    parts.into_iter().flatten().map(index)
}

/// Which records are written by name: the kinds, and the composites that have a `let`.
fn by_name(records: &[Record], names: &Names, lines: &[(Axiom, char)]) -> Vec<bool> {
    let named = |number: usize| matches!(names.concepts.get(number), Some(Some(_)));
    let mut uses = vec![0; records.len()];
    for &(Axiom { left, right }, _) in lines {
        uses[index(left)] += 1;
        uses[index(right)] += 1;
    }
    // From the last on: parts have smaller numbers than their record.
    for (number, &record) in records.iter().enumerate().rev() {
        if uses[number] > 0 || named(number) {
            parts(record).for_each(|part| uses[part] += 1);
        }
    }
    let mut by_name: Vec<bool> = vec![];
    for (number, &record) in records.iter().enumerate() {
        let written_out = |part: usize| !by_name[part] && records[part] != Record::Top;
        let nested = parts(record).any(written_out);
        by_name.push(record == Record::Atomic || named(number) || nested && uses[number] > 1);
    }
    // No catalogue is without a concept.
    by_name[0] |= lines.is_empty() && !by_name.contains(&true);
    by_name
}

/// A statement that declares names, broken into lines of the width.
fn declaration<'a>(keyword: &str, names: impl Iterator<Item = &'a String>) -> String {
    let mut text = String::new();
    let mut column = 0;
    for name in names {
        let length = 2 + name.chars().count();
        if column > 0 && column + length <= WIDTH {
            text += ", ";
            column += length;
        } else {
            text += if column > 0 { "\n" } else { "" };
            text += keyword;
            text += " ";
            column = keyword.len() + length;
        }
        text += name;
    }
    text += if column > 0 { "\n" } else { "" };
    text
}

/// A catalogue and how its concepts and roles are written.
struct Printer<'a> {
    catalogue: Catalogue<'a>,
    records: Vec<Record>,
    /// The axioms by lines, with the sign between their sides.
    lines: Vec<(Axiom, char)>,
    by_name: Vec<bool>,
    spelling: Spelling,
}

impl<'a> Printer<'a> {
    fn new(catalogue: Catalogue<'a>, names: &Names, exact: bool) -> Printer<'a> {
        let records: Vec<Record> = catalogue.records().collect();
        let lines = lines(catalogue, &records, exact);
        let by_name = match exact {
            true => vec![true; records.len()],
            false => by_name(&records, names, &lines),
        };
        Printer {
            catalogue,
            records,
            lines,
            by_name,
            spelling: Spelling::new(names, catalogue),
        }
    }

    /// Writes out the composites without a name that are not long.
    fn write_out(&mut self, names: &Names) {
        let mut words: Vec<usize> = vec![];
        for (number, &record) in self.records.iter().enumerate() {
            let named = matches!(names.concepts.get(number), Some(Some(_)));
            let parts = parts(record).map(|part| words[part]);
            words.push(match named {
                true => 1,
                false => parts.fold(1, usize::saturating_add),
            });
            self.by_name[number] &= named || words[number] > LONG;
        }
    }

    /// The line of an axiom.
    fn statement(&self, Axiom { left, right }: Axiom, sign: char) -> String {
        format!("{} {sign} {}", self.side(left), self.side(right))
    }

    fn role(&self, Role(number): Role) -> &str {
        &self.spelling.roles[usize::from(number)]
    }

    /// The kinds among these records.
    fn kinds(&self, records: Range<usize>) -> String {
        let kinds = records.filter(|&number| self.records[number] == Record::Atomic);
        declaration("kind", kinds.map(|number| &self.spelling.concepts[number]))
    }

    fn roles(&self) -> String {
        declaration("role", self.spelling.roles.iter())
    }

    fn role_axioms(&self) -> String {
        let mut text = String::new();
        for inclusion in self.catalogue.inclusions() {
            let (within, around) = (self.role(inclusion.within), self.role(inclusion.around));
            text += &format!("{within} < {around}\n");
        }
        for composition in self.catalogue.compositions() {
            let (first, second) = (self.role(composition.first), self.role(composition.second));
            let result = self.role(composition.result);
            text += &format!("{first} then {second} < {result}\n");
        }
        text
    }

    /// The composites among these records that have a `let`.
    fn lets(&self, records: Range<usize>) -> String {
        let composite = |number: &usize| self.records[*number] != Record::Atomic;
        let lets = records
            .filter(|&number| self.by_name[number])
            .filter(composite);
        lets.map(|number| {
            let name = &self.spelling.concepts[number];
            let composite = write(self.written_out(number), |part| self.shape(part));
            format!("let {name} = {composite}\n")
        })
        .collect()
    }

    /// Every record in order: `kind` for those that follow each other, `let` for a composite.
    fn in_order(&self) -> String {
        let kind = |record: &Record| *record == Record::Atomic;
        let mut text = String::new();
        let mut at = 0;
        for run in self.records.chunk_by(|one, next| kind(one) && kind(next)) {
            let numbers = at..at + run.len();
            at = numbers.end;
            text += &match kind(&run[0]) {
                true => self.kinds(numbers),
                false => self.lets(numbers),
            };
        }
        text
    }

    fn side(&self, concept: Concept) -> String {
        write(self.shape(index(concept)), |part| self.shape(part))
    }

    fn shape(&self, number: usize) -> Shape<'_> {
        match self.by_name[number] {
            true => Shape::Word(&self.spelling.concepts[number]),
            false => self.written_out(number),
        }
    }

    /// A composite out of its parts.
    fn written_out(&self, number: usize) -> Shape<'_> {
        match self.records[number] {
            Record::Atomic => Shape::Word(&self.spelling.concepts[number]),
            Record::Top => Shape::Word("any"),
            Record::Conjunction(left, right) => Shape::And(index(left), index(right)),
            Record::Existential(role, part) => Shape::Some(self.role(role), index(part)),
        }
    }
}
