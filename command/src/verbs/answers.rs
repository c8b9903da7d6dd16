//! Answers from a state.

use std::io::{BufRead, BufReader};

use girvotal::{Concept, Question, Refusal, Row};

use super::{failed, in_argument, lines, listed, nowhere, read_state};
use crate::arguments::Given;
use crate::failure::Failure;
use crate::files;
use crate::json::Json;
use crate::state::State;
use crate::text::{self, Expression, Reader};
use crate::{Report, Streams};

/// The record of an expression: of those equal to it, the first that occurs.
fn record(expression: &Expression, state: &State, reader: &Reader) -> Result<Concept, Failure> {
    let catalogue = state.site.catalogue();
    for candidate in reader.candidates(expression) {
        match state.site.lookup(candidate, candidate) {
            Ok(_) => return Ok(candidate),
            Err(Refusal {
                question: Question::Occurs,
                ..
            }) => {}
            Err(refusal) => return Err(refusal.into()),
        }
    }
    Err(nowhere(&text::written(expression, &state.names, catalogue)))
}

/// The record that an argument names.
fn resolve(source: &str, state: &State, reader: &Reader) -> Result<Concept, Failure> {
    let expression = reader.expression(source);
    let expression = expression.map_err(|faults| in_argument(source, faults))?;
    record(&expression, state, reader)
}

/// `lookup STATE A B`, `lookup STATE -`
pub fn lookup(given: &Given, streams: &mut Streams<'_>) -> Result<Report, Failure> {
    if given.operands() == 2 {
        return pairs(given, streams);
    }
    let state = read_state(given.operand(0), streams)?;
    let reader = state.reader();
    let first = resolve(given.text(1)?, &state, &reader)?;
    let second = resolve(given.text(2)?, &state, &reader)?;
    let yes = state.site.lookup(first, second)?;
    Ok(Report {
        status: if yes { 0 } else { 1 },
        text: answer(yes).into(),
        json: Json::Object(vec![("answer", yes.into())]),
    })
}

fn answer(yes: bool) -> &'static str {
    match yes {
        true => "yes\n",
        false => "no\n",
    }
}

/// Answers the pairs of standard input as they come, a line each. What can't be answered is told on
/// standard error, with `wrong` or `refused` in its place, and gives the exit status.
fn pairs(given: &Given, streams: &mut Streams<'_>) -> Result<Report, Failure> {
    if given.operand(1) != "-" || files::is_stream(given.operand(0)) {
        return Err(Failure::Usage(
            "lookup takes STATE A B; usage: girvotal lookup STATE A B | STATE -".into(),
        ));
    }
    let state = read_state(given.operand(0), streams)?;
    let reader = state.reader();
    let as_json = given.has("--json");
    let mut status = 0;
    for (line, number) in BufReader::new(&mut *streams.input).split(b'\n').zip(1..) {
        let line =
            line.map_err(|error| files::cannot("read", "standard input".as_ref(), &error))?;
        let (text, json) = match pair(&line, number, &state, &reader) {
            Ok(None) => continue,
            Ok(Some(yes)) => (answer(yes), Json::Object(vec![("answer", yes.into())])),
            Err(failure) => {
                status = status.max(failure.status());
                if !as_json {
                    let _ = streams.errors.write_all(failure.to_string().as_bytes());
                }
                let refused = matches!(failure, Failure::Refused { .. });
                let text = if refused { "refused\n" } else { "wrong\n" };
                (text, failure.json())
            }
        };
        let told = match as_json {
            true => format!("{json}\n"),
            false => text.to_owned(),
        };
        files::put(streams.output, told.as_bytes())?;
    }
    Ok(Report {
        status,
        text: String::new(),
        json: Json::Nothing,
    })
}

/// The answer to a line: `A < B`, or A and B parted by a tab, as they stand on a command line. None
/// to an empty one.
fn pair(
    line: &[u8],
    number: usize,
    state: &State,
    reader: &Reader,
) -> Result<Option<bool>, Failure> {
    let wrong = |message: &str| {
        let message = message.to_owned();
        let fault = text::Fault {
            line: number,
            column: 1,
            message,
        };
        failed("-".into(), text::Failure::Faults(vec![fault]))
    };
    let line = std::str::from_utf8(line).map_err(|_| wrong("not UTF-8; write it so"))?;
    let line = line.trim_end_matches('\r');
    let (first, second) = match line.split_once('\t') {
        _ if line.trim().is_empty() => return Ok(None),
        Some((first, second)) => (
            resolve(first, state, reader)?,
            resolve(second, state, reader)?,
        ),
        None => {
            let axioms = reader.axioms(line);
            match &axioms.map_err(|faults| in_argument(line, faults))?[..] {
                [(first, second)] => (
                    record(first, state, reader)?,
                    record(second, state, reader)?,
                ),
                _ => return Err(wrong("`=` is two pairs; write `A < B`")),
            }
        }
    };
    Ok(Some(state.site.lookup(first, second)?))
}

/// `list STATE B [--direct]`
pub fn list(given: &Given, streams: &mut Streams<'_>) -> Result<Report, Failure> {
    let state = read_state(given.operand(0), streams)?;
    let second = resolve(given.text(1)?, &state, &state.reader())?;
    let mut kinds = state.site.list(second)?;
    if given.has("--direct") {
        let equal = state.site.row(second)?;
        kinds.retain(|&kind| !equal.contains(kind));
        let rows = rows(&state, &kinds)?;
        kinds = extreme(&rows, |kind, other| (kind, other));
    }
    Ok(kinds_told(&state, &kinds))
}

/// `above STATE A [--direct]`
pub fn above(given: &Given, streams: &mut Streams<'_>) -> Result<Report, Failure> {
    let state = read_state(given.operand(0), streams)?;
    let first = resolve(given.text(1)?, &state, &state.reader())?;
    let row = state.site.row(first)?;
    let mut kinds = state.kinds();
    kinds.retain(|&kind| row.contains(kind));
    if given.has("--direct") {
        let mut rows = rows(&state, &kinds)?;
        rows.retain(|(_, row)| !row.contains(first));
        kinds = extreme(&rows, |kind, other| (other, kind));
    }
    Ok(kinds_told(&state, &kinds))
}

/// A kind, and the row of the concepts above it.
type Kind<'s> = (Concept, Row<'s>);

/// Some kinds with their rows.
fn rows<'s>(state: &'s State, kinds: &[Concept]) -> Result<Vec<Kind<'s>>, Failure> {
    let row = |&kind: &Concept| Ok((kind, state.site.row(kind)?));
    kinds.iter().map(row).collect()
}

/// Of some kinds those that have no other of them beyond, but for equal ones: `ordered` says which
/// of a kind and another is the lower one if that is beyond.
fn extreme<'k>(
    kinds: &'k [Kind<'k>],
    ordered: fn(&'k Kind<'k>, &'k Kind<'k>) -> (&'k Kind<'k>, &'k Kind<'k>),
) -> Vec<Concept> {
    let beyond = |kind, other| {
        let ((lower, above), (upper, beyond)) = ordered(kind, other);
        above.contains(*upper) && !beyond.contains(*lower)
    };
    let last = |kind: &&'k Kind<'k>| !kinds.iter().any(|other| beyond(*kind, other));
    kinds.iter().filter(last).map(|(kind, _)| *kind).collect()
}

/// The names of some kinds, one a line.
fn kinds_told(state: &State, kinds: &[Concept]) -> Report {
    let names: Vec<&str> = kinds.iter().map(|&kind| state.name(kind)).collect();
    let json = Json::Object(vec![("kinds", listed(&names))]);
    Report::done(lines(&names), json)
}
