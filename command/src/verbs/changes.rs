//! Axioms withdrawn and added.

use std::ffi::OsStr;

use girvotal::{Axiom, Question, Refusal};

use super::pairs::Pairs;
use super::update::one_change;
use super::{count, failed, in_argument, listed, read_state};
use crate::arguments::Given;
use crate::failure::Failure;
use crate::files::{self, Target};
use crate::json::Json;
use crate::not_utf8;
use crate::state::{Difference, State};
use crate::text::{self, Compiled, Expression, Extended};
use crate::{Report, Streams};

/// An axiom as it is given: its left and its right side.
type Side = (Expression, Expression);

/// `change STATE [--out 'A < B'].. [--in 'A < B']..`
pub fn change(given: &Given, streams: &mut Streams<'_>) -> Result<Report, Failure> {
    let (out, new) = (given.values("--out"), given.values("--in"));
    changed(given, out.collect(), new.collect(), streams)
}

/// `add STATE 'A < B'`, `add STATE 'kind NAME'`
pub fn add(given: &Given, streams: &mut Streams<'_>) -> Result<Report, Failure> {
    changed(given, vec![], vec![given.operand(1)], streams)
}

/// `withdraw STATE 'A < B'`
pub fn withdraw(given: &Given, streams: &mut Streams<'_>) -> Result<Report, Failure> {
    changed(given, vec![given.operand(1)], vec![], streams)
}

/// The state that is to be changed: no other run changes it before the target is saved or dropped.
/// In a dry run there is no target.
pub fn begun(given: &Given, streams: &mut Streams<'_>) -> Result<(Option<Target>, State), Failure> {
    let path = given.operand(0);
    if given.has("--dry-run") {
        return Ok((None, read_state(path, streams)?));
    }
    if files::is_stream(path) {
        return Err(Failure::Usage(
            "a state that is changed is a file, not `-`; name one".into(),
        ));
    }
    let target = Target::of_file(path, given.wait()?)?;
    let state = read_state(path, streams)?;
    Ok((Some(target), state))
}

fn changed(
    given: &Given,
    out: Vec<&OsStr>,
    new: Vec<&OsStr>,
    streams: &mut Streams<'_>,
) -> Result<Report, Failure> {
    let (target, old) = begun(given, streams)?;
    let mut state = old.clone();
    let (entered, new) = entered(&new, &mut state)?;
    let (out, new) = (sides(&out, &state)?, sides(&new, &state)?);
    let withdrawn = in_force(&out, &state)?;
    let added = recorded(&new, &mut state)?;
    let difference = state
        .change(&withdrawn, &added)
        .map_err(|refusal| blamed(refusal, &withdrawn, &added, &out, &new, &state))?;
    let (mut how, more) = one_change(withdrawn.len(), added.len());
    if entered > 0 {
        how += &format!(", {} entered", count(entered, "kind"));
    }
    let pairs = Pairs::between(&old, &state)?;
    let mut text = format!("{}; {how}\n", pairs.text());
    let mut fields = pairs.fields();
    fields.extend(more);
    fields.push(("entered", entered.into()));
    if given.has("--touched") {
        touched(&difference, &state, &mut text, &mut fields);
    }
    if let Some(target) = target {
        target.save(&state.parts().all(), streams)?;
    }
    Ok(Report::done(text, Json::Object(fields)))
}

/// Enters the kinds that some arguments declare in a state, which is classified with them. How many
/// there are, and the other arguments.
fn entered<'a>(
    arguments: &[&'a OsStr],
    state: &mut State,
) -> Result<(usize, Vec<&'a OsStr>), Failure> {
    let (mut count, mut others) = (0, Vec::new());
    for &argument in arguments {
        let source = argument.to_str().ok_or_else(|| not_utf8(argument))?;
        let catalogue = state.site.catalogue();
        let kinds = state.reader().kinds(source);
        let kinds = kinds.map_err(|faults| in_argument(source, faults))?;
        match kinds.as_slice() {
            [] => others.push(argument),
            kinds => {
                let more = text::entered(catalogue, &state.names, kinds);
                let more = more.map_err(|failure| failed(String::new(), failure))?;
                *state = State::classify(more)?.0;
                count += kinds.len();
            }
        }
    }
    Ok((count, others))
}

/// The axioms of some arguments.
fn sides(arguments: &[&OsStr], state: &State) -> Result<Vec<Side>, Failure> {
    let reader = state.reader();
    let mut all = Vec::new();
    for argument in arguments {
        let source = argument.to_str().ok_or_else(|| not_utf8(argument))?;
        let axioms = reader.axioms(source);
        all.extend(axioms.map_err(|faults| in_argument(source, faults))?);
    }
    Ok(all)
}

/// The axioms to withdraw, which must be in force.
fn in_force(sides: &[Side], state: &State) -> Result<Vec<Axiom>, Failure> {
    let find = |side| {
        let question = Question::NotInForce;
        let refusal = Refusal {
            question,
            record: 0,
        };
        let missing = || Failure::refused(refusal, &written(side, state));
        text::in_force(side, state.site.catalogue()).ok_or_else(missing)
    };
    sides.iter().map(find).collect()
}

/// The axioms to add, in a catalogue that has all their composites: where one is new, that
/// catalogue is classified, with the axioms that are in force.
fn recorded(sides: &[Side], state: &mut State) -> Result<Vec<Axiom>, Failure> {
    let before = state.site.catalogue().bytes();
    let Extended {
        catalogue,
        names,
        axioms,
    } = text::extended(state.site.catalogue(), &state.names, sides)
        .map_err(|failure| failed(String::new(), failure))?;
    if catalogue != before {
        *state = State::classify(Compiled { catalogue, names })?.0;
    }
    Ok(axioms)
}

/// A refused change, with the axiom at fault.
fn blamed(
    refusal: Refusal,
    withdrawn: &[Axiom],
    added: &[Axiom],
    out: &[Side],
    new: &[Side],
    state: &State,
) -> Failure {
    let axioms: Vec<&Axiom> = withdrawn.iter().chain(added).collect();
    let sides: Vec<&Side> = out.iter().chain(new).collect();
    let in_force: Vec<Axiom> = state.site.catalogue().axioms().collect();
    let faulty = |i: &usize| match refusal.question {
        Question::Twice => axioms[..*i].contains(&axioms[*i]),
        Question::InForce => *i >= withdrawn.len() && in_force.contains(axioms[*i]),
        _ => false,
    };
    let fault = (0..axioms.len()).find(faulty);
    let detail = fault.map(|i| written(sides[i], state)).unwrap_or_default();
    Failure::refused(refusal, &detail)
}

/// An axiom as text.
fn written((left, right): &Side, state: &State) -> String {
    let side = |side| text::written(side, &state.names, state.site.catalogue());
    format!("`{} < {}`", side(left), side(right))
}

/// Tells the counts of a change, of pairs and links, and the kinds touched.
fn touched(
    difference: &Difference,
    state: &State,
    text: &mut String,
    fields: &mut Vec<(&'static str, Json)>,
) {
    let Difference {
        removed,
        returned,
        gained,
        touched,
    } = difference;
    let names: Vec<&str> = touched.iter().map(|&kind| state.name(kind)).collect();
    let quoted: Vec<String> = names.iter().map(|name| text::quoted(name)).collect();
    let kinds = match quoted.is_empty() {
        true => "no kind".into(),
        false => quoted.join(", "),
    };
    *text += &format!("removed {removed}, returned {returned}, gained {gained}\n");
    *text += &format!("touched: {kinds}\n");
    let counts = Json::Object(vec![
        ("removed", (*removed).into()),
        ("returned", (*returned).into()),
        ("gained", (*gained).into()),
    ]);
    fields.extend([("counts", counts), ("touched", listed(&names))]);
}
