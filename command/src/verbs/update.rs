//! A state brought in step with a text.

use girvotal::{AXIOMS_MOST, Axiom, Catalogue};

use super::pairs::Pairs;
use super::{changes, count, read_text};
use crate::arguments::Given;
use crate::failure::Failure;
use crate::files;
use crate::json::Json;
use crate::state::State;
use crate::text::Compiled;
use crate::{Report, Streams};

/// `update STATE TEXT [--dry-run]`
pub fn update(given: &Given, streams: &mut Streams<'_>) -> Result<Report, Failure> {
    let (path, text) = (given.operand(0), given.operand(1));
    if files::is_stream(path) && files::is_stream(text) {
        return Err(Failure::Usage(
            "only one of STATE and TEXT can be `-`; name the other's file".into(),
        ));
    }
    // First the text, which may be slow to come: no lock is held meanwhile.
    let wanted = read_text(text, streams)?;
    let (target, old) = changes::begun(given, streams)?;
    let (new, moved) = follow(&old, wanted)?;
    let report = told(&old, &new, moved.as_ref())?;
    if let Some(target) = target {
        target.save(&new.parts().all(), streams)?;
    }
    Ok(report)
}

/// The axioms that one change withdraws and adds.
struct Moved {
    withdrawn: Vec<Axiom>,
    added: Vec<Axiom>,
}

impl Moved {
    /// From one catalogue to another of the same records, if the lists are not too long.
    fn between(old: Catalogue<'_>, new: Catalogue<'_>) -> Option<Moved> {
        let same = old.roles() == new.roles()
            && old.records().eq(new.records())
            && old.inclusions().eq(new.inclusions())
            && old.compositions().eq(new.compositions());
        let fits = |axioms: &Vec<Axiom>| axioms.len() <= AXIOMS_MOST;
        let withdrawn = Some(without(old, new)).filter(fits)?;
        let added = Some(without(new, old)).filter(fits)?;
        same.then_some(Moved { withdrawn, added })
    }
}

/// The axioms of one catalogue that another lacks.
fn without(one: Catalogue<'_>, other: Catalogue<'_>) -> Vec<Axiom> {
    let others: Vec<Axiom> = other.axioms().collect();
    let lacking = |axiom: &Axiom| others.binary_search(axiom).is_err();
    one.axioms().filter(lacking).collect()
}

/// What one change withdraws and adds, in words and as fields.
pub fn one_change(withdrawn: usize, added: usize) -> (String, Vec<(&'static str, Json)>) {
    let out = count(withdrawn, "axiom");
    let fields = vec![("withdrawn", withdrawn.into()), ("added", added.into())];
    (format!("one change: {out} out, {added} in"), fields)
}

/// The state of the wanted catalogue: by one change where that will do, else classified.
fn follow(old: &State, wanted: Compiled) -> Result<(State, Option<Moved>), Failure> {
    let moved = Moved::between(old.site.catalogue(), Catalogue::new(&wanted.catalogue)?);
    let Some(moved) = moved else {
        return Ok((State::classify(wanted)?.0, None));
    };
    let (names, site) = (wanted.names, old.site.clone());
    let mut new = State { names, site };
    new.change(&moved.withdrawn, &moved.added)?;
    Ok((new, Some(moved)))
}

/// The pairs of kinds lost and gained, and how it was done.
fn told(old: &State, new: &State, moved: Option<&Moved>) -> Result<Report, Failure> {
    let pairs = Pairs::between(old, new)?;
    let (how, more) = match moved {
        Some(Moved { withdrawn, added }) => one_change(withdrawn.len(), added.len()),
        None => ("classified again".into(), vec![]),
    };
    let text = format!("{}; {how}\n", pairs.text());
    let mut fields = pairs.fields();
    fields.push(("classified", moved.is_none().into()));
    fields.extend(more);
    Ok(Report::done(text, Json::Object(fields)))
}
