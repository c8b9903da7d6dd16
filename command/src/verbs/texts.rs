//! Texts, catalogues and states, made of each other.

use std::ffi::OsStr;

use girvotal::{Catalogue, Record};

use super::format::Format;
use super::lint::Lint;
use super::{any, compiled_text, count, failed, read_any, read_state, read_text, shown};
use crate::arguments::Given;
use crate::failure::Failure;
use crate::files::{self, Target};
use crate::json::Json;
use crate::state::State;
use crate::text::{self, Compiled};
use crate::{Report, Streams};

/// How much a catalogue has.
pub struct Amounts {
    kinds: usize,
    roles: usize,
    concepts: usize,
    axioms: usize,
}

impl Amounts {
    /// Of a catalogue.
    pub fn of(catalogue: Catalogue<'_>) -> Amounts {
        let atomic = catalogue
            .records()
            .filter(|record| *record == Record::Atomic);
        Amounts {
            kinds: atomic.count(),
            roles: catalogue.roles(),
            concepts: catalogue.concepts(),
            axioms: catalogue.axioms().len(),
        }
    }

    /// In words.
    pub fn text(&self) -> String {
        let parts = [
            count(self.kinds, "kind"),
            count(self.roles, "role"),
            count(self.concepts, "concept"),
            count(self.axioms, "axiom"),
        ];
        parts.join(", ")
    }

    fn fields(&self) -> Vec<(&'static str, Json)> {
        vec![
            ("kinds", self.kinds.into()),
            ("roles", self.roles.into()),
            ("concepts", self.concepts.into()),
            ("axioms", self.axioms.into()),
        ]
    }
}

/// What is told where a catalogue has been checked or made.
fn told(catalogue: &[u8]) -> Result<Report, Failure> {
    let amounts = Amounts::of(Catalogue::new(catalogue)?);
    let text = format!("{}\n", amounts.text());
    Ok(Report::done(text, Json::Object(amounts.fields())))
}

/// Makes the file of `-o`, which must not be the one that is read, nor hold something else unless
/// that is forced. Where it is standard output, nothing else goes there.
pub fn made(
    given: &Given,
    (format, parts): (Format, &[&[u8]]),
    report: Report,
    streams: &mut Streams<'_>,
) -> Result<Report, Failure> {
    let Some(path) = given.values("-o").next() else {
        return Ok(report);
    };
    if files::is_stream(path) {
        parts
            .iter()
            .try_for_each(|part| files::put(streams.output, part))?;
        return Ok(Report::done(String::new(), Json::Nothing));
    }
    if files::same(given.operand(0), path) {
        return Err(Failure::Usage(format!(
            "{} would be replaced by its own output; name another file",
            shown(path)
        )));
    }
    let target = Target::of(path, given.wait()?)?;
    let old = match given.has("--force") {
        true => None,
        false => target.old()?,
    };
    if let Some(found) = old.and_then(|old| format.replaces(&old)) {
        return Err(Failure::Usage(format!(
            "{} is {}, and would be replaced by {}; name another file, or add `--force`",
            shown(path),
            found.what(),
            format.what()
        )));
    }
    target.save(parts, streams)?;
    Ok(report)
}

/// `check TEXT [--lint]`
pub fn check(given: &Given, streams: &mut Streams<'_>) -> Result<Report, Failure> {
    let path = given.operand(0);
    let bytes = files::read(path, streams)?;
    let compiled = compiled_text(path, &bytes)?;
    let amounts = Amounts::of(Catalogue::new(&compiled.catalogue)?);
    let (mut text, mut fields) = (format!("{}\n", amounts.text()), amounts.fields());
    if given.has("--lint") {
        let lint = Lint::of(&compiled, &bytes)?;
        text += &lint.text();
        fields.extend(lint.fields());
    }
    Ok(Report::done(text, Json::Object(fields)))
}

/// `compile TEXT -o CATALOGUE`
pub fn compile(given: &Given, streams: &mut Streams<'_>) -> Result<Report, Failure> {
    let Compiled { catalogue, .. } = read_text(given.operand(0), streams)?;
    let report = told(&catalogue)?;
    made(given, (Format::Catalogue, &[&catalogue]), report, streams)
}

/// `text FILE [--exact | --owl | --split]`
pub fn text(given: &Given, streams: &mut Streams<'_>) -> Result<Report, Failure> {
    let options = ["--exact", "--owl", "--split"].map(|option| given.has(option));
    let [exact, owl, split] = options;
    if options.iter().filter(|&&option| option).count() > 1 {
        return Err(Failure::Usage(
            "only one of `--exact`, `--owl` and `--split` can be given; leave the others out"
                .into(),
        ));
    }
    let Compiled { catalogue, names } = match split {
        true => read_split(given.operand(0), streams)?,
        false => read_any(given.operand(0), streams)?,
    };
    let catalogue = Catalogue::new(&catalogue)?;
    let text = match owl {
        true => text::owl(catalogue, &names),
        false => text::print(catalogue, &names, exact),
    };
    let json = Json::Object(vec![("text", text.as_str().into())]);
    Ok(Report::done(text, json))
}

/// A file with right sides split; a text also where it is over the limits without.
fn read_split(path: &OsStr, streams: &mut Streams<'_>) -> Result<Compiled, Failure> {
    let bytes = files::read(path, streams)?;
    let split = match Format::of(&bytes) {
        Format::Catalogue | Format::State => text::split(&any(path, bytes)?),
        _ => text::compile_split(&bytes),
    };
    split.map_err(|failure| failed(shown(path), failure))
}

/// `classify FILE -o STATE`
pub fn classify(given: &Given, streams: &mut Streams<'_>) -> Result<Report, Failure> {
    let (state, counts) = State::classify(read_any(given.operand(0), streams)?)?;
    let amounts = Amounts::of(state.site.catalogue());
    let (pairs, links) = (count(counts.pairs, "pair"), count(counts.links, "link"));
    let text = format!("{}: {pairs}, {links}\n", amounts.text());
    let mut fields = amounts.fields();
    fields.extend([
        ("pairs", counts.pairs.into()),
        ("links", counts.links.into()),
    ]);
    let report = Report::done(text, Json::Object(fields));
    made(
        given,
        (Format::State, &state.parts().all()),
        report,
        streams,
    )
}

/// `write STATE -o CATALOGUE`
pub fn write(given: &Given, streams: &mut Streams<'_>) -> Result<Report, Failure> {
    let catalogue = read_state(given.operand(0), streams)?.site.write()?;
    let report = told(&catalogue)?;
    made(given, (Format::Catalogue, &[&catalogue]), report, streams)
}
