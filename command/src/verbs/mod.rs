//! The verbs: a table of them, what each does, and what they share.

mod answers;
mod changes;
mod diff;
mod explain;
mod format;
mod lint;
mod pairs;
mod query;
mod table;
mod texts;
mod tree;
mod update;

pub use table::{VERBS, Verb};

use std::ffi::OsStr;

use girvotal::{Catalogue, Question};

use crate::Streams;
use crate::failure::Failure;
use crate::files;
use crate::json::Json;
use crate::state::{MAGIC, State};
use crate::text::{self, Compiled, Fault, Names};
use format::Format;

/// A path as it is shown.
fn shown(path: &OsStr) -> String {
    path.to_string_lossy().into_owned()
}

/// A text's bytes, compiled.
fn compiled(path: &OsStr, bytes: &[u8]) -> Result<Compiled, Failure> {
    text::compile(bytes).map_err(|failure| failed(shown(path), failure))
}

/// The failure of a text, with its file.
fn failed(file: String, failure: text::Failure) -> Failure {
    match failure {
        text::Failure::Faults(faults) => Failure::Faults { file, faults },
        text::Failure::Refused { refusal, detail } => Failure::refused(refusal, &detail),
    }
}

/// A state's bytes, read.
fn state(path: &OsStr, bytes: &[u8]) -> Result<State, Failure> {
    State::read(bytes).map_err(|wrong| {
        let path = shown(path);
        Failure::File(match bytes.starts_with(&MAGIC) {
            true => format!("{path} is damaged: {wrong}; classify its text again"),
            false => format!("{path} is no state: {wrong}; `girvotal classify` makes one"),
        })
    })
}

/// A state's file, read.
fn read_state(path: &OsStr, streams: &mut Streams<'_>) -> Result<State, Failure> {
    state(path, &files::read(path, streams)?)
}

/// A text's file, compiled.
fn read_text(path: &OsStr, streams: &mut Streams<'_>) -> Result<Compiled, Failure> {
    let bytes = files::read(path, streams)?;
    compiled_text(path, &bytes)
}

/// The bytes of a file that must be a text, compiled.
fn compiled_text(path: &OsStr, bytes: &[u8]) -> Result<Compiled, Failure> {
    match Format::of(bytes) {
        format @ (Format::Catalogue | Format::State) => Err(Failure::Usage(format!(
            "{path} is {}, and a text is meant here; `girvotal text {path}` prints one",
            format.what(),
            path = shown(path)
        ))),
        _ => compiled(path, bytes),
    }
}

/// A file that is a text, a catalogue or a state.
fn read_any(path: &OsStr, streams: &mut Streams<'_>) -> Result<Compiled, Failure> {
    any(path, files::read(path, streams)?)
}

/// The catalogue and names of a text's, a catalogue's or a state's bytes.
fn any(path: &OsStr, bytes: Vec<u8>) -> Result<Compiled, Failure> {
    match Format::of(&bytes) {
        Format::Catalogue => {
            let catalogue = Catalogue::new(&bytes);
            let checked = catalogue.map_err(|refusal| Failure::refused(refusal, &shown(path)))?;
            let names = Names::numbered(checked);
            let catalogue = bytes;
            Ok(Compiled { catalogue, names })
        }
        Format::State => {
            let State { names, site } = state(path, &bytes)?;
            let catalogue = site.catalogue().bytes().to_vec();
            Ok(Compiled { catalogue, names })
        }
        _ => compiled(path, &bytes),
    }
}

/// The same, classified; a state as it is.
fn read_classified(path: &OsStr, streams: &mut Streams<'_>) -> Result<State, Failure> {
    let bytes = files::read(path, streams)?;
    match Format::of(&bytes) {
        Format::State => state(path, &bytes),
        _ => Ok(State::classify(any(path, bytes)?)?.0),
    }
}

/// Errors in an argument that is an expression or an axiom.
fn in_argument(source: &str, faults: Vec<Fault>) -> Failure {
    failed(format!("`{source}`"), text::Failure::Faults(faults))
}

/// The refusal of an expression that is in no axiom in force.
fn nowhere(written: &str) -> Failure {
    Failure::Refused {
        question: Question::Occurs,
        sentence: format!(
            "`{written}` is in no axiom in force; `girvotal query STATE '{written}'` says which \
             kinds meet it"
        ),
    }
}

/// Names, one a line.
fn lines(names: &[&str]) -> String {
    names.iter().map(|name| format!("{name}\n")).collect()
}

/// `1 axiom`, `2 axioms`, `2 entries`.
fn count(number: usize, what: &str) -> String {
    match number {
        1 => format!("1 {what}"),
        _ => match what.strip_suffix('y') {
            Some(stem) => format!("{number} {stem}ies"),
            None => format!("{number} {what}s"),
        },
    }
}

/// A list of names for an object.
fn listed(names: &[&str]) -> Json {
    names.iter().copied().collect()
}
