//! The kinds of a state as a picture: a tree in text, a graph for Graphviz, or a page.

mod arranged;
mod dot;
mod html;

use std::ffi::OsStr;
use std::path::Path;

use super::format::Format;
use super::{count, listed, read_state, texts};
use crate::arguments::Given;
use crate::clock;
use crate::failure::Failure;
use crate::files;
use crate::json::Json;
use crate::state::State;
use crate::{Report, Streams};
pub use arranged::Tree;
use arranged::{Entry, Place};
use html::Made;

/// `tree STATE [--dot | --html] [-o FILE]`
pub fn tree(given: &Given, streams: &mut Streams<'_>) -> Result<Report, Failure> {
    let (as_dot, as_html) = (given.has("--dot"), given.has("--html"));
    if as_dot && as_html {
        return Err(Failure::Usage(
            "only one of `--dot` and `--html` can be given; leave one out".into(),
        ));
    }
    let state = read_state(given.operand(0), streams)?;
    let tree = Tree::of(&state)?;
    let (format, picture) = match (as_dot, as_html) {
        (true, _) => (Format::Graph, dot::graph(&tree)),
        (_, true) => (
            Format::Page,
            html::page(&tree, &made(given.operand(0), &state)),
        ),
        _ => (Format::Tree, text(&tree)),
    };
    let mut fields = vec![("entries", entries(&tree))];
    if given.has("-o") {
        let made = Report::done(amounts(&tree) + "\n", Json::Object(fields));
        return texts::made(given, (format, &[picture.as_bytes()]), made, streams);
    }
    if as_dot || as_html {
        fields.push(("text", picture.as_str().into()));
    }
    Ok(Report::done(picture, Json::Object(fields)))
}

/// What a page of a state is called: the file's name without its ending.
fn title(path: &OsStr) -> String {
    match Path::new(path).file_stem() {
        Some(name) if !files::is_stream(path) => name.to_string_lossy().into_owned(),
        _ => "Kinds".into(),
    }
}

/// What a page of a state is made of, now.
fn made(path: &OsStr, state: &State) -> Made {
    let source = match files::is_stream(path) {
        true => "standard input".into(),
        false => Path::new(path)
            .file_name()
            .unwrap_or(path)
            .to_string_lossy()
            .into_owned(),
    };
    Made {
        title: title(path),
        source,
        amounts: texts::Amounts::of(state.site.catalogue()).text(),
        minute: clock::minute(),
    }
}

/// How many kinds there are, in how many entries.
fn amounts(tree: &Tree<'_>) -> String {
    let (kinds, entries) = (tree.kinds(), tree.entries().len());
    format!("{}, {}", count(kinds, "kind"), count(entries, "entry"))
}

/// The tree in text: a line for each place.
fn text(tree: &Tree<'_>) -> String {
    let line = |place: &Place| {
        let indent = "  ".repeat(place.depth);
        let names = tree.entry(place.entry).names.join(" = ");
        let again = if place.first { "" } else { " ^" };
        format!("{indent}{names}{again}\n")
    };
    tree.places().iter().map(line).collect()
}

/// The entries as objects, in the order of their first places.
fn entries(tree: &Tree<'_>) -> Json {
    let first_name = |&above: &usize| tree.entry(above).names[0];
    let object = |entry: &Entry<'_>| {
        let above: Vec<&str> = entry.above.iter().map(first_name).collect();
        Json::Object(vec![
            ("kinds", listed(&entry.names)),
            ("above", listed(&above)),
            ("below", entry.kinds_below.into()),
            ("used", entry.used.into()),
        ])
    };
    let firsts = tree.places().iter().filter(|place| place.first);
    let objects = firsts.map(|place| object(tree.entry(place.entry)));
    objects.collect()
}
