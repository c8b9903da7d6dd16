//! What a file holds, told apart by its bytes.

use girvotal::Catalogue;

use crate::state::MAGIC;

/// What a file holds.
#[derive(Clone, Copy, Debug, PartialEq, Eq)]
pub enum Format {
    /// A catalogue as text: a line declares something.
    Text,
    /// A catalogue's bytes: one of them is zero, as in no text but UTF-16.
    Catalogue,
    /// A state, by its magic.
    State,
    /// The page that `tree --html` makes.
    Page,
    /// The graph that `tree --dot` makes.
    Graph,
    /// A tree in text: each line a step deeper at most than the one before.
    Tree,
    /// Anything else.
    Other,
}

impl Format {
    /// What these bytes are.
    pub fn of(bytes: &[u8]) -> Format {
        let wide = bytes.starts_with(&[0xFF, 0xFE]) || bytes.starts_with(&[0xFE, 0xFF]);
        if bytes.starts_with(&MAGIC) {
            Format::State
        } else if bytes.contains(&0) && !wide {
            Format::Catalogue
        } else if bytes.starts_with(b"<!DOCTYPE html>") {
            Format::Page
        } else if bytes.starts_with(b"digraph kinds {") {
            Format::Graph
        } else {
            Format::of_text(&String::from_utf8_lossy(bytes))
        }
    }

    fn of_text(text: &str) -> Format {
        let word = |line: &str| line.split_whitespace().next().map(str::to_owned);
        let declares = |line| matches!(word(line).as_deref(), Some("kind" | "role" | "let"));
        let mut most = 0;
        let mut a_step = |line: &str| {
            let indent = line.len() - line.trim_start_matches(' ').len();
            let fits = indent.is_multiple_of(2) && indent <= most && indent < line.len();
            most = indent + 2;
            fits
        };
        if text.lines().any(declares) {
            Format::Text
        } else if text.lines().all(&mut a_step) {
            Format::Tree
        } else {
            Format::Other
        }
    }

    /// What it is, in a message.
    pub fn what(self) -> &'static str {
        match self {
            Format::Text => "a text",
            Format::Catalogue => "a catalogue",
            Format::State => "a state",
            Format::Page => "a page",
            Format::Graph => "a graph",
            Format::Tree => "a tree",
            Format::Other => "something else",
        }
    }

    /// What a file holds that this would replace, if it is something else. An empty file is nothing.
    pub fn replaces(self, old: &[u8]) -> Option<Format> {
        let found = match Format::of(old) {
            Format::Catalogue if Catalogue::new(old).is_err() => Format::Other,
            found => found,
        };
        (found != self && !old.is_empty()).then_some(found)
    }
}
