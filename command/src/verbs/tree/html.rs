//! The tree as a page: one file that needs no other, well-formed XML too.

use super::amounts;
use super::arranged::{Entry, Tree};

/// The page's style and script. Neither has `<` or `&`, so that they are the same in HTML and XML.
const STYLE: &str = include_str!("page.css");
const SCRIPT: &str = include_str!("page.js");

/// What a page was made of, and when.
pub struct Made {
    /// The page's title.
    pub title: String,
    /// The file.
    pub source: String,
    /// How much it has.
    pub amounts: String,
    /// The minute.
    pub minute: String,
}

/// The page of a tree. An entry with others below is a `details` at its first place, any other is a
/// `p`: one element for each level, as browsers limit how deep these nest.
pub fn page(tree: &Tree<'_>, made: &Made) -> String {
    let (title, source, minute) = (escaped(&made.title), escaped(&made.source), &made.minute);
    let (entries, amounts) = (amounts(tree), &made.amounts);
    let main = main(tree);
    format!(
        "<!DOCTYPE html>
<html lang=\"en\">
<head>
<meta charset=\"utf-8\" />
<meta name=\"viewport\" content=\"width=device-width, initial-scale=1\" />
<meta http-equiv=\"Content-Security-Policy\" content=\"default-src 'none'; \
style-src 'unsafe-inline'; script-src 'unsafe-inline'\" />
<title>{title}</title>
<style>
{STYLE}</style>
</head>
<body>
<header>
<h1>{title}</h1>
<p>{entries}. The number counts the kinds below, ^ leads to an entry's first place; what is in \
italics is in no axiom. Under a kind stand its own axioms.</p>
<p>Made of <bdi>{source}</bdi> ({amounts}), {minute}.</p>
</header>
<div role=\"search\" hidden=\"hidden\">
<label>Filter <input type=\"search\" autocomplete=\"off\" spellcheck=\"false\" /></label>
<output></output>
<button type=\"button\">Open all</button>
<button type=\"button\">Close all</button>
</div>
<main>
{main}</main>
<script>
{SCRIPT}</script>
</body>
</html>
"
    )
}

/// All places, each within the `details` of the one that it stands under.
fn main(tree: &Tree<'_>) -> String {
    let mut text = String::new();
    let mut open = 0;
    for place in tree.places() {
        text += &"</details>\n".repeat(open - place.depth);
        open = place.depth;
        let entry = tree.entry(place.entry);
        let (id, names, axioms) = (entry.id(), names(entry), axioms(entry));
        let count = count(entry);
        text += &if !place.first {
            format!("<p><a href=\"#{id}\">{names}{AGAIN}</a>{count}</p>\n")
        } else if entry.below.is_empty() {
            format!("<p id=\"{id}\">{names}{count}{axioms}</p>\n")
        } else {
            open += 1;
            let summary = format!("<summary>{names}{count}</summary>");
            format!("<details id=\"{id}\" open=\"open\">{summary}{axioms}\n")
        };
    }
    text + &"</details>\n".repeat(open)
}

/// An entry's names, each apart from what is written from right to left beside it.
fn names(entry: &Entry<'_>) -> String {
    let class = if entry.used { "" } else { " class=\"unused\"" };
    let name = |name: &&str| format!("<bdi{class}>{}</bdi>", escaped(name));
    let names: Vec<String> = entry.names.iter().map(name).collect();
    names.join(" = ")
}

/// What stands after the names at any place but the first: a sign, and what it is read out as.
const AGAIN: &str =
    "<span aria-hidden=\"true\"> ^</span><span class=\"said\">, to its first place</span>";

/// An entry's own axioms, each a line.
fn axioms(entry: &Entry<'_>) -> String {
    let line = |axiom: &String| format!("<code dir=\"auto\">{}</code>", escaped(axiom));
    entry.axioms.iter().map(line).collect()
}

/// How many kinds lie below an entry, if any.
fn count(entry: &Entry<'_>) -> String {
    match entry.kinds_below {
        0 => String::new(),
        count => format!(" <small>{count}</small>"),
    }
}

/// A text as it stands between tags and in attributes. What XML can't have is replaced.
fn escaped(text: &str) -> String {
    let mut escaped = String::new();
    for c in text.chars() {
        match c {
            '&' => escaped += "&amp;",
            '<' => escaped += "&lt;",
            '>' => escaped += "&gt;",
            '"' => escaped += "&quot;",
            '\'' => escaped += "&#39;",
            '\u{fffe}' | '\u{ffff}' => escaped.push('\u{fffd}'),
            _ if c.is_control() => escaped.push('\u{fffd}'),
            _ => escaped.push(c),
        }
    }
    escaped
}
