//! What a state's page shows, and that the other forms show the same.

use std::collections::{HashMap, HashSet};

use girvotal_command::json::Json;
use girvotal_command::state::State;
use girvotal_command::text::{self, Compiled};
use girvotal_command::{Streams, run};

use crate::xml::{self, Element};

/// The state of a text.
pub fn state(text: &str) -> State {
    classified(text::compile(text.as_bytes()).expect("a right text"))
}

/// The state of a catalogue.
pub fn classified(compiled: Compiled) -> State {
    State::classify(compiled).expect("an accepted catalogue").0
}

/// What `tree` prints of a state.
pub fn drawn(state: &State, options: &[&str]) -> String {
    let (bytes, mut output, mut errors) = (state.bytes(), vec![], vec![]);
    let arguments = ["tree", "-"].iter().chain(options);
    let mut streams = Streams {
        input: &mut bytes.as_slice(),
        output: &mut output,
        errors: &mut errors,
        after: &|_| (),
    };
    let status = run(arguments.map(Into::into).collect(), &mut streams);
    assert_eq!((status, errors.as_slice()), (0, "".as_bytes()));
    String::from_utf8(output).expect("UTF-8")
}

/// A place of the tree, as the page shows it.
#[derive(Clone, Debug)]
pub struct Place {
    pub id: String,
    pub names: Vec<String>,
    pub below: usize,
    pub used: bool,
    pub first: bool,
    pub depth: usize,
    /// What stands under it at its first place.
    pub axioms: Vec<String>,
    /// The id of the entry that it stands under.
    pub above: Option<String>,
}

/// The places of a state, from its page. The other forms are compared with it.
pub fn places(state: &State) -> Vec<Place> {
    let places = on_page(&drawn(state, &["--html"]));
    assert_eq!(drawn(state, &[]), as_text(&places));
    assert_eq!(drawn(state, &["--json"]), as_json(&places));
    let mut graph = vec![];
    for place in places.iter().filter(|place| place.first) {
        graph.push((place.id.clone(), place.names.join(" = ")));
    }
    let edge = |place: &Place| Some((place.id.clone(), place.above.clone()?));
    graph.extend(places.iter().filter_map(edge));
    assert_eq!(in_graph(&drawn(state, &["--dot"])), graph);
    places
}

/// The places of a page, with its links followed.
pub fn on_page(html: &str) -> Vec<Place> {
    let document = xml::parse(html).unwrap_or_else(|wrong| panic!("{wrong} in\n{html}"));
    let mut places = vec![];
    collect(document.the("body").the("main"), 0, None, &mut places);
    let mut ids = HashSet::new();
    for element in document.all() {
        assert!(element.attribute("src").is_none(), "an address");
        if let Some(id) = element.attribute("id") {
            assert!(ids.insert(id.to_owned()), "{id} twice");
        }
    }
    let firsts: Vec<&Place> = places.iter().filter(|place| place.first).collect();
    assert_eq!(ids.len(), firsts.len());
    for again in places.iter().filter(|place| !place.first) {
        let first = firsts.iter().find(|first| first.id == again.id);
        let first = first.expect("what is linked to");
        assert_eq!(
            (&first.names, first.below, first.used),
            (&again.names, again.below, again.used)
        );
    }
    places
}

/// The places in `main` or in the `details` of an entry.
fn collect(within: &Element, depth: usize, above: Option<&str>, places: &mut Vec<Place>) {
    for element in within.elements() {
        let id = element.attribute("id");
        let head = match (element.name.as_str(), id) {
            ("summary" | "code", None) => continue,
            ("details", Some(_)) => element.the("summary"),
            ("p", Some(_)) => element,
            ("p", None) => element,
            other => panic!("{other:?}"),
        };
        let link = |link: &str| link.strip_prefix('#').map(str::to_owned);
        let linked = id.is_none().then(|| head.the("a").attribute("href"));
        let linked = linked.flatten().and_then(link);
        let place = Place {
            id: id.map(str::to_owned).or(linked).expect("an id or a link"),
            first: id.is_some(),
            depth,
            above: above.map(str::to_owned),
            axioms: axioms(element),
            ..in_head(head, id.is_none())
        };
        places.push(place);
        if element.name == "details" {
            let before = places.len();
            collect(element, depth + 1, id, places);
            assert!(places.len() > before, "an entry below");
        }
    }
}

/// The axioms that stand directly in an element.
fn axioms(element: &Element) -> Vec<String> {
    let codes = element.elements().filter(|element| element.name == "code");
    codes.map(Element::text).collect()
}

/// The names, the count and the sign of an entry.
fn in_head(head: &Element, again: bool) -> Place {
    let all = head.all();
    let bdi = || all.iter().filter(|element| element.name == "bdi");
    let names: Vec<String> = bdi().map(|name| name.text()).collect();
    let below = head.elements().find(|element| element.name == "small");
    let below = below.map(|count| count.text());
    let sign = if again { " ^, to its first place" } else { "" };
    let count = below
        .as_ref()
        .map_or(String::new(), |count| format!(" {count}"));
    let told = head.text();
    let told = told
        .strip_suffix(&axioms(head).concat())
        .expect("axioms at the end");
    assert_eq!(told, format!("{}{sign}{count}", names.join(" = ")));
    assert_ne!(below.as_deref(), Some("0"), "a count that says nothing");
    let unsaid = all.iter().filter(|e| e.attribute("aria-hidden").is_some());
    let unsaid: String = unsaid.map(|element| element.text()).collect();
    assert_eq!(unsaid, if again { " ^" } else { "" });
    Place {
        id: String::new(),
        below: below.map_or(0, |below| below.parse().expect("a count")),
        axioms: vec![],
        used: bdi().all(|name| name.attribute("class") != Some("unused")),
        names,
        first: !again,
        depth: 0,
        above: None,
    }
}

/// The tree in text.
fn as_text(places: &[Place]) -> String {
    let line = |place: &Place| {
        let (indent, names) = ("  ".repeat(place.depth), place.names.join(" = "));
        format!("{indent}{names}{}\n", if place.first { "" } else { " ^" })
    };
    places.iter().map(line).collect()
}

/// The tree as an object.
fn as_json(places: &[Place]) -> String {
    let list = |names: Vec<&str>| -> Json { names.into_iter().collect() };
    let first_names: HashMap<&str, &str> = places
        .iter()
        .map(|place| (place.id.as_str(), place.names[0].as_str()))
        .collect();
    let object = |first: &Place| {
        let all = places.iter().filter(|place| place.id == first.id);
        let above = all.filter_map(|place| place.above.as_deref());
        let mut above: Vec<&str> = above.map(|id| first_names[id]).collect();
        above.sort_unstable();
        Json::Object(vec![
            (
                "kinds",
                list(first.names.iter().map(String::as_str).collect()),
            ),
            ("above", list(above)),
            ("below", first.below.into()),
            ("used", first.used.into()),
        ])
    };
    let firsts = places.iter().filter(|place| place.first);
    let object = Json::Object(vec![("entries", firsts.map(object).collect())]);
    format!("{object}\n")
}

/// The nodes of a graph with their labels, then the edges, from below to above.
fn in_graph(dot: &str) -> Vec<(String, String)> {
    let statement = |line: &str| {
        let line = line
            .strip_prefix("  ")
            .and_then(|line| line.strip_suffix(';'));
        let line = line.expect("a statement");
        if let Some((node, label)) = line.split_once(" [label=\"") {
            let label = label
                .strip_suffix(", style=dashed]")
                .or(label.strip_suffix(']'));
            let label = label.and_then(|label| label.strip_suffix('"'));
            return (node.to_owned(), unescaped(label.expect("a label")));
        }
        let (above, below) = line.split_once(" -> ").expect("an edge");
        (below.to_owned(), above.to_owned())
    };
    let (_, statements) = dot.split_once("  edge [dir=back];\n").expect("its head");
    let statements = statements.strip_suffix("}\n").expect("its end");
    statements.lines().map(statement).collect()
}

/// A label as Graphviz shows it.
fn unescaped(label: &str) -> String {
    let mut text = String::new();
    let mut rest = label.chars();
    while let Some(c) = rest.next() {
        assert_ne!(c, '"', "{label}");
        text.extend(if c == '\\' { rest.next() } else { Some(c) });
    }
    assert_eq!(text.matches('&').count(), text.matches("&amp;").count());
    text.replace("&amp;", "&")
}
