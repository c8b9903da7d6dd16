//! Names that a page or a graph must escape.

use girvotal_command::text::quoted;

use crate::picture::{drawn, on_page, places, state};
use crate::support::Folder;
use crate::xml;

/// What breaks out of tags, attributes, scripts, labels.
const ODD: [&str; 16] = [
    "</script>",
    "<script>alert(1)</script>",
    "\"&",
    "<",
    ">",
    "'",
    "]]>",
    "-->",
    "&amp;",
    "&#60;",
    "\\",
    "\\N\\\"",
    "\"];",
    "a = b",
    "Süd 湖 \u{1F3D5}",
    "שלום\u{2028}",
];

#[test]
fn escaped() {
    // Each is above one and below another, and stands at several places.
    let mut text = String::from("kind above, below\n");
    for name in ODD {
        let name = quoted(name);
        text += &format!("kind {name}\n{name} < above\nbelow < {name}\n");
    }
    let state = state(&text);
    let places = places(&state);
    assert_eq!(places.len(), 1 + 2 * ODD.len());
    let mut names: Vec<&str> = places
        .iter()
        .filter(|place| place.depth == 1)
        .map(|place| place.names[0].as_str())
        .collect();
    let mut sorted = ODD;
    sorted.sort_unstable();
    assert_eq!(names, sorted);
    names.retain(|name| name.contains("script"));
    let page = drawn(&state, &["--html"]);
    assert_eq!(page.matches("<script").count(), 1);
    assert_eq!((names.len(), page.matches("</script").count()), (2, 1));
}

/// The labels, to the letter.
#[test]
fn labels() {
    let text = "kind \"a\\\\N\", \"\\\"\", \"&lt;\", \"é\"";
    let graph = drawn(&state(text), &["--dot"]);
    for label in [r"a\\N", r#"\""#, "&amp;lt;", "é"] {
        assert!(graph.contains(&format!("[label=\"{label}\", ")), "{graph}");
    }
}

/// What XML can't have is replaced, in a name and in the file's name.
#[test]
fn replaced() {
    let folder = Folder::new();
    folder.write("a.gv", "kind \"x\u{fffe}\u{ffff}\"\n");
    folder.done("classify a.gv -o a.state");
    let file = "<\u{1}\u{7}&\n.state";
    std::fs::rename(folder.path.join("a.state"), folder.path.join(file)).expect("renamed");
    let output = folder.command(&["tree", file, "--html"]).output();
    let page = String::from_utf8(output.expect("a run").stdout).expect("UTF-8");
    assert_eq!(on_page(&page)[0].names, ["x\u{fffd}\u{fffd}"]);
    let title = xml::parse(&page)
        .expect("XML")
        .the("head")
        .the("title")
        .text();
    assert_eq!(title, "<\u{fffd}\u{fffd}&\u{fffd}");
}

/// A page has no address outside itself, and its script and style are the same in HTML and XML.
#[test]
fn alone() {
    let page = drawn(&state("kind a, b\na < b"), &["--html"]);
    for address in ["//", "src=", "url(", "@import", "javascript:"] {
        assert!(!page.contains(address), "{address}");
    }
    let document = xml::parse(&page).expect("XML");
    let (head, body) = (document.the("head"), document.the("body"));
    for (element, part) in [("style", head.the("style")), ("script", body.the("script"))] {
        let (start, end) = (format!("<{element}>"), format!("</{element}>"));
        let (_, rest) = page.split_once(&start).expect("its start");
        let (raw, _) = rest.split_once(&end).expect("its end");
        assert_eq!(raw, part.text());
    }
    assert_eq!(document.attribute("lang"), Some("en"));
    let search = body.the("div");
    assert_eq!(search.attribute("hidden"), Some("hidden"));
    assert!(search.the("label").text().starts_with("Filter"));
}
