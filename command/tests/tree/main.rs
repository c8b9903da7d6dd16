//! The kinds as a tree, as a graph and as a page.

#[path = "../support/mod.rs"]
mod support;

#[path = "../text/sources.rs"]
#[allow(dead_code)]
mod sources;

mod browser;
mod campsite;
mod large;
mod names;
mod picture;
mod random;
mod xml;

use girvotal_command::json::Json;
use girvotal_command::state::State;
use picture::{Place, drawn, places, state};
use support::Folder;

/// The lake's tree.
#[test]
fn lake() {
    let tree = "\
electricity
pillar
pitch
  powered-pitch
    comfort-pitch
      Seeplatz Süd
    corner-pitch
      Seeplatz Süd ^
tap
water
";
    let folder = Folder::with_lake();
    assert_eq!(folder.done("tree lake.state"), tree);
    let json = "{\"entries\": [\
                {\"kinds\": [\"electricity\"], \"above\": [], \"below\": 0, \"used\": true}, ";
    let printed = folder.done("tree lake.state --json");
    assert!(printed.starts_with(json), "{printed}");
    let lake = State::read(&folder.read("lake.state")).expect("a state");
    let counts = places(&lake)
        .iter()
        .map(|place| place.below)
        .collect::<Vec<_>>();
    assert_eq!(counts, [0, 0, 4, 3, 1, 0, 1, 0, 0, 0]);
}

/// Small trees, to the letter.
#[test]
fn small() {
    for (text, tree) in [
        // Equal kinds, told or not, share an entry; names are ordered by scalar values.
        ("kind b, a\na = b", "a = b\n"),
        (
            "kind b, a, Z, ä\na < b\nb < Z\nZ < ä\nä < a",
            "Z = a = b = ä\n",
        ),
        (
            "kind c, b, a, x\na = x and x\nb = x\nc < a",
            "a = b = x\n  c\n",
        ),
        ("kind b, a, B\nb < b\na < a\nB < B", "B\na\nb\n"),
        // One told twice over, or through a third, is directly below the third alone.
        (
            "kind a, b, c, d\na < b\nb < c\na < c\nd < c\na < a",
            "c\n  b\n    a\n  d\n",
        ),
        // With several above: below all, and what lies below it at the first place.
        (
            "kind a, b, c, d, e\nc < a and b\nd < c\ne < a and d",
            "a\n  c\n    d\n      e\nb\n  c ^\n",
        ),
        (
            "kind top, x, y, low, p\nx < top\ny < top\nlow < x\nlow < y\np < low",
            "top\n  x\n    low\n      p\n  y\n    low ^\n",
        ),
        // Its first place is where the tree comes to it first, however deep.
        (
            "kind a, b, c, d\nb < a\nc < b\nd < c\nd < b\nkind z\nd < z",
            "a\n  b\n    c\n      d\nz\n  d ^\n",
        ),
        // Kinds in no axiom come last; a part of a side is in its axiom.
        (
            "kind d, c, b, a\nrole r\nb < r some (d and c)",
            "b\nc\nd\na\n",
        ),
        ("kind b, a\nrole r\nlet x = r some a\nb < b", "b\na\n"),
        ("kind b, a", "a\nb\n"),
        // Under a kind that all lie under too.
        (
            "kind z, y, x, all\nany < all\nx < y",
            "all\n  y\n    x\n  z\n",
        ),
        ("kind b, a, c\nany < a\nany < b", "a = b\n  c\n"),
        ("let x = any", ""),
    ] {
        assert_eq!(drawn(&state(text), &[]), tree, "{text}");
        places(&state(text));
    }
}

/// What is withdrawn counts no longer, also where its composites stay.
#[test]
fn withdrawn() {
    let folder = Folder::new();
    folder.write("a.gv", "kind a, b\nrole r\nb < b\na < r some b\n");
    folder.done("classify a.gv -o a.state");
    assert_eq!(folder.done("tree a.state"), "a\nb\n");
    folder.done("withdraw a.state 'a < r some b'");
    assert_eq!(folder.done("tree a.state"), "b\na\n");
    folder.done("change a.state --out 'b < b' --in 'a = b'");
    assert_eq!(folder.done("tree a.state"), "a = b\n");
}

/// The graph, to the letter.
#[test]
fn graph() {
    let text = "kind a, b, c, d, free\nb = a\nc < a and d";
    let graph = "\
digraph kinds {
  rankdir=LR;
  node [shape=box, fontname=\"sans-serif\"];
  edge [dir=back];
  k0 [label=\"a = b\"];
  k2 [label=\"c\"];
  k3 [label=\"d\"];
  k4 [label=\"free\", style=dashed];
  k0 -> k2;
  k3 -> k2;
}
";
    assert_eq!(drawn(&state(text), &["--dot"]), graph);
}

/// Files and wrong usage.
#[test]
fn files() {
    let folder = Folder::with_lake();
    for option in ["", "--dot", "--html"] {
        let printed = folder.done(&format!("tree lake.state {option}"));
        let told = folder.done(&format!("tree lake.state {option} -o made --force"));
        assert_eq!(told, "9 kinds, 9 entries\n");
        assert_eq!(folder.read("made"), printed.as_bytes());
        assert_eq!(
            folder.done(&format!("tree lake.state {option} -o -")),
            printed
        );
        let told = folder.done(&format!("tree lake.state {option} -o made --force --json"));
        assert_eq!(told, folder.done("tree lake.state --json"));
        if !option.is_empty() {
            let object = folder.done(&format!("tree lake.state {option} --json"));
            let text = Json::Object(vec![("text", printed.as_str().into())]).to_string();
            assert!(object.ends_with(&format!(", {}\n", &text[1..])), "{object}");
        }
    }
    assert!(
        folder
            .done("tree lake.state --html")
            .contains("<title>lake</title>")
    );
    let page = folder.shell("girvotal tree - --html < lake.state").1;
    assert!(page.contains("<title>Kinds</title>"), "{page}");
    let usage = "usage: girvotal tree STATE [--dot | --html] [-o FILE]";
    let cases = [
        ("tree", 3, format!("tree takes STATE; {usage}")),
        (
            "tree lake.state -o a -o b",
            3,
            format!("one `-o` is enough; {usage}"),
        ),
        ("tree lake.state -o", 3, format!("`-o` needs FILE; {usage}")),
        (
            "tree lake.state --dot --html",
            3,
            "only one of `--dot` and `--html` can be given; leave one out".into(),
        ),
        (
            "tree lake.state -o lake.state",
            3,
            "lake.state would be replaced by its own output; name another file".into(),
        ),
        (
            "tree lake.gv",
            4,
            "lake.gv is no state: it does not begin with `GIRVOTAL`; `girvotal classify` makes one"
                .into(),
        ),
    ];
    for (line, status, sentence) in cases {
        let errors = format!("girvotal: {sentence}\n");
        assert_eq!(folder.run(line), (status, String::new(), errors), "{line}");
    }
}

/// Under a kind stand its own axioms: those of which it is the left side, or a side of `=`.
#[test]
fn axioms() {
    let text = "kind a, b, c, d, e\nrole r\na < b and r some c\na < d\nb = c\nd = r some e\n\
                r some e < c\nany < c\ne < c\n";
    let places = places(&state(text));
    let of = |name: &str| {
        let with = |place: &&Place| place.first && place.names.iter().any(|other| other == name);
        let place = places.iter().find(with).expect("a place");
        place.axioms.clone()
    };
    assert_eq!(of("a"), ["a < d", "a < b and r some c"]);
    assert_eq!((of("b"), of("c")), (vec!["b = c".to_owned()], of("b")));
    assert_eq!(of("d"), ["d = r some e"]);
    assert_eq!(of("e"), ["e < c"]);
    assert!(
        places
            .iter()
            .all(|place| place.first || place.axioms.is_empty())
    );
}

/// A page says what it was made of, and when.
#[test]
fn made() {
    let folder = Folder::with_lake();
    let header = |line: &str| {
        let (status, page, errors) = folder.shell(line);
        assert_eq!((status, errors.as_str()), (0, ""), "{line}");
        let document = xml::parse(&page).expect("XML");
        let header = document.the("body").the("header");
        header
            .elements()
            .map(|element| element.text())
            .collect::<Vec<_>>()
    };
    let told = header("SOURCE_DATE_EPOCH=86400 girvotal tree lake.state --html");
    let made =
        "Made of lake.state (9 kinds, 3 roles, 19 concepts, 8 axioms), 1970-01-02 00:00 UTC.";
    assert_eq!((told[0].as_str(), told[2].as_str()), ("lake", made));
    let told = header("girvotal tree - --html < lake.state");
    assert!(
        told[2].starts_with("Made of standard input (9 kinds, "),
        "{told:?}"
    );
    assert!(
        told[2].contains("), 20") && told[2].ends_with(" UTC."),
        "{told:?}"
    );
}
