//! `update`.

use crate::support::Folder;

#[test]
fn updates() {
    let folder = Folder::with_lake();
    let text = String::from_utf8(folder.read("lake.gv")).expect("UTF-8");
    let supply = "tap < supplies some water";
    folder.write("dry.gv", text.replace(supply, &format!("# {supply}")));
    folder.write(
        "kept.gv",
        text.replace(supply, "supplies some water < supplies some water"),
    );
    folder.write("renamed.gv", text.replace("Seeplatz Süd", "Seeplatz Nord"));
    let before = folder.read("lake.state");
    let lost = "- \"Seeplatz Süd\" < comfort-pitch\n";
    let done = folder.done("update lake.state dry.gv --dry-run");
    assert_eq!(done, format!("{lost}1 lost, 0 gained; classified again\n"));
    assert!(
        before == folder.read("lake.state"),
        "a dry run changes nothing"
    );
    let made_alike = |name: &str| {
        folder.done(&format!("classify {name} -o fresh.state"));
        assert!(
            folder.read("fresh.state") == folder.read("lake.state"),
            "{name}"
        );
    };
    let done = folder.done("update lake.state kept.gv");
    assert_eq!(
        done,
        format!("{lost}1 lost, 0 gained; one change: 1 axiom out, 1 in\n")
    );
    made_alike("kept.gv");
    let done = folder.done("update lake.state lake.gv --json");
    let gained = "{\"lost\": [], \"gained\": [{\"below\": \"Seeplatz Süd\", \"above\": \
                  \"comfort-pitch\"}], \"classified\": false, \"withdrawn\": 1, \"added\": 1}\n";
    assert_eq!(done, gained);
    assert!(before == folder.read("lake.state"), "back again");
    let done = folder.done("update lake.state lake.gv");
    assert_eq!(done, "0 lost, 0 gained; one change: 0 axioms out, 0 in\n");
    folder.done("update lake.state dry.gv");
    made_alike("dry.gv");
    folder.done("update lake.state renamed.gv");
    made_alike("renamed.gv");
}

/// Whatever differs between a state and a text, the update is what `classify` makes of the text.
#[test]
fn updates_of_everything() {
    let folder = Folder::new();
    let text = "kind a, b, c\nrole r, s\nr < s\nr then s < s\na < r some b\nb < c\n";
    let other = [
        ("inclusions", text.replace("r < s\nr then", "s < r\nr then")),
        (
            "inclusions dropped",
            text.replace("r < s\nr then", "r then"),
        ),
        ("compositions", text.replace("r then s < s", "s then r < s")),
        ("a role more", text.replace("role r, s", "role r, s, t")),
        ("as many records", text.replace("r some b", "s some b")),
        (
            "a kind less",
            "kind a, c\nrole r, s\nr < s\nr then s < s\na < r some c\n".into(),
        ),
        ("renamed", text.replace('b', "d")),
        (
            "roles renamed",
            text.replace('s', "q").replace("qome", "some"),
        ),
        ("exchanged", text.replace("kind a, b", "kind b, a")),
    ];
    for (what, other) in other {
        folder.write("one.gv", text);
        folder.write("other.gv", other);
        for (from, to) in [("one.gv", "other.gv"), ("other.gv", "one.gv")] {
            folder.done(&format!("classify {from} -o a.state"));
            folder.done(&format!("classify {to} -o b.state"));
            folder.done(&format!("update a.state {to}"));
            assert!(
                folder.read("a.state") == folder.read("b.state"),
                "{what}: {from} to {to}"
            );
        }
    }
    // A kind that only one of them has, and beside it one with the same kind above.
    folder.write("one.gv", "kind a, b, c\na < c\nb < c\n");
    folder.write("less.gv", "kind a, c\na < c\n");
    folder.done("classify one.gv -o a.state");
    let lost = "- b < c\n1 lost, 0 gained; classified again\n";
    assert_eq!(folder.done("update a.state less.gv"), lost);
    let gained = "+ b < c\n0 lost, 1 gained; classified again\n";
    assert_eq!(folder.done("update a.state one.gv"), gained);
}

/// One change for lists of 64 axioms, and a classification for longer ones.
#[test]
fn updates_by_64() {
    let folder = Folder::new();
    let kinds: String = (0..66).map(|i| format!("kind k{i}\n")).collect();
    let axioms = |count: usize| -> String { (0..count).map(|i| format!("k{i} < k65\n")).collect() };
    folder.write("none.gv", &kinds);
    for (count, how) in [
        (64, "one change: 0 axioms out, 64 in"),
        (65, "classified again"),
    ] {
        folder.write("some.gv", kinds.clone() + &axioms(count));
        folder.done("classify none.gv -o a.state");
        let done = folder.done("update a.state some.gv");
        assert!(
            done.ends_with(&format!("0 lost, {count} gained; {how}\n")),
            "{done}"
        );
        let how = how.replace("0 axioms out, 64 in", "64 axioms out, 0 in");
        let done = folder.done("update a.state none.gv");
        assert!(
            done.ends_with(&format!("{count} lost, 0 gained; {how}\n")),
            "{done}"
        );
    }
}
