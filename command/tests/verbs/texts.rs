//! `check`, `compile`, `text`: texts and catalogues.

use girvotal_command::state::State;

use crate::check;
use crate::support::{Folder, data_files, once};

#[test]
fn wrong_texts() {
    let folder = Folder::with_lake();
    let text = String::from_utf8(folder.read("lake.gv")).expect("UTF-8");
    let text = text
        .replace("has some tap", "has some tapp")
        .replace("role has,", "role has has,");
    folder.write("wrong.gv", text);
    let (status, output, errors) = folder.run("check wrong.gv");
    assert_eq!((status, output.as_str()), (3, ""));
    let lines: Vec<&str> = errors.lines().collect();
    assert!(lines[0].starts_with("wrong.gv:3:10: error: "), "{errors}");
    let last = "wrong.gv:8:44: error: `tapp` is not declared; did you mean `tap`?";
    assert_eq!(lines.last(), Some(&last), "{errors}");
    let before = folder.read("lake.state");
    for line in [
        "classify wrong.gv -o lake.state",
        "update lake.state wrong.gv",
        "compile wrong.gv -o made.bin",
        "text wrong.gv",
    ] {
        assert_eq!(
            folder.run(line),
            (3, String::new(), errors.clone()),
            "{line}"
        );
    }
    assert!(before == folder.read("lake.state") && !folder.has("made.bin"));
    assert!(!folder.has("lake.state.girvotal-new"));
    check(
        &folder,
        &[
            (
                "lookup lake.state pich water",
                3,
                "",
                "`pich`:1:1: error: `pich` is not declared; did you mean `pitch`?\n",
            ),
            (
                "list lake.state 'has some tapp'",
                3,
                "",
                "`has some tapp`:1:10: error: `tapp` is not declared; did you mean `tap`?\n",
            ),
            (
                "lookup lake.state tap 'water # wet'",
                3,
                "",
                "`water # wet`:1:7: error: an argument has no comment\n",
            ),
            (
                "add lake.state 'has < offers'",
                3,
                "",
                "`has < offers`:1:1: error: role axioms cannot be changed; classify the changed \
                 text\n",
            ),
            (
                "add lake.state 'tapp < water'",
                3,
                "",
                "`tapp < water`:1:1: error: `tapp` is not declared; did you mean `tap`?\n",
            ),
        ],
    );
    let json = folder.run("list lake.state 'has some tapp' --json");
    let object = "{\"errors\": [{\"file\": \"`has some tapp`\", \"line\": 1, \"column\": 10, \
                  \"message\": \"`tapp` is not declared; did you mean `tap`?\"}]}\n";
    assert_eq!(json, (3, object.to_string(), String::new()));
}

/// The catalogues of `data/`: printed exactly, they compile to the same bytes, but for repeated role
/// axioms; their states answer as the library does.
#[test]
fn data() {
    let folder = Folder::new();
    for file in data_files("bin") {
        let name = file
            .file_stem()
            .and_then(|name| name.to_str())
            .expect("a name");
        let exact = folder.done(&format!("text {name}.bin --exact"));
        folder.write("exact.gv", exact);
        folder.done("compile exact.gv -o exact.bin");
        assert_eq!(
            folder.read("exact.bin"),
            once(&folder.read(&format!("{name}.bin"))),
            "{name}"
        );
        folder.done(&format!("classify {name}.bin -o a.state"));
        folder.done("classify exact.gv -o b.state");
        let (a, b) = (folder.read("a.state"), folder.read("b.state"));
        let (a, b) = (
            State::read(&a).expect("a state"),
            State::read(&b).expect("a state"),
        );
        assert_eq!(a.site.store(), b.site.store(), "{name}");
        folder.done("write a.state -o c.bin");
        assert_eq!(
            folder.read("c.bin"),
            folder.read(&format!("{name}.bin")),
            "{name}"
        );
    }
}

/// What a text could do without.
#[test]
fn lint() {
    let folder = Folder::new();
    let text = "kind a, b, c, d, e, \"not used\"\nrole r, s, t, spare\nr < s\nr then s < s\n\
                r < s # again\nr then s < s\na < b and r some c\nb = c and d\nc < d\nd < c\n\
                let never = t some e\n";
    folder.write("t.gv", text);
    let counts = "6 kinds, 4 roles, 10 concepts, 5 axioms\n";
    let lint = "unused kind: e\nunused kind: \"not used\"\nunused role: t\nunused role: spare\n\
                equal kinds: b = c = d\nrepeated role axiom: line 5 says what line 3 says\n\
                repeated role axiom: line 6 says what line 4 says\n\
                could be split: a < b and r some c\n\
                1 concept fewer with right sides split: `girvotal text FILE --split`\n";
    let json = "{\"kinds\": 6, \"roles\": 4, \"concepts\": 10, \"axioms\": 5, \"unused_kinds\": \
                [\"e\", \"not used\"], \"unused_roles\": [\"t\", \"spare\"], \"equal\": [[\"b\", \
                \"c\", \"d\"]], \"repeated\": [{\"line\": 5, \"first\": 3}, {\"line\": 6, \"first\": \
                4}], \"splittable\": [\"a < b and r some c\"], \"fewer\": 1}\n";
    check(
        &folder,
        &[
            ("check t.gv", 0, counts, ""),
            ("check t.gv --lint", 0, &format!("{counts}{lint}"), ""),
            ("check t.gv --lint --json", 0, json, ""),
        ],
    );
    folder.write("clean.gv", "kind a, b\nrole r\na < r some b\n");
    let clean = "2 kinds, 1 role, 3 concepts, 1 axiom\n";
    assert_eq!(folder.done("check clean.gv --lint"), clean);
}

/// Split texts say the same, with fewer concepts where a right side can be split.
#[test]
fn split() {
    let folder = Folder::with_lake();
    for (file, concepts) in [("campsite.gv", 99), ("lake.gv", 17), ("w1.gv", 7)] {
        let split = folder.done(&format!("text {file} --split"));
        folder.write("split.gv", &split);
        assert_eq!(
            folder.done(&format!("diff {file} split.gv")),
            "0 lost, 0 gained\n"
        );
        let told = folder.done("check split.gv");
        assert!(
            told.contains(&format!(", {concepts} concepts, ")),
            "{file}: {told}"
        );
        assert!(
            !folder.done("check split.gv --lint").contains("split"),
            "{file}"
        );
        assert_eq!(folder.done("text split.gv --split"), split, "{file}");
    }
    // Of a catalogue and a state too; what has a name or stands elsewhere stays.
    for file in data_files("bin") {
        let name = file
            .file_name()
            .and_then(|name| name.to_str())
            .expect("a name");
        folder.write("split.gv", folder.done(&format!("text {name} --split")));
        folder.write("plain.gv", folder.done(&format!("text {name}")));
        assert_eq!(
            folder.done("diff plain.gv split.gv"),
            "0 lost, 0 gained\n",
            "{name}"
        );
    }
    folder.write(
        "kept.gv",
        "kind a, b, c\nlet x = b and c\na < x\nb = a and c\nc < a and c\n",
    );
    let kept = folder.done("text kept.gv --split");
    assert_eq!(kept, folder.done("text kept.gv"));
    assert_eq!(
        folder.done("text lake.state --split"),
        folder.done("text lake.gv --split")
    );
}
