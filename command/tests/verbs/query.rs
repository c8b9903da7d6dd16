//! `query` and `diff`.

use crate::check;
use crate::support::Folder;

/// Wishes that are in the catalogue and others.
#[test]
fn wishes() {
    let folder = Folder::with_lake();
    let before = folder.read("lake.state");
    let powered = "corner-pitch\nSeeplatz Süd\n= powered-pitch\ncomfort-pitch\n< pitch\n";
    let unknown = "`has some tapp`:1:10: error: `tapp` is not declared; did you mean `tap`?\n";
    let json = "{\"kinds\": [\"Seeplatz Süd\", \"comfort-pitch\"], \"equal\": [\"comfort-pitch\"], \
                \"above\": [\"powered-pitch\"]}\n";
    check(
        &folder,
        &[
            (
                "query lake.state 'pitch and offers some electricity'",
                0,
                powered,
                "",
            ),
            ("query lake.state powered-pitch", 0, powered, ""),
            ("query lake.state 'has some water'", 0, "", ""),
            (
                "query lake.state 'has some (supplies some water)'",
                0,
                "Seeplatz Süd\n",
                "",
            ),
            (
                "query lake.state 'pitch and has some tap'",
                0,
                "Seeplatz Süd\n< pitch\n",
                "",
            ),
            (
                "query lake.state 'pitch and offers some water and offers some electricity' --json",
                0,
                json,
                "",
            ),
            (
                "query lake.state 'Seeplatz Süd'",
                0,
                "= Seeplatz Süd\n< corner-pitch\n< comfort-pitch\n",
                "",
            ),
            ("query lake.state 'has some tapp'", 3, "", unknown),
        ],
    );
    assert!(before == folder.read("lake.state"), "nothing is written");
    let (status, output, _) = folder.shell("girvotal query - tap < lake.state");
    assert_eq!((status, output.as_str()), (0, "= tap\n"));
    // Everything meets `any`.
    let all = folder.done("query lake.state any");
    folder.done("add lake.state 'any < any'");
    assert_eq!(all, folder.done("list lake.state any"));
}

/// A wish in the axioms in force, not in those that the state was classified with.
#[test]
fn wishes_after_changes() {
    let folder = Folder::with_lake();
    let line = "query lake.state 'pitch and offers some water'";
    assert_eq!(folder.done(line), "Seeplatz Süd\ncomfort-pitch\n< pitch\n");
    folder.done("withdraw lake.state 'tap < supplies some water'");
    assert_eq!(folder.done(line), "comfort-pitch\n< pitch\n");
    // What 19 advises works.
    let (status, _, errors) = folder.run("lookup lake.state tap 'supplies some water'");
    assert_eq!(status, 2);
    let advised = errors.split('`').nth(3).expect("a line to run");
    let line = advised.replace("STATE", "lake.state");
    let (status, output, errors) = folder.shell(&line);
    assert_eq!(
        (status, output.as_str(), errors.as_str()),
        (0, "", ""),
        "{line}"
    );
}

/// There must be room for the wish.
#[test]
fn no_room() {
    let folder = Folder::new();
    let kinds: String = (0..512).map(|i| format!("kind k{i}\n")).collect();
    folder.write("full.gv", kinds);
    folder.done("classify full.gv -o full.state");
    for wish in ["k0", "k0 and k1"] {
        let (status, _, errors) = folder.run(&format!("query full.state '{wish}'"));
        assert_eq!(status, 2, "{errors}");
        assert!(errors.starts_with("girvotal: refused (3): "), "{errors}");
    }
}

/// Two files of any kind.
#[test]
fn differences() {
    let folder = Folder::with_lake();
    let text = String::from_utf8(folder.read("lake.gv")).expect("UTF-8");
    folder.write("dry.gv", text.replace("tap < supplies", "# tap < supplies"));
    folder.done("classify dry.gv -o dry.state");
    folder.done("compile lake.gv -o lake.bin");
    let lost = "- \"Seeplatz Süd\" < comfort-pitch\n1 lost, 0 gained\n";
    let gained = "+ \"Seeplatz Süd\" < comfort-pitch\n0 lost, 1 gained\n";
    let json = "{\"lost\": [], \"gained\": []}\n";
    check(
        &folder,
        &[
            ("diff lake.gv dry.gv", 1, lost, ""),
            ("diff lake.state dry.gv", 1, lost, ""),
            ("diff dry.state lake.gv", 1, gained, ""),
            ("diff lake.gv lake.state", 0, "0 lost, 0 gained\n", ""),
            ("diff lake.state lake.gv --json", 0, json, ""),
            ("diff lake.bin lake.bin", 0, "0 lost, 0 gained\n", ""),
        ],
    );
    let (status, _, errors) = folder.run("diff - -");
    let error = "girvotal: only one of A and B can be `-`; name the other's file\n";
    assert_eq!((status, errors.as_str()), (3, error));
    assert_eq!(folder.run("diff lake.gv none.gv").0, 4);
}
