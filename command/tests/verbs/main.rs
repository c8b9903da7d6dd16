//! What the command prints, and its exit statuses, by verb.

#[path = "../support/mod.rs"]
mod support;

mod answers;
mod change;
mod files;
mod query;
mod refusals;
mod state;
mod texts;
mod update;
mod usage;

use support::Folder;

/// A line, its exit status, and what it prints on standard output and standard error.
type Case<'a> = (&'a str, i32, &'a str, &'a str);

/// Runs lines one after the other in a folder.
fn check(folder: &Folder, cases: &[Case<'_>]) {
    for &(line, status, output, errors) in cases {
        let (ended, printed, said) = folder.run(line);
        let expected = (status, output, errors);
        assert_eq!(
            (ended, printed.as_str(), said.as_str()),
            expected,
            "girvotal {line}"
        );
    }
}

#[test]
fn w1() {
    let folder = Folder::new();
    folder.done("compile w1.gv -o made.bin");
    assert_eq!(folder.read("made.bin"), folder.read("w1.bin"));
    check(
        &folder,
        &[
            (
                "check w1.gv",
                0,
                "4 kinds, 3 roles, 7 concepts, 3 axioms\n",
                "",
            ),
            (
                "classify w1.gv -o w1.state",
                0,
                "4 kinds, 3 roles, 7 concepts, 3 axioms: 14 pairs, 7 links\n",
                "",
            ),
            ("lookup w1.state corner-pitch powered-pitch", 0, "yes\n", ""),
            ("lookup w1.state powered-pitch corner-pitch", 1, "no\n", ""),
            (
                "list w1.state 'offers some electricity'",
                0,
                "corner-pitch\n",
                "",
            ),
            (
                "list w1.state powered-pitch",
                0,
                "corner-pitch\npowered-pitch\n",
                "",
            ),
            ("above w1.state 'has some pillar'", 0, "powered-pitch\n", ""),
            (
                "withdraw w1.state 'pillar < supplies some electricity'",
                0,
                "- corner-pitch < powered-pitch\n1 lost, 0 gained; one change: 1 axiom out, 0 in\n",
                "",
            ),
            ("lookup w1.state corner-pitch powered-pitch", 1, "no\n", ""),
            (
                "lookup w1.state pillar 'supplies some electricity'",
                2,
                "",
                "girvotal: refused (19): `supplies some electricity` is in no axiom in force; \
                 `girvotal query STATE 'supplies some electricity'` says which kinds meet it\n",
            ),
            (
                "add w1.state 'pillar < supplies some electricity'",
                0,
                "+ corner-pitch < powered-pitch\n0 lost, 1 gained; one change: 0 axioms out, 1 in\n",
                "",
            ),
            (
                "write w1.state -o back.bin",
                0,
                "4 kinds, 3 roles, 7 concepts, 3 axioms\n",
                "",
            ),
        ],
    );
    assert_eq!(folder.read("back.bin"), folder.read("w1.bin"));
    folder.done("classify w1.gv -o again.state");
    assert_eq!(folder.read("w1.state"), folder.read("again.state"));
}
