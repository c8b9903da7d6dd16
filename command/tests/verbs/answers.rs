//! `lookup`, `list`, `above`.

use std::io::{BufRead, BufReader, Write};
use std::process::Stdio;

use girvotal_command::text::quoted;

use crate::check;
use crate::support::Folder;

/// Names that could be something else.
#[test]
fn odd_names() {
    let folder = Folder::new();
    let text = "kind tap, water, \"tap # big\", \"tap and water\", \"--json\", \"any\"\nrole r\n\
                \"tap # big\" < water\n\"--json\" < water\n\"any\" < r some tap\n";
    folder.write("odd.gv", text);
    folder.done("classify odd.gv -o s");
    assert_eq!(folder.done("list s water"), "water\ntap # big\n--json\n");
    let ambiguous = "`tap and water`:1:1: error: `tap and water` is a name and an expression too: \
                     quote it, `\"tap and water\"`, or put it in parentheses\n";
    check(
        &folder,
        &[
            ("lookup s 'tap # big' water", 0, "yes\n", ""),
            ("lookup s -- --json water", 0, "yes\n", ""),
            ("lookup s 'tap and water' water", 3, "", ambiguous),
            ("lookup s '\"tap and water\"' water", 1, "no\n", ""),
            ("list s 'r some tap'", 0, "any\n", ""),
        ],
    );
    let (status, _, errors) = folder.run("list s any");
    assert_eq!(status, 3, "{errors}");
}

/// Pairs from standard input, a line each.
#[test]
fn pairs() {
    let folder = Folder::with_lake();
    let pairs = "corner-pitch < powered-pitch\n\n\"Seeplatz Süd\" < tap\r\nSeeplatz Süd\tpitch\n\
                 tap < has some tapp\ncorner-pitch\toffers some electricity\npitch < has some \
                 water\ntap = tap and tap\npitch < pitch";
    folder.write("pairs", pairs);
    let (status, output, errors) = folder.shell("girvotal lookup lake.state - < pairs");
    assert_eq!(status, 3);
    assert_eq!(output, "yes\nno\nyes\nwrong\nyes\nrefused\nwrong\nyes\n");
    let said: Vec<&str> = errors.lines().collect();
    assert_eq!(said.len(), 3, "{errors}");
    assert!(
        said[0].contains("`tapp` is not declared; did you mean `tap`?"),
        "{errors}"
    );
    assert!(
        said[1].starts_with("girvotal: refused (19): `has some water`"),
        "{errors}"
    );
    assert_eq!(said[2], "-:8:1: error: `=` is two pairs; write `A < B`");
    folder.write("pairs", "tap < water\npitch\thas some water\ntap\ttap");
    let (status, output, errors) = folder.shell("girvotal lookup lake.state - --json < pairs");
    assert_eq!((status, errors.as_str()), (2, ""));
    let lines: Vec<&str> = output.lines().collect();
    assert_eq!(
        (lines[0], lines[2]),
        ("{\"answer\": false}", "{\"answer\": true}")
    );
    assert!(
        lines[1].starts_with("{\"refused\": {\"number\": 19"),
        "{output}"
    );
    let (status, output, _) = folder.shell("girvotal lookup lake.state - < /dev/null");
    assert_eq!((status, output.as_str()), (0, ""));
    let usage = "girvotal: lookup takes STATE A B; usage: girvotal lookup STATE A B | STATE -\n";
    check(
        &folder,
        &[
            ("lookup - -", 3, "", usage),
            ("lookup lake.state tap", 3, "", usage),
        ],
    );
}

/// An answer is there before the next pair is asked.
#[test]
fn pairs_as_they_come() {
    let folder = Folder::with_lake();
    let mut command = folder.command(&["lookup", "lake.state", "-"]);
    command.stdin(Stdio::piped()).stdout(Stdio::piped());
    let mut child = command.spawn().expect("a run");
    let mut asked = child.stdin.take().expect("standard input");
    let mut answers = BufReader::new(child.stdout.take().expect("standard output"));
    for (pair, answer) in [("tap < tap\n", "yes\n"), ("tap < water\n", "no\n")] {
        asked.write_all(pair.as_bytes()).expect("asked");
        let mut line = String::new();
        answers.read_line(&mut line).expect("answered");
        assert_eq!(line, answer);
    }
    drop(asked);
    assert!(child.wait().expect("an end").success());
}

/// What is directly below and above.
#[test]
fn direct() {
    let folder = Folder::with_lake();
    folder.done("classify campsite.gv -o campsite.state");
    let hookup = "comfort-pitch\nfull-hookup-pitch\nlakeside-pitch\n";
    check(
        &folder,
        &[
            ("list lake.state pitch --direct", 0, "powered-pitch\n", ""),
            (
                "list lake.state powered-pitch --direct",
                0,
                "corner-pitch\ncomfort-pitch\n",
                "",
            ),
            ("list lake.state tap --direct", 0, "", ""),
            (
                "list lake.state 'offers some electricity' --direct",
                0,
                "powered-pitch\n",
                "",
            ),
            (
                "above lake.state 'Seeplatz Süd' --direct",
                0,
                "corner-pitch\ncomfort-pitch\n",
                "",
            ),
            ("above lake.state pitch --direct", 0, "", ""),
            ("above campsite.state premium-pitch --direct", 0, hookup, ""),
            (
                "above campsite.state comfort-pitch --direct",
                0,
                "powered-pitch\nwatered-pitch\n",
                "",
            ),
            (
                "list campsite.state comfort-pitch --direct --json",
                0,
                "{\"kinds\": [\"premium-pitch\"]}\n",
                "",
            ),
        ],
    );
}

/// A misspelt name with spaces is known as a whole.
#[test]
fn misspelt_names() {
    let folder = Folder::with_lake();
    for source in [
        "Seeplatz Sud",
        "seeplatz Süd",
        "Seplatz Süd",
        "Seeplatz-Süd",
    ] {
        let error = format!(
            "`{source}`:1:1: error: `{}` is not declared; did you mean `\"Seeplatz Süd\"`?\n",
            quoted(source)
        );
        for line in [
            format!("lookup lake.state '{source}' pitch"),
            format!("query lake.state '{source}'"),
        ] {
            check(&folder, &[(&line, 3, "", &error)]);
        }
    }
    // The sides of an axiom, which must be quoted.
    let near = "`pitch < Seeplatz Sud`:1:9: error: `\"Seeplatz Sud\"` is not declared; did you mean \
                `\"Seeplatz Süd\"`?\n";
    let bare = "`Seeplatz Süd < pitch`:1:1: error: in an axiom this name is quoted: `\"Seeplatz \
                Süd\"`\n";
    check(
        &folder,
        &[
            ("add lake.state 'pitch < Seeplatz Sud'", 3, "", near),
            ("add lake.state 'Seeplatz Süd < pitch'", 3, "", bare),
        ],
    );
    // Of what is near to no name, the parts are told.
    let (_, _, errors) = folder.run("list lake.state 'pich and tapp'");
    assert!(
        errors.contains("did you mean `pitch`?") && errors.contains("`tap`?"),
        "{errors}"
    );
}

/// A name that `text` makes up names a record where `text` prints it, and nowhere else.
#[test]
fn made_up_names() {
    let folder = Folder::new();
    let shared = "kind a, b, c\nrole r\na < r some (r some b)\nc < r some (r some b)\n";
    folder.write("shared.gv", shared);
    folder.done("classify shared.gv -o s");
    let text = folder.done("text s");
    assert!(text.contains("let c4 = r some r some b\n"), "{text}");
    check(
        &folder,
        &[
            ("list s c4", 0, "a\nc\n", ""),
            (
                "list s c3",
                3,
                "",
                "`c3`:1:1: error: `c3` is not declared; did you mean `c`?\n",
            ),
        ],
    );
    folder.done("withdraw s 'c < c4'");
    let (status, _, errors) = folder.run("list s c4");
    assert_eq!(
        (status, folder.done("text s").contains("c4")),
        (3, false),
        "{errors}"
    );
    // So a kind can have such a name.
    folder.done("add s 'kind c4'");
    assert_eq!(folder.done("list s c4"), "c4\n");
}
