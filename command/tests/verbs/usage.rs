//! Wrong usage, help, and refusals explained.

use girvotal::Question;
use girvotal_command::failure::advice;
use girvotal_command::verbs::VERBS;

use crate::check;
use crate::support::Folder;

#[test]
fn usage() {
    let folder = Folder::with_lake();
    let cases = [
        ("", "a verb is missing; `girvotal --help` lists them"),
        (
            "lokup lake.state a b",
            "`lokup` is no verb; `girvotal --help` lists them; did you mean `lookup`?",
        ),
        (
            "frobnicate",
            "`frobnicate` is no verb; `girvotal --help` lists them",
        ),
        (
            "lookup lake.state pitch",
            "lookup takes STATE A B; usage: girvotal lookup STATE A B | STATE -",
        ),
        (
            "compile lake.gv",
            "one `-o` is needed; usage: girvotal compile TEXT -o CATALOGUE",
        ),
        (
            "compile lake.gv -o",
            "`-o` needs FILE; usage: girvotal compile TEXT -o CATALOGUE",
        ),
        (
            "compile lake.gv -o a -o b",
            "one `-o` is needed; usage: girvotal compile TEXT -o CATALOGUE",
        ),
        (
            "text lake.gv --exakt",
            "text has no option `--exakt`; usage: girvotal text FILE [--exact | --owl | --split]; did you mean `--exact`?",
        ),
        (
            "text lake.gv --exact --owl",
            "only one of `--exact`, `--owl` and `--split` can be given; leave the others out",
        ),
        (
            "add - 'tap < water'",
            "a state that is changed is a file, not `-`; name one",
        ),
        (
            "compile lake.gv -o lake.gv",
            "lake.gv would be replaced by its own output; name another file",
        ),
        (
            "classify w1.bin -o ./w1.bin",
            "./w1.bin would be replaced by its own output; name another file",
        ),
        (
            "write lake.state -o lake.state",
            "lake.state would be replaced by its own output; name another file",
        ),
        (
            "check w1.bin",
            "w1.bin is a catalogue, and a text is meant here; `girvotal text w1.bin` prints one",
        ),
        (
            "update lake.state lake.state",
            "lake.state is a state, and a text is meant here; `girvotal text lake.state` prints one",
        ),
        (
            "update - - --dry-run",
            "only one of STATE and TEXT can be `-`; name the other's file",
        ),
        (
            "lookup lake.state pitch pitch pitch",
            "lookup takes STATE A B; usage: girvotal lookup STATE A B | STATE -",
        ),
        (
            "lookup lake.state -- pitch --json pitch",
            "lookup takes STATE A B; usage: girvotal lookup STATE A B | STATE -",
        ),
        (
            "explain 21",
            "no refusal has the number `21`; they are 1 to 20, 22, 23 and 65535",
        ),
        (
            "explain nineteen",
            "no refusal has the number `nineteen`; they are 1 to 20, 22, 23 and 65535",
        ),
        (
            "explain 65555",
            "no refusal has the number `65555`; they are 1 to 20, 22, 23 and 65535",
        ),
    ];
    for (line, sentence) in cases {
        check(
            &folder,
            &[(line, 3, "", &format!("girvotal: {sentence}\n"))],
        );
    }
    let (status, output, errors) = folder.run("lookup --json");
    assert_eq!((status, errors.as_str()), (3, ""));
    assert!(
        output.starts_with("{\"usage\": \"lookup takes STATE A B"),
        "{output}"
    );
}

#[test]
fn help() {
    let folder = Folder::new();
    let overview = folder.done("--help");
    assert_eq!(folder.done("help"), overview);
    assert_eq!(folder.done("help help"), overview);
    let unknown = "girvotal: `lokup` is no verb; `girvotal --help` lists them; did you mean \
                   `lookup`?\n";
    let two = "girvotal: help takes one verb; usage: girvotal help [VERB]\n";
    check(
        &folder,
        &[
            ("help lokup", 3, "", unknown),
            ("help list above", 3, "", two),
        ],
    );
    for verb in VERBS {
        assert!(
            overview.contains(&format!("  {} ", verb.name)),
            "{}",
            verb.name
        );
        let help = folder.done(&format!("{} --help", verb.name));
        let usage = format!("Usage: girvotal {} {}\n", verb.name, verb.usage);
        assert!(help.starts_with(&usage), "{help}");
        assert_eq!(folder.done(&format!("help {}", verb.name)), help);
        for flag in verb.flags {
            assert!(help.contains(flag.help), "{help}");
        }
    }
    assert_eq!(
        folder.done("--version"),
        "girvotal 0.1.0 (ABI 1, state file 1)\n"
    );
}

#[test]
fn explained() {
    let folder = Folder::new();
    for question in Question::ALL {
        let text = folder.done(&format!("explain {}", question.number()));
        let name = question.name();
        let lines = [
            format!("{} ({name}): {}", question.number(), question.sentence()),
            format!("What to do: {}", question.advice()),
            format!("With the command: {}", advice(*question)),
        ];
        assert_eq!(text.lines().collect::<Vec<_>>(), lines);
    }
    let json = folder.done("explain 196614 --json");
    assert!(json.ends_with("\"record\": 3}\n"), "{json}");
    assert_eq!(folder.done("explain 0"), "0: accepted\n");
}
