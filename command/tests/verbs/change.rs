//! `change`, `add`, `withdraw`.

use girvotal_command::state::State;
use girvotal_command::text::Compiled;

use crate::check;
use crate::support::Folder;

/// Equal records: the one that is named is meant, and an expression stands for any that occurs.
#[test]
fn doubles() {
    let folder = Folder::new();
    let text = "kind a, b, c\nrole r\nlet x = r some a\nlet y = r some a\n";
    folder.write("both.gv", format!("{text}b < x\nb < y\n"));
    folder.done("classify both.gv -o s");
    folder.done("withdraw s 'b < y'");
    assert!(folder.done("text s").ends_with("b < x\n"));
    folder.done("classify both.gv -o t");
    folder.done("change t --out 'b < x' --out 'b < y'");
    assert!(!folder.done("text t").contains('<'));
    folder.write("second.gv", format!("{text}b < y\n"));
    folder.done("classify second.gv -o s");
    for line in ["lookup s b 'r some a'", "lookup s b x", "lookup s b y"] {
        assert_eq!(
            folder.run(line),
            (0, "yes\n".into(), String::new()),
            "{line}"
        );
    }
    folder.done("withdraw s 'b < r some a'");
    assert!(!folder.done("text s").contains('<'));
}

/// After changes, a state is byte for byte the one classified from what it says.
#[test]
fn changed_states_are_fresh() {
    let folder = Folder::with_lake();
    let lines = [
        "withdraw lake.state 'tap < supplies some water'",
        "change lake.state --in 'tap < supplies some (water and electricity)' --in 'pitch = water'",
        "add lake.state 'any < has some any'",
        "change lake.state --out 'pitch = water' --in 'water < pitch and has some (has some tap)'",
        "withdraw lake.state 'any < has some any'",
    ];
    for line in lines {
        folder.done(line);
        let bytes = folder.read("lake.state");
        let state = State::read(&bytes).expect("a state");
        let catalogue = state.site.catalogue().bytes().to_vec();
        let names = state.names;
        let fresh = State::classify(Compiled { catalogue, names })
            .expect("accepted")
            .0;
        assert!(fresh.bytes() == bytes, "{line}");
    }
}

/// A change with a new composite has the counts of a change in a catalogue that has it.
#[test]
fn new_composites() {
    let folder = Folder::new();
    folder.write("a.gv", "kind a, b, c\nrole r, s, t\na < b\n");
    folder.done("classify a.gv -o a.state");
    let unknown = "girvotal: refused (19): `r some c` is in no axiom in force; `girvotal query \
                   STATE 'r some c'` says which kinds meet it\n";
    let counts = "0 lost, 0 gained; one change: 0 axioms out, 1 in\n";
    let gained = counts.to_owned() + "removed 0, returned 0, gained 6\ntouched: a, b\n";
    let counts = "0 lost, 0 gained; one change: 1 axiom out, 0 in\n";
    let removed = counts.to_owned() + "removed 6, returned 0, gained 0\ntouched: a, b\n";
    let counts = "0 lost, 0 gained; one change: 0 axioms out, 0 in\n";
    let nothing = counts.to_owned() + "removed 0, returned 0, gained 0\ntouched: no kind\n";
    let one = "0 lost, 0 gained; one change: 0 axioms out, 1 in\n";
    check(
        &folder,
        &[
            ("lookup a.state a 'r some c'", 2, "", unknown),
            ("add a.state 'b < r some c' --touched", 0, &gained, ""),
            ("lookup a.state a 'r some c'", 0, "yes\n", ""),
            ("withdraw a.state 'b < r some c' --touched", 0, &removed, ""),
            ("change a.state --touched", 0, &nothing, ""),
            ("add a.state 'a = a'", 0, one, ""),
        ],
    );
    let text = folder.done("text a.state");
    assert!(text.contains("\nrole r, s, t\n"), "{text}");
}

/// Changes print what `update` prints, and with `--touched` what they touched.
#[test]
fn told_as_update_does() {
    let folder = Folder::with_lake();
    let text = String::from_utf8(folder.read("lake.gv")).expect("UTF-8");
    let kept = "supplies some water < supplies some water";
    folder.write("dry.gv", text.replace("tap < supplies some water", kept));
    let update = folder.done("update lake.state dry.gv --dry-run");
    let change = format!("--out 'tap < supplies some water' --in '{kept}'");
    assert_eq!(
        folder.done(&format!("change lake.state {change} --dry-run")),
        update
    );
    let lines = [
        format!("change lake.state {change}"),
        "withdraw lake.state 'tap < supplies some water'".into(),
        "add lake.state 'tap < pillar'".into(),
        "add lake.state 'kind sauna'".into(),
    ];
    let before = folder.read("lake.state");
    for line in lines {
        let dry = folder.done(&format!("{line} --dry-run"));
        assert!(before == folder.read("lake.state"), "{line}: a dry run");
        assert_eq!(folder.done(&line), dry, "{line}");
        assert!(before != folder.read("lake.state"), "{line}");
        folder.write("lake.state", &before);
        let (status, output, _) = folder.shell(&format!(
            "girvotal {} --dry-run < lake.state",
            line.replace("lake.state", "-")
        ));
        assert_eq!((status, output), (0, dry), "{line}");
    }
    let line = "withdraw lake.state 'tap < supplies some water' --touched --json";
    let object = "{\"lost\": [{\"below\": \"Seeplatz Süd\", \"above\": \"comfort-pitch\"}], \
                  \"gained\": [], \"withdrawn\": 1, \"added\": 0, \"entered\": 0, \"counts\": \
                  {\"removed\": 30, \"returned\": 16, \"gained\": 0}, \"touched\": \
                  [\"Seeplatz Süd\", \"tap\"]}\n";
    assert_eq!(folder.done(line), object);
}

/// A kind is entered before anything is said of it.
#[test]
fn kinds_entered() {
    let folder = Folder::with_lake();
    let entered = "0 lost, 0 gained; one change: 0 axioms out, 0 in, 1 kind entered\n";
    let both = "+ sauna < pillar\n0 lost, 1 gained; one change: 0 axioms out, 1 in, 2 kinds \
                entered\n";
    let taken = |name: &str, column: usize| {
        format!(
            "`kind x, {name}`:1:{column}: error: `{name}` is declared already; take another name\n"
        )
    };
    check(
        &folder,
        &[
            ("add lake.state 'kind \"Platz 9\"'", 0, entered, ""),
            ("lookup lake.state 'Platz 9' pitch", 1, "no\n", ""),
            ("add lake.state 'kind x, tap'", 3, "", &taken("tap", 9)),
            ("add lake.state 'kind x, has'", 3, "", &taken("has", 9)),
            ("add lake.state 'kind x, x'", 3, "", &taken("x", 9)),
            (
                "change lake.state --in 'sauna < pillar' --in 'kind sauna, steam'",
                0,
                both,
                "",
            ),
            ("lookup lake.state sauna pillar", 0, "yes\n", ""),
        ],
    );
    let text = folder.done("text lake.state");
    assert!(
        text.contains("\"Platz 9\", sauna, steam\n") && !text.contains("x,"),
        "{text}"
    );
    for line in [
        "withdraw lake.state 'kind sauna'",
        "add lake.state 'role by'",
    ] {
        let (status, _, errors) = folder.run(line);
        assert!(
            status == 3 && errors.contains("update STATE TEXT"),
            "{errors}"
        );
    }
    // Under what everything lies under, it lies too.
    folder.done("add lake.state 'any < pitch'");
    let under = "+ barrel < pitch\n0 lost, 1 gained; one change: 0 axioms out, 0 in, 1 kind \
                 entered\n";
    assert_eq!(folder.done("add lake.state 'kind barrel'"), under);
    // As many as there is room for.
    let kinds: String = (0..512).map(|i| format!("kind k{i}\n")).collect();
    folder.write("full.gv", kinds);
    folder.done("classify full.gv -o full.state");
    let (status, _, errors) = folder.run("add full.state 'kind more'");
    assert!(status == 2 && errors.contains("513 concepts"), "{errors}");
}
