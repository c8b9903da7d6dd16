//! Refusals: what is said, and that nothing is changed.

use crate::check;
use crate::support::Folder;

#[test]
fn refusals() {
    let folder = Folder::with_lake();
    let many: String = (0..513).map(|i| format!("kind k{i}\n")).collect();
    folder.write("many.gv", many);
    folder.write("cut.bin", &folder.read("w1.bin")[..79]);
    let mut kind = folder.read("w1.bin");
    kind[20 + 6 * 5] = 4;
    folder.write("kind.bin", kind);
    let before = folder.read("lake.state");
    let over = "a count is outside its limits: 1 to 512 concepts, at most 16 roles, 64 inclusions, \
                64 compositions, 4,096 axioms";
    let outs: String = (0..65).map(|_| " --in 'tap < water'").collect();
    let twice =
        "change lake.state --out 'tap < supplies some water' --in 'tap < supplies some water'";
    let cases = [
        (
            "lookup lake.state pitch 'has some water'",
            "refused (19): `has some water` is in no axiom in force; `girvotal query STATE \
             'has some water'` says which kinds meet it"
                .to_string(),
        ),
        (
            "list lake.state any",
            "refused (19): `any` is in no axiom in force; `girvotal query STATE 'any'` says which \
             kinds meet it"
                .to_string(),
        ),
        ("check many.gv", format!(
                "refused (3): {over}: 513 concepts (513 kinds, 0 composites); drop what nothing uses, or make two catalogues \
                 of it"
            )),
        ("text cut.bin", "refused (2): the catalogue's total is not the length lent: cut.bin; make the file again, by `girvotal compile` or by what wrote it".to_string()),
        (
            "classify kind.bin -o kind.state",
            "refused (5): a concept's kind is above 3 (record 5): kind.bin; make the file again, by `girvotal compile` or by what wrote it".to_string(),
        ),
        (
            "add lake.state 'tap < supplies some water'",
            "refused (16): an axiom to add is in force already: `tap < supplies some water`; leave it out"
                .to_string(),
        ),
        (
            "withdraw lake.state 'pillar < supplies some water'",
            "refused (18): an axiom to withdraw is not in force: `pillar < supplies some water`; `girvotal text STATE` prints those in force"
                .to_string(),
        ),
        (
            "withdraw lake.state 'pillar < has some (tap and water)'",
            "refused (18): an axiom to withdraw is not in force: `pillar < has some (tap and water)`; `girvotal text STATE` prints those in force"
                .to_string(),
        ),
        (
            twice,
            "refused (23): an axiom stands twice in the two lists together: `tap < supplies some \
             water`; name it once"
                .to_string(),
        ),
        (
            &format!("change lake.state{outs}"),
            "refused (22): a list of axioms has more than 64, or not whole ones; make several changes, or `girvotal update STATE TEXT`".to_string(),
        ),
    ];
    for (line, sentence) in cases {
        check(
            &folder,
            &[(line, 2, "", &format!("girvotal: {sentence}\n"))],
        );
        let (status, output, errors) = folder.run(&format!("{line} --json"));
        assert_eq!((status, errors.as_str()), (2, ""), "{line}");
        assert!(
            output.starts_with("{\"refused\": {\"number\": "),
            "{line}: {output}"
        );
    }
    assert!(
        before == folder.read("lake.state"),
        "a refused change leaves the state"
    );
    assert!(!folder.has("lake.state.girvotal-new") && !folder.has("kind.state"));
}

/// Full, by 17: every axiom that 64 kinds can have is 4,096.
#[test]
fn full() {
    let folder = Folder::new();
    let mut text: String = (0..65).map(|i| format!("kind k{i}\n")).collect();
    for i in 0..64 {
        text.extend((0..64).map(|j| format!("k{i} < k{j}\n")));
    }
    folder.write("full.gv", &text);
    folder.done("classify full.gv -o full.state");
    let sentence =
        "girvotal: refused (17): more than 4,096 axioms would be in force; withdraw some first\n";
    check(&folder, &[("add full.state 'k64 < k0'", 2, "", sentence)]);
    folder.done("change full.state --out 'k0 < k0' --in 'k64 < k0'");
}
