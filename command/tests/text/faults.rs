//! What is told of a wrong text.

use crate::{faults, sources};

/// A misspelt name in the lake's text.
#[test]
fn misspelt_in_the_lake() {
    let text = String::from_utf8(sources::file("lake.gv")).expect("UTF-8");
    let text = text.replace("has some tap", "has some tapp");
    let told = ["8:44: error: `tapp` is not declared; did you mean `tap`?"];
    assert_eq!(faults(text.as_bytes()), told);
}

/// What comes before the line of a case: lines 1 to 3.
const DECLARED: &str =
    "kind tap, pillar, water, \"big tap\"\nrole has, offers\nlet wet = has some tap\n";

/// Checks what is told of a fourth line: columns and messages.
fn check(line: &str, expected: &[&str]) {
    let text = format!("{DECLARED}{line}\ntap < water\n");
    let expected: Vec<String> = expected
        .iter()
        .map(|told| told.split_once(": ").expect("a column and a message"))
        .map(|(column, message)| format!("4:{column}: error: {message}"))
        .collect();
    assert_eq!(faults(text.as_bytes()), expected, "{line}");
}

/// The table of faults.txt.
#[test]
fn lines() {
    let table = include_str!("faults.txt").lines();
    let mut table = table
        .filter(|line| !line.is_empty() && !line.starts_with('#'))
        .peekable();
    let mut count = 0;
    while let Some(line) = table.next() {
        let mut told = vec![];
        while let Some(message) = table.next_if(|message| message.starts_with("    ")) {
            told.push(message.trim());
        }
        check(line, &told);
        count += 1;
    }
    assert!(count > 80);
}

/// Lines with what is seen badly in a table.
#[test]
fn unseen_characters() {
    check(
        "tap <   ",
        &["6: expected a concept, found the end of the line"],
    );
    check("tap <\u{a0}water", &["6: unexpected character U+00A0"]);
    check("tap <\rwater", &["6: unexpected character U+000D"]);
    check(
        "tap < \"wa\tter\"",
        &["10: a name has no control character: U+0009"],
    );
    let mark = "1: unexpected character `\u{feff}` (U+FEFF)";
    check("\u{feff}tap < water", &[mark]);
    let accent = "8: unexpected character `\u{301}` (U+0301)";
    check(
        "tap < é\u{301}",
        &["7: `é` is not declared; declare it first", accent],
    );
}

/// Every error of a text, in order; nothing follows from a faulty declaration.
#[test]
fn all_at_once() {
    let text = "\
kinds pitch, tap
kind corner $, lake shore, \"wide lake\"
kind pitch
role has some, offers
let wet = has some tapp
let dry = lake
corner < wet and dry
kind sauna < shed
kind shed
sauna < pitch and has some later
kind later
later then has < offers
has < offers
";
    let told = [
        "1:1: error: `kinds` is not declared; did you mean `kind`?",
        "2:13: error: unexpected character `$`",
        "3:6: error: `pitch` is declared already, on line 1; take another name",
        "4:10: error: expected `,` or the end of the line, found `some`",
        "5:20: error: `tapp` is not declared; did you mean `tap`?",
        "6:11: error: `let` names a composite, and `lake` is a kind",
        "8:12: error: expected `,` or the end of the line, found `<`",
        "10:28: error: `later` is declared only on line 11; declare it before its use",
        "12:1: error: `later` is a kind, and a role is meant here",
    ];
    assert_eq!(faults(text.as_bytes()), told);
}

/// A name that a list would declare is not searched for among those of a role, and so on: only
/// names that fit are offered, and the first declared of the nearest ones.
#[test]
fn offered_names() {
    let text = "kind tap, top\nrole tip, tup\nlet tep = any\ntep < txp\ntap < txp some tap\n";
    let told = [
        "4:7: error: `txp` is not declared; did you mean `tap`?",
        "5:7: error: `txp` is not declared; did you mean `tip`?",
    ];
    assert_eq!(faults(text.as_bytes()), told);
    let many: String = (0..2_000)
        .map(|number| format!("kind k{number}\n"))
        .collect();
    let told = ["2001:6: error: `k2000` is not declared; declare it first"];
    assert_eq!(faults((many + "k0 < k2000\n").as_bytes()), told);
}

#[test]
fn not_utf8() {
    for (text, told) in [
        (&b"\xff"[..], "1:1: error: the byte 0xFF is not UTF-8"),
        (
            b"kind a\nkind S\xfcd\n",
            "2:7: error: the byte 0xFC is not UTF-8",
        ),
        (
            b"kind $\nkind \xc3\xbc\xc3",
            "2:7: error: the byte 0xC3 is not UTF-8",
        ),
        (
            b"\xef\xbb\xbfkind \xe9",
            "1:6: error: the byte 0xE9 is not UTF-8",
        ),
        (
            b"kind a # \xe2\x82\xac \xe2\x82\r\n",
            "1:12: error: the byte 0xE2 is not UTF-8",
        ),
    ] {
        assert_eq!(faults(text), [told]);
    }
}
