//! The crate, the header `include/girvotal.h` and `docs/REFUSALS.md` say the same: constants,
//! sentences, functions.

use girvotal::{Question, exported};
use std::collections::BTreeMap;
use std::path::Path;

/// A file of the repository.
fn text(name: &str) -> String {
    let path = Path::new(env!("CARGO_MANIFEST_DIR")).join("..").join(name);
    std::fs::read_to_string(&path).unwrap_or_else(|error| panic!("{}: {error}", path.display()))
}

/// The words, strings and signs of a text in C or Rust; comments are left out.
fn tokens(mut text: &str) -> Vec<&str> {
    let word = |c: char| c.is_ascii_alphanumeric() || c == '_';
    let mut tokens = vec![];
    while let Some(first) = text.chars().next() {
        let comment = ["/*", "//"].iter().position(|&mark| text.starts_with(mark));
        let length = match (comment, first) {
            (Some(0), _) => text.find("*/").expect("the comment's end") + 2,
            (Some(_), _) => text.find('\n').unwrap_or(text.len()),
            (_, '"') => text[1..].find('"').expect("the string's end") + 2,
            (_, first) if word(first) => text.find(|c| !word(c)).unwrap_or(text.len()),
            (_, first) => first.len_utf8(),
        };
        let (token, rest) = text.split_at(length);
        if comment.is_none() && !first.is_whitespace() {
            tokens.push(token);
        }
        text = rest;
    }
    tokens
}

/// What stands between quotes.
fn unquoted(token: &str) -> Option<&str> {
    token.strip_prefix('"')?.strip_suffix('"')
}

/// The numbers that the header gives to names, by `#define` or in an `enum`.
fn constants<'t>(header: &[&'t str]) -> BTreeMap<&'t str, usize> {
    let given = |part: &[&'t str]| match part {
        ["define", name, number, ..] | [name, "=", number, ..] => {
            Some((*name, number.parse().ok()?))
        }
        _ => None,
    };
    header.windows(3).filter_map(given).collect()
}

/// The tokens after some and before the next of another.
fn between<'a, 't>(tokens: &'a [&'t str], start: &[&str], end: &str) -> &'a [&'t str] {
    let place = tokens.windows(start.len()).position(|part| part == start);
    let after = &tokens[place.expect("the start") + start.len()..];
    let length = after.iter().position(|token| *token == end);
    &after[..length.expect("the end")]
}

/// What `girvotal_meaning` returns in each case, by the case's name; before the cases it is `if`.
fn meanings<'t>(header: &[&'t str]) -> BTreeMap<&'t str, String> {
    let mut body = between(header, &["girvotal_meaning"], "girvotal_entry").iter();
    let mut meanings = BTreeMap::new();
    let mut case = "";
    while let Some(&token) = body.next() {
        match token {
            "case" => case = body.next().expect("a constant"),
            "if" | "default" => case = token,
            "return" => {
                let strings = body.by_ref().map_while(|token| unquoted(token));
                let said = meanings.insert(case, strings.collect());
                assert_eq!(said, None, "{case} once");
            }
            _ => {}
        }
    }
    meanings
}

/// The functions of a table of calls, each with what stands of its parameters.
macro_rules! calls {
    ($($(#[$doc:meta])* $name:ident($($parameter:ident: $kind:ty),*);)*) => {
        const CALLS: &[(&str, &[(&str, &str)])] = &[$((
            concat!("girvotal_", stringify!($name)),
            &[$((stringify!($parameter), stringify!($kind))),*],
        )),*];
    };
}

include!("../src/table.rs");

/// A parameter of the table as the header declares it.
fn declared((name, kind): (&str, &str)) -> String {
    let (pointer, length) = match kind {
        "usize" => return format!("size_t {name}"),
        "&[u8]" => (format!("const uint8_t * {name}"), format!("{name}_length")),
        "&mut [u8]" => (format!("uint8_t * {name}"), format!("{name}_length")),
        "&mut [u64]" => (format!("uint64_t * {name}"), format!("{name}_length")),
        other => panic!("{other}"),
    };
    format!("{pointer} , size_t {length}")
}

/// The constant in C of a question.
fn constant(question: Question) -> String {
    format!(
        "GIRVOTAL_{}",
        question.name().replace(' ', "_").to_uppercase()
    )
}

#[test]
fn constants_of_the_header() {
    let header = text("include/girvotal.h");
    let constants = constants(&tokens(&header));
    for (name, value) in [
        ("ABI", girvotal::ABI as usize),
        ("CATALOGUE_MOST", girvotal::CATALOGUE_MOST),
        ("STORE_MOST", girvotal::STORE_MOST),
        ("WORK_MOST", girvotal::WORK_MOST),
        ("LIST_MOST", girvotal::LIST_MOST),
        ("AXIOMS_LENGTH", 4 * girvotal::AXIOMS_MOST),
        ("ENTRIES", exported::ENTRIES),
        ("SHORT_ANSWER", exported::SHORT_ANSWER),
    ] {
        let name = format!("GIRVOTAL_{name}");
        assert_eq!(constants.get(&name[..]), Some(&value), "{name}");
    }
    let version = format!("#define GIRVOTAL_VERSION \"{}\"", env!("CARGO_PKG_VERSION"));
    assert!(header.lines().any(|line| line == version), "{version}");
}

/// Every question has its constant and its sentence, and there are no others.
#[test]
fn questions_of_the_header() {
    let header = text("include/girvotal.h");
    let header = tokens(&header);
    let constants = constants(&header);
    let meanings = meanings(&header);
    for &question in Question::ALL {
        let name = constant(question);
        assert_eq!(constants.get(&name[..]), Some(&question.number()), "{name}");
        let meaning = meanings.get(&name[..]).map(String::as_str);
        assert_eq!(meaning, Some(question.sentence()), "{name}");
    }
    assert_eq!(meanings["if"], "accepted");
    assert_eq!(meanings["default"], Question::Other(0).sentence());
    assert_eq!(meanings.len(), Question::ALL.len() + 2);
    let all = between(&header, &["enum", "girvotal_question", "{"], "}");
    assert_eq!(
        all.split(|token| *token == "=").count(),
        Question::ALL.len() + 1
    );
}

/// The table has the header's functions, in its order, with its parameters.
#[test]
fn functions_of_the_header() {
    let header = text("include/girvotal.h");
    let header = tokens(&header);
    let prototypes = header.split(|token| [";", "{", "}"].contains(token));
    let prototypes: Vec<String> = prototypes
        .filter(|prototype| prototype.first() == Some(&"size_t"))
        .filter(|prototype| prototype.last() == Some(&")"))
        .map(|prototype| prototype.join(" "))
        .collect();
    let expected = CALLS.iter().map(|(name, parameters)| {
        let answer = ("answer", "&mut [u64]");
        let all = parameters.iter().copied().chain([answer]).map(declared);
        format!("size_t {name} ( {} )", all.collect::<Vec<_>>().join(" , "))
    });
    assert_eq!(prototypes, expected.collect::<Vec<String>>());
}

/// The list of questions is the table, in its order and with no other entry.
#[test]
fn questions_of_the_document() {
    let document = text("docs/REFUSALS.md");
    let entries = document.split("\n- **").skip(1);
    let entries = entries.map(|entry| entry.split("\n\n").next().unwrap_or(entry));
    let entries: Vec<String> = entries.map(one_line).collect();
    let expected = Question::ALL.iter().map(|&question| {
        let (first, rest) = question.advice().split_at(1);
        format!(
            "{}** `{}`, `{question:?}`: {}. {}{rest}.",
            question.number(),
            constant(question),
            question.sentence(),
            first.to_uppercase()
        )
    });
    assert_eq!(entries, expected.collect::<Vec<String>>());
}

/// A text with single spaces between its words.
fn one_line(text: &str) -> String {
    text.split_whitespace().collect::<Vec<&str>>().join(" ")
}
