//! Texts and arguments out of nothing: bytes, words and statements at random, and every byte of a
//! text changed.

use crate::compiled;
use crate::mutations::{PIECES, Tally, texts};
use crate::support::say;
use girvotal::Catalogue;
use girvotal_command::text::{Reader, written};
use reference::random::Random;

/// One of some.
fn one<'a, T: ?Sized>(random: &mut Random, of: &[&'a T]) -> &'a T {
    of[random.below(of.len())]
}

/// Bytes of which all are equally likely, or of those that texts have.
#[test]
fn bytes() {
    let common = "kind role let then some any and<=(),#\"\\\n\r\t \0\u{feff}ü\u{2028}".as_bytes();
    let mut tally = Tally::default();
    for seed in 0..20_000 {
        let random = &mut Random::new(seed);
        let alphabet = random.below(3);
        let length = random.below(200);
        let byte = |_| match alphabet {
            0 => random.below(256) as u8,
            1 => random.below(128) as u8,
            _ => common[random.below(common.len())],
        };
        let text: Vec<u8> = (0..length).map(byte).collect();
        tally.check(&text);
        let marked = ["\u{feff}".as_bytes(), &text, b"\r\n"].concat();
        tally.check(&marked);
    }
    tally.say("random bytes");
    assert!(tally.all() == 40_000 && tally.wrong > 30_000);
}

/// Every byte of the smallest texts changed to every other value, taken out and doubled; every
/// length cut.
#[test]
fn every_byte() {
    let mut tally = Tally::default();
    let mut texts = texts();
    texts.sort_by_key(Vec::len);
    let mut expected = 0;
    for text in &texts[..2] {
        for at in 0..text.len() {
            for value in (0..=255).filter(|&value| value != text[at]) {
                let mut changed = text.clone();
                changed[at] = value;
                tally.check(&changed);
            }
            let (before, after) = text.split_at(at);
            tally.check(before);
            tally.check(&[before, &after[1..]].concat());
            tally.check(&[before, &after[..1], after].concat());
        }
        expected += 258 * text.len();
    }
    tally.say("every byte changed");
    assert_eq!(tally.all(), expected);
    assert!(tally.right > 1_000 && tally.wrong > 10_000);
}

/// Words and signs without order, after a declaration of some.
#[test]
fn words() {
    let mut tally = Tally::default();
    for seed in 0..20_000 {
        let random = &mut Random::new(seed);
        let mut text = String::from(["", "kind tap, x\nrole has\n"][random.below(2)]);
        for _ in 0..random.below(40) {
            text += one(random, &PIECES);
            text += ["", " "][random.below(2)];
        }
        tally.check(text.as_bytes());
    }
    tally.say("words without order");
    assert!(tally.all() == 20_000 && tally.right > 300 && tally.wrong > 10_000);
}

/// What expressions are about.
const DECLARED: &str = "kind a, b, \"ü \\\" \\\\\"\nrole r, s\nlet x = r some a\n";

/// An expression, with a word now and then that does not belong.
fn random_expression(random: &mut Random, depth: usize) -> String {
    const TERMS: [&str; 8] = ["a", "b", "x", "any", "\"ü \\\" \\\\\"", "a", "b", "a"];
    let part = |random: &mut Random| random_expression(random, depth.saturating_sub(1));
    match random.below(if depth == 0 { 1 } else { 6 }) {
        0 | 1 => one(random, &TERMS).to_owned(),
        2 => format!("{} some {}", one(random, &["r", "s"]), part(random)),
        3 => format!("{} and {}", part(random), part(random)),
        4 => format!("({})", part(random)),
        _ if random.below(20) == 0 => one(random, &PIECES).to_owned(),
        _ => format!("r some ({})", part(random)),
    }
}

/// A line of a text, mostly right.
fn random_line(random: &mut Random, number: usize) -> String {
    let end = one(random, &["\n", "\n", "\r\n", " # ü\n", "\t\n"]);
    let [left, right] = [(); 2].map(|()| random_expression(random, 4));
    let roles = [(); 3].map(|()| one(random, &["r", "s"]));
    let [first, second, third] = roles;
    let line = match random.below(8) {
        0 => format!("kind k{number}, \"k {number}\""),
        1 => format!("let l{number} = {left}"),
        2 => format!("{first} < {second}"),
        3 => format!("{first} then {second} < {third}"),
        4 => format!("{left} = {right}"),
        _ => format!("{left} < {right}"),
    };
    line + end
}

/// Statements as the grammar has them, most of them right.
#[test]
fn statements() {
    let mut tally = Tally::default();
    for seed in 0..10_000 {
        let random = &mut Random::new(seed);
        let mut text = DECLARED.to_owned();
        for number in 0..random.below(12) {
            text += &random_line(random, number);
        }
        tally.check(text.as_bytes());
    }
    tally.say("statements");
    assert!(tally.all() == 10_000 && tally.right > 3_000 && tally.wrong > 1_000);
}

/// Lines of up to a hundred thousand characters, and expressions as deep.
#[test]
fn long_lines() {
    let mut tally = Tally::default();
    for seed in 0..300 {
        let random = &mut Random::new(seed);
        let times = [10, 500, 520, 5_000, 12_000][random.below(5)] + random.below(10);
        let (one, other) = (one(random, &PIECES), one(random, &PIECES));
        let begin = ["", "kind ", "a < ", "let x = "][random.below(4)];
        let end = ["", "a", "\n", ")"][random.below(4)];
        let repeated = format!("{one}{other} ").repeat(times);
        tally.check(format!("kind a\nrole has\n{begin}{repeated}{end}").as_bytes());
        let nested = ["(", "has some (", "a and (", "(a and "][random.below(4)];
        let (open, close) = (nested.repeat(times), ")".repeat(times - random.below(2)));
        tally.check(format!("kind a\nrole has\na < {open}a{close}\n").as_bytes());
    }
    tally.say("long lines");
    assert!(tally.all() == 600 && tally.wrong > 300 && tally.right + tally.refused > 10);
}

/// Expressions and axioms of a command line: never a panic, and faults inside the argument, which is
/// one line whatever it holds.
#[test]
fn arguments() {
    let declared = compiled(DECLARED);
    let catalogue = Catalogue::new(&declared.catalogue).expect("accepted");
    let (mut right, mut wrong) = (0, 0);
    for seed in 0..20_000 {
        let random = &mut Random::new(seed);
        let pieces = |random: &mut Random| -> String {
            let pieces = (0..1 + random.below(10)).map(|_| one(random, &PIECES));
            pieces.collect()
        };
        let source = match random.below(4) {
            0 => pieces(random),
            1 => random_expression(random, 5) + &pieces(random),
            2 => random_expression(random, 5),
            _ => format!(
                "{} < {}",
                random_expression(random, 4),
                random_expression(random, 4)
            ),
        };
        let faults = match Reader::of(&declared.names, catalogue).expression(&source) {
            Ok(expression) => {
                let written = written(&expression, &declared.names, catalogue);
                let again = Reader::of(&declared.names, catalogue).expression(&written);
                assert_eq!(again, Ok(expression), "{source:?}: {written}");
                vec![]
            }
            Err(faults) => faults,
        };
        let more = Reader::of(&declared.names, catalogue)
            .axioms(&source)
            .err()
            .unwrap_or_default();
        match faults.is_empty() || more.is_empty() {
            true => right += 1,
            false => wrong += 1,
        }
        let most = 1 + source.chars().count();
        for fault in faults.iter().chain(&more) {
            let inside = fault.line == 1 && (1..=most).contains(&fault.column);
            assert!(inside && !fault.message.is_empty(), "{fault} in {source:?}");
        }
    }
    say(&format!("arguments: 20000, {right} right, {wrong} wrong"));
    assert!(
        right > 5_000 && wrong > 5_000,
        "{right} right, {wrong} wrong"
    );
}
