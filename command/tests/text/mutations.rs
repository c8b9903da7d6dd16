//! Changed texts: never a panic, faults inside the text, and what is accepted is a catalogue.

use crate::sources;
use crate::support::say;
use girvotal::{Catalogue, Question};
use girvotal_command::text::{Failure, Fault, Names, compile, print};
use reference::random::Random;

/// What is put into a text.
pub const PIECES: [&str; 30] = [
    "kind ",
    "role ",
    "let ",
    "then",
    "some",
    "and",
    "any",
    "none",
    "<",
    "=",
    "(",
    ")",
    ",",
    "#",
    "\"",
    "\\",
    "\n",
    "\r\n",
    "\t",
    " ",
    "tap",
    "has",
    "pitch",
    "x",
    "9",
    "é",
    "\u{feff}",
    "\0",
    "\u{301}",
    " \"Seeplatz Süd\" ",
];

/// Changes a text at one place: bytes taken out, doubled or put in, or two lines swapped.
fn changed(random: &mut Random, text: &mut Vec<u8>) {
    let at = random.below(text.len() + 1);
    let end = text.len().min(at + random.below(12));
    match random.below(8) {
        0 => drop(text.drain(at..end)),
        1 => {
            let doubled = text[at..end].to_vec();
            text.splice(at..at, doubled);
        }
        2 => text.insert(at, random.below(256) as u8),
        3 => {
            let mut lines: Vec<&[u8]> = text.split(|&byte| byte == b'\n').collect();
            let (one, other) = (random.below(lines.len()), random.below(lines.len()));
            lines.swap(one, other);
            *text = lines.join(&b'\n');
        }
        _ => {
            let piece = PIECES[random.below(PIECES.len())];
            text.splice(at..at, piece.bytes());
        }
    }
}

/// Whether a fault's line and column are inside a text whose lines have so many characters, or one
/// past a line's end.
fn inside(fault: &Fault, lines: &[usize]) -> bool {
    let line = lines.get(fault.line.wrapping_sub(1));
    line.is_some_and(|line| (1..=line + 1).contains(&fault.column)) && !fault.message.is_empty()
}

/// How many texts were tried, and what came of them.
#[derive(Default)]
pub struct Tally {
    pub right: usize,
    pub wrong: usize,
    /// Right, but over the limits of a catalogue.
    pub refused: usize,
}

impl Tally {
    /// Compiles a text: its catalogue passes questions 1 to 9 and comes back from its exact text, or
    /// its faults are inside it, in order.
    pub fn check(&mut self, text: &[u8]) {
        let lossy = String::from_utf8_lossy(text);
        let lossy = lossy.strip_prefix('\u{feff}').unwrap_or(&lossy);
        match compile(text) {
            Ok(compiled) => {
                let catalogue = Catalogue::new(&compiled.catalogue).expect("an accepted catalogue");
                let exact = print(catalogue, &compiled.names, true);
                let again = compile(exact.as_bytes()).expect("a right text");
                assert_eq!(again.catalogue, compiled.catalogue, "{lossy}");
                self.right += 1;
            }
            Err(Failure::Faults(faults)) => {
                assert!(!faults.is_empty(), "{lossy}");
                let lines = lossy.split('\n').map(|line| line.chars().count());
                let lines: Vec<usize> = lines.collect();
                for fault in &faults {
                    assert!(inside(fault, &lines), "{fault} in\n{lossy}");
                }
                let places = faults.iter().map(|fault| (fault.line, fault.column));
                assert!(places.is_sorted(), "{faults:?}");
                self.wrong += 1;
            }
            Err(Failure::Refused { refusal, detail }) => {
                assert_eq!(refusal.question, Question::Counts, "{lossy}");
                assert!(!detail.is_empty(), "{lossy}");
                self.refused += 1;
            }
        }
    }

    pub fn all(&self) -> usize {
        self.right + self.wrong + self.refused
    }

    pub fn say(&self, what: &str) {
        let Tally {
            right,
            wrong,
            refused,
        } = self;
        let all = self.all();
        say(&format!(
            "texts, {what}: {all}, {right} right, {wrong} wrong, {refused} over the limits"
        ));
    }
}

/// Right texts to begin with: those of data/, and a printed one.
pub fn texts() -> Vec<Vec<u8>> {
    let doubles = sources::file("doubles-0.bin");
    let doubles = Catalogue::new(&doubles).expect("accepted");
    let printed = print(doubles, &Names::numbered(doubles), true).into_bytes();
    let texts = sources::texts();
    let mut texts: Vec<_> = texts.iter().map(|name| sources::file(name)).collect();
    texts.push(printed);
    texts
}

#[test]
fn changed_texts() {
    let mut tally = Tally::default();
    for text in texts() {
        for seed in 0..2_000 {
            let random = &mut Random::new(seed);
            let mut text = text.clone();
            for _ in 0..=random.below(4) {
                changed(random, &mut text);
            }
            tally.check(&text);
        }
    }
    tally.say("changed");
    let Tally { right, wrong, .. } = tally;
    assert!(right > 300 && wrong > 3_000, "{right} right, {wrong} wrong");
    assert_eq!(tally.refused, 0, "a small text is over no limit");
}
