//! Damaged state files: each byte changed, each length cut, bytes appended. With the checksum as it
//! was, all are refused. With the checksum written anew, a file is refused, or it is the one that
//! its own bytes say: every lookup answers as the reference does with the catalogue and the store in
//! the file, and classified again it is what the reference makes of that catalogue.

mod support;

use girvotal::{Concept, Question};
use girvotal_command::state::State;
use girvotal_command::text::{Compiled, Names, compile, is_name};
use reference::calls;
use reference::random::Random;
use std::collections::HashSet;
use std::ops::Range;
use support::{data, say};

const LENGTH_AT: usize = 16;
const STORE_LENGTH_AT: usize = 40;
const HEADER: usize = 64;

/// A number of the header.
fn number(bytes: &[u8], at: usize) -> usize {
    let number = bytes[at..].first_chunk().expect("four bytes");
    u32::from_le_bytes(*number) as usize
}

fn put(bytes: &mut [u8], at: usize, number: u32) {
    bytes[at..at + 4].copy_from_slice(&number.to_le_bytes());
}

/// The section whose offset and length stand at a place of the header.
fn section(bytes: &[u8], at: usize) -> Range<usize> {
    let from = number(bytes, at);
    from..from + number(bytes, at + 4)
}

fn names(bytes: &[u8]) -> Range<usize> {
    section(bytes, 20)
}

fn catalogue(bytes: &[u8]) -> Range<usize> {
    section(bytes, 28)
}

fn store(bytes: &[u8]) -> Range<usize> {
    section(bytes, 36)
}

/// Writes the checksum anew: zlib's crc32 from byte 16 on, bit by bit.
fn seal(bytes: &mut [u8]) {
    let mut sum = u32::MAX;
    for &byte in &bytes[16..] {
        sum ^= u32::from(byte);
        for _ in 0..8 {
            sum = (sum >> 1) ^ (0xEDB8_8320 & (sum & 1).wrapping_neg());
        }
    }
    put(bytes, 12, !sum);
}

/// The state of a catalogue or text.
fn made(compiled: Compiled) -> Vec<u8> {
    let (state, _) = State::classify(compiled).expect("an accepted catalogue");
    state.bytes()
}

fn of_text(name: &str) -> Vec<u8> {
    let text = std::fs::read(data().join(name)).expect("a text");
    made(compile(&text).expect("a right text"))
}

/// An answer to a lookup, or the number of its refusal.
type Answer = Result<bool, usize>;

/// All lookups with a catalogue and a store, by the reference.
fn answers(catalogue: &[u8], store: &[u8], concepts: usize) -> Vec<Answer> {
    let lookup = |c, d| calls::lookup(catalogue, c, d, store).map_err(|refusal| refusal.number);
    let pairs = (0..concepts).flat_map(|c| (0..concepts).map(move |d| (c, d)));
    pairs.map(|(c, d)| lookup(c, d)).collect()
}

/// All lookups in a state.
fn answered(state: &State) -> Vec<Answer> {
    let concepts = state.names.concepts.len() as u16;
    let lookup = |c, d| state.site.lookup(Concept(c), Concept(d));
    let pairs = (0..concepts).flat_map(|c| (0..concepts).map(move |d| (c, d)));
    let answer = |(c, d)| lookup(c, d).map_err(|refusal| refusal.question.number());
    pairs.map(answer).collect()
}

/// How many files were tried, and what came of them.
#[derive(Default)]
struct Tally {
    refused: usize,
    accepted: usize,
    /// Accepted ones of which a fresh classification answers otherwise: no damage makes them, for
    /// their checksum was written anew.
    forged: usize,
}

impl Tally {
    /// A file that must be refused.
    fn refuse(&mut self, bytes: &[u8], what: &str) {
        assert!(State::read(bytes).is_err(), "{what} is accepted");
        self.refused += 1;
    }

    /// A file that is refused, or is what its bytes say.
    fn check(&mut self, bytes: &[u8], what: &str) {
        let Ok(state) = State::read(bytes) else {
            self.refused += 1;
            return;
        };
        self.accepted += 1;
        assert!(state.bytes() == bytes, "{what} is another state");
        let (held, rows) = (&bytes[catalogue(bytes)], &bytes[store(bytes)]);
        assert_eq!(state.site.catalogue().bytes(), held, "{what}");
        check_names(&state.names, &bytes[names(bytes)], what);
        let answers_now = answered(&state);
        let concepts = state.names.concepts.len();
        assert_eq!(answers_now, answers(held, rows, concepts), "{what}");
        let occurs = Question::Occurs.number();
        let allowed = |answer: &Answer| answer.is_ok() || *answer == Err(occurs);
        assert!(answers_now.iter().all(allowed), "{what}");
        let State { names, .. } = state;
        let held = held.to_vec();
        let (_, fresh) = calls::classified(&held).expect("an accepted catalogue");
        let again = made(Compiled {
            catalogue: held.clone(),
            names,
        });
        assert_eq!(again[store(&again)], fresh, "{what}");
        self.forged += usize::from(answers(&held, &fresh, concepts) != answers_now);
    }

    fn all(&self) -> usize {
        self.refused + self.accepted
    }

    fn say(&self, what: &str) {
        say(&format!(
            "states, {what}: {} files, {} refused, {} accepted as what their bytes say ({} of these \
             are no classification of their catalogue)",
            self.all(),
            self.refused,
            self.accepted,
            self.forged
        ));
    }
}

/// Checks that names are those of a section: the bytes between its offsets.
fn check_names(read: &Names, section: &[u8], what: &str) {
    let concepts = read.concepts.iter();
    let concepts = concepts.map(|name| name.as_deref().unwrap_or(""));
    let mut seen = HashSet::new();
    for (i, name) in concepts
        .chain(read.roles.iter().map(String::as_str))
        .enumerate()
    {
        let bytes = &section[number(section, 4 * i)..number(section, 4 * i + 4)];
        assert_eq!(name.as_bytes(), bytes, "{what}");
        let good = is_name(name) && seen.insert(name);
        assert!(good || name.is_empty(), "{what}: {name:?}");
    }
}

/// Every byte of a file, changed to values.
fn each_byte(
    bytes: &[u8],
    values: impl Fn(u8) -> Vec<u8>,
    mut check: impl FnMut(&mut [u8], usize),
) {
    let mut changed = bytes.to_vec();
    for at in 0..bytes.len() {
        for value in values(bytes[at]) {
            changed[at] = value;
            check(&mut changed, at);
            changed.copy_from_slice(bytes);
        }
    }
}

/// All values but a byte's own.
fn all_values(byte: u8) -> Vec<u8> {
    (0..=255).filter(|&value| value != byte).collect()
}

/// A byte with one bit changed.
fn flipped(byte: u8) -> Vec<u8> {
    (0..8).map(|bit| byte ^ (1 << bit)).collect()
}

/// With the checksum as it was, every change is found.
#[test]
fn damaged() {
    let mut tally = Tally::default();
    let mut expected = 0;
    for name in ["w1.gv", "lake.gv"] {
        let bytes = of_text(name);
        assert!(State::read(&bytes).is_ok());
        expected += 256 * bytes.len() + 128;
        each_byte(&bytes, all_values, |changed, at| {
            tally.refuse(changed, &format!("{name}, byte {at}"));
        });
        for length in 0..bytes.len() {
            tally.refuse(&bytes[..length], &format!("{name}, cut to {length}"));
        }
        for more in 1..=64 {
            for value in [0, 255] {
                let longer = [&bytes[..], &vec![value; more]].concat();
                tally.refuse(&longer, &format!("{name}, {more} more"));
            }
        }
    }
    tally.say("checksum as it was");
    assert_eq!((tally.refused, tally.accepted), (expected, 0));
}

/// With the checksum written anew: headers, gaps and lengths are refused still, and a name is no
/// part of an answer.
#[test]
fn sealed() {
    let mut tally = Tally::default();
    type Values = fn(u8) -> Vec<u8>;
    let each: [(&str, Values); 2] = [("w1.gv", all_values), ("lake.gv", flipped)];
    for (name, values) in each {
        let bytes = of_text(name);
        let before = answered(&State::read(&bytes).expect("a state"));
        let (named, held, rows) = (names(&bytes), catalogue(&bytes), store(&bytes));
        each_byte(&bytes, values, |changed, at| {
            let what = format!("{name}, byte {at} is {}", changed[at]);
            let checksum = (12..16).contains(&at);
            if !checksum {
                seal(changed);
            }
            if named.contains(&at)
                && let Ok(state) = State::read(changed)
            {
                assert_eq!(answered(&state), before, "{what}");
            }
            match named.contains(&at) || held.contains(&at) || rows.contains(&at) {
                true => tally.check(changed, &what),
                false => tally.refuse(changed, &what),
            }
        });
    }
    tally.say("checksum written anew");
    assert!(tally.refused > 30_000 && tally.accepted > 10_000);
}

/// With length and checksum written anew, a file that is cut or longer is refused; so is one of
/// which another number of the header is wrong.
#[test]
fn lengths_and_header() {
    let mut tally = Tally::default();
    for name in ["w1.gv", "lake.gv"] {
        let bytes = of_text(name);
        for length in HEADER..bytes.len() {
            let mut cut = bytes[..length].to_vec();
            put(&mut cut, LENGTH_AT, length as u32);
            seal(&mut cut);
            tally.refuse(&cut, &format!("{name}, cut to {length}"));
            let rows = length.saturating_sub(store(&bytes).start);
            put(&mut cut, STORE_LENGTH_AT, rows as u32);
            seal(&mut cut);
            tally.refuse(&cut, &format!("{name}, store cut to {rows}"));
        }
        for more in 1..=64 {
            let mut longer = [&bytes[..], &vec![0; more]].concat();
            put(&mut longer, LENGTH_AT, (bytes.len() + more) as u32);
            seal(&mut longer);
            tally.refuse(&longer, &format!("{name}, {more} more"));
            let rows = store(&bytes).len() + more;
            put(&mut longer, STORE_LENGTH_AT, rows as u32);
            seal(&mut longer);
            tally.refuse(&longer, &format!("{name}, store {more} longer"));
        }
        for at in (16..HEADER).step_by(4) {
            let (right, length) = (number(&bytes, at) as u32, bytes.len() as u32);
            let near = [1, 4, 8].map(|by| [right.wrapping_sub(by), right + by]);
            let mut values = near.concat();
            values.extend([0, 1, 63, 64, 65, length - 1, length, length + 1]);
            values.extend([
                512,
                65_535,
                65_536,
                1 << 31,
                (1 << 31) - 1,
                u32::MAX - 7,
                u32::MAX,
            ]);
            for value in values.into_iter().filter(|&value| value != right) {
                let mut changed = bytes.clone();
                put(&mut changed, at, value);
                seal(&mut changed);
                tally.refuse(&changed, &format!("{name}, {value} at {at}"));
            }
        }
    }
    tally.say("lengths and header");
    assert!(tally.refused > 2_000 && tally.accepted == 0);
}

/// Several bytes changed at once, in states of random catalogues, the checksum written anew.
#[test]
fn several_changes() {
    let mut tally = Tally::default();
    for seed in 0..20_000 {
        let random = &mut Random::new(seed);
        let catalogue = random.catalogue(10).bytes();
        let names = Names::numbered(girvotal::Catalogue::new(&catalogue).expect("accepted"));
        let mut bytes = made(Compiled { catalogue, names });
        let one_section = [names_and_rest(&bytes), store(&bytes)];
        for _ in 0..1 + random.below(4) {
            let within = one_section[random.below(2)].clone();
            if within.is_empty() {
                continue;
            }
            let at = within.start + random.below(within.len());
            bytes[at] = match random.below(3) {
                0 => random.below(256) as u8,
                1 => bytes[at] ^ (1 << random.below(8)),
                _ => bytes[at].wrapping_add(1),
            };
        }
        seal(&mut bytes);
        tally.check(&bytes, &format!("seed {seed}"));
    }
    tally.say("several changes, seeds 0 to 19999");
    assert!(tally.refused > 5_000 && tally.accepted > 500);
}

/// All but the header and the store.
fn names_and_rest(bytes: &[u8]) -> Range<usize> {
    HEADER..catalogue(bytes).end
}
