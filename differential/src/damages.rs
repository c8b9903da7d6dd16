//! Catalogues that are damaged, or that have other axioms.

use crate::case::Damage;
use reference::catalogue::{Catalogue, HEADER_LENGTH};
use reference::random::Random;
use std::collections::BTreeSet;

/// A change of a catalogue's bytes: mostly one that is refused.
pub fn damage(random: &mut Random, catalogue: &Catalogue) -> Damage {
    let bytes = catalogue.bytes();
    let changed = match random.below(10) {
        0..3 => any_byte(random, bytes.clone()),
        3 => header_field(random, bytes.clone()),
        4..6 => record_field(random, catalogue, bytes.clone()),
        6 => other_length(random, bytes.clone()),
        7 => axiom_order(random, catalogue),
        _ => other_axioms(random, catalogue),
    };
    Damage::between(&bytes, &changed)
}

/// One byte, at any value or with one bit turned.
fn any_byte(random: &mut Random, mut bytes: Vec<u8>) -> Vec<u8> {
    let at = random.below(bytes.len());
    bytes[at] = match random.below(2) {
        0 => random.below(256) as u8,
        _ => bytes[at] ^ 1 << random.below(8),
    };
    bytes
}

fn set_word(bytes: &mut [u8], at: usize, word: usize) {
    bytes[at..at + 2].copy_from_slice(&(word as u16).to_le_bytes());
}

/// A field of the header, near the limits.
fn header_field(random: &mut Random, mut bytes: Vec<u8>) -> Vec<u8> {
    let value = [0, 1, 17, 64, 65, 512, 513, 4097, 65_535][random.below(9)];
    set_word(&mut bytes, 2 * random.below(HEADER_LENGTH / 2), value);
    bytes
}

/// A field of a record: near the counts that it must be below, or small.
fn record_field(random: &mut Random, catalogue: &Catalogue, mut bytes: Vec<u8>) -> Vec<u8> {
    let fields = (bytes.len() - HEADER_LENGTH) / 2;
    let n = catalogue.concepts.len();
    let values = [n, n - 1, catalogue.roles, random.below(5), random.below(n)];
    let at = HEADER_LENGTH + 2 * random.below(fields);
    set_word(&mut bytes, at, values[random.below(values.len())]);
    bytes
}

/// Cut, or longer; the total says so, or not.
fn other_length(random: &mut Random, mut bytes: Vec<u8>) -> Vec<u8> {
    let length = match random.below(3) {
        0 => bytes.len() + 1 + random.below(6),
        1 => random.below(HEADER_LENGTH + 4),
        _ => random.below(bytes.len()),
    };
    bytes.resize(length, 0);
    if length >= 2 && random.below(2) == 0 {
        set_word(&mut bytes, 0, length);
    }
    bytes
}

/// Two axioms exchanged, or one twice.
fn axiom_order(random: &mut Random, catalogue: &Catalogue) -> Vec<u8> {
    let mut other = catalogue.clone();
    let count = other.axioms.len();
    if count >= 2 {
        let (one, next) = (random.below(count), random.below(count));
        match random.below(2) {
            0 => other.axioms.swap(one, next),
            _ => other.axioms[one] = other.axioms[next],
        }
    }
    other.bytes()
}

/// Other axioms on the same concepts.
fn other_axioms(random: &mut Random, catalogue: &Catalogue) -> Vec<u8> {
    let n = catalogue.concepts.len();
    let count = random.below(n + 1);
    let axioms: BTreeSet<_> = (0..count)
        .map(|_| (random.below(n), random.below(n)))
        .collect();
    let other = Catalogue {
        axioms: axioms.into_iter().collect(),
        ..catalogue.clone()
    };
    other.bytes()
}
