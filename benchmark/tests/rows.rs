//! Rows by words and byte by byte: what the bits say, at every length near a
//! word's edge and at the longest.

use benchmark::rows::{self, MOST_BYTES, Way};
use reference::random::Random;
use std::collections::BTreeSet;

const WAYS: [Way; 2] = [Way::Words, Way::Bytes];

/// A row with these bits.
fn row(bytes: usize, bits: &BTreeSet<usize>) -> Vec<u8> {
    let mut row = vec![0; bytes];
    bits.iter().for_each(|bit| row[bit / 8] |= 1 << (bit % 8));
    row
}

/// Counts a row, and searches it from each of these bits on.
fn compare(bytes: usize, bits: &BTreeSet<usize>, from: impl Iterator<Item = usize> + Clone) {
    let row = row(bytes, bits);
    for way in WAYS {
        assert_eq!(
            rows::count(way, &row),
            Some(bits.len()),
            "{way:?}, {bytes} bytes"
        );
        for from in from.clone() {
            let expected = bits.range(from..).next().copied().unwrap_or(8 * bytes);
            let found = rows::next(way, &row, from);
            assert_eq!(
                found,
                Some(expected),
                "{way:?}, {bytes} bytes, from {from}: {bits:?}"
            );
        }
    }
}

/// Bit numbers past the end of every row.
const PAST: [usize; 3] = [MOST_BYTES * 8, usize::MAX - 64, usize::MAX];

#[test]
fn one_bit_at_a_time() {
    for bytes in (0..=25).chain(63..=65) {
        let ends = (0..8 * bytes + 70).chain(PAST);
        compare(bytes, &BTreeSet::new(), ends.clone());
        compare(bytes, &(0..8 * bytes).collect(), ends.clone());
        for bit in 0..8 * bytes {
            compare(bytes, &BTreeSet::from([bit]), ends.clone());
        }
    }
}

#[test]
fn random_rows() {
    let mut random = Random::new(3);
    for _ in 0..500 {
        let bytes = random.below(80);
        let bits = (0..random.below(20)).map(|_| random.below(8 * bytes.max(1)));
        let bits = bits.filter(|bit| *bit < 8 * bytes).collect();
        compare(bytes, &bits, (0..8 * bytes + 70).chain(PAST));
    }
}

#[test]
fn the_longest_row() {
    let end = 8 * MOST_BYTES;
    let near = |bit: usize| bit.saturating_sub(2)..bit + 3;
    let bits = BTreeSet::from([0, 63, 64, end / 2 - 1, end / 2, end - 64, end - 1]);
    let from = bits.iter().flat_map(|&bit| near(bit)).chain(PAST);
    compare(MOST_BYTES, &bits, from);
    compare(
        MOST_BYTES,
        &BTreeSet::from([end - 1]),
        [0, end - 1, end].into_iter(),
    );
    for way in WAYS {
        assert_eq!(rows::count(way, &vec![255; MOST_BYTES]), Some(end));
        assert_eq!(rows::count(way, &vec![0; MOST_BYTES + 1]), None);
        assert_eq!(rows::next(way, &vec![0; MOST_BYTES + 1], 0), None);
    }
}
