//! As many kinds as there can be.

use girvotal_command::state::State;

use crate::picture::{places, state};

/// A text of so many kinds `a000`, `a001`, .. and more lines.
fn kinds(count: usize, lines: impl IntoIterator<Item = String>) -> State {
    let names: Vec<String> = (0..count).map(name).collect();
    let mut text = format!("kind {}\n", names.join(", "));
    text.extend(lines);
    state(&text)
}

fn name(number: usize) -> String {
    format!("a{number:03}")
}

fn axiom(below: usize, above: usize) -> String {
    format!("{} < {}\n", name(below), name(above))
}

#[test]
fn all_equal() {
    let state = kinds(512, (0..512).map(|i| axiom(i, (i + 1) % 512)));
    let places = places(&state);
    let names: Vec<String> = (0..512).map(name).collect();
    assert_eq!((places.len(), &places[0].names), (1, &names));
}

#[test]
fn chain() {
    let state = kinds(512, (1..512).map(|i| axiom(i, i - 1)));
    for (i, place) in places(&state).iter().enumerate() {
        let shown = (place.names[0].as_str(), place.depth, place.below);
        assert_eq!(shown, (name(i).as_str(), i, 511 - i));
    }
}

#[test]
fn flat() {
    let under_one = places(&kinds(512, (1..512).map(|i| axiom(i, 0))));
    assert_eq!((under_one.len(), under_one[0].below), (512, 511));
    let apart = places(&kinds(512, []));
    assert!(apart.iter().all(|place| place.depth == 0 && !place.used));
    assert_eq!(apart.len(), 512);
}

/// 256 steps of two, each under both of the step above: 2^255 ways down.
#[test]
fn ladder() {
    let under = |i: usize| [axiom(i, i / 2 * 2 - 2), axiom(i, i / 2 * 2 - 1)];
    let places = places(&kinds(512, (2..512).flat_map(under)));
    assert_eq!(places.len(), 2 + 255 * 4);
    assert_eq!((places[0].below, places[1].below), (510, 508));
}

/// 257 kinds under each of 128: 32,896 places below them.
#[test]
fn many_places() {
    let all: Vec<String> = (0..128).map(name).collect();
    let all = all.join(" and ");
    let state = kinds(385, (128..385).map(|i| format!("{} < {all}\n", name(i))));
    let places = places(&state);
    assert_eq!(places.len(), 128 + 128 * 257);
    assert_eq!(places.iter().filter(|place| place.first).count(), 385);
}
