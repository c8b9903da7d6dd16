//! Calls at random, with what they are lent.

use super::{Trial, asked};
use crate::case::{Buffers, Call, Lengths, fill};
use crate::catalogues::{SHAPES, Shape, catalogue};
use crate::damages::damage;
use crate::lists::Lists;
use reference::calls::Sizes;
use reference::catalogue::{Catalogue, HEADER_LENGTH};
use reference::random::Random;

/// The most bytes of a buffer whose length is any.
const MOST: usize = 300;

/// Bytes in a block of exactly their length.
fn block(bytes: &[u8]) -> Vec<u8> {
    Box::<[u8]>::from(bytes).into_vec()
}

/// A header that fits its records, and records of small numbers.
fn likely(random: &mut Random) -> Vec<u8> {
    let [n, m, h, k, a] = [1, 0, 0, 0, 0].map(|least| least + random.below(4));
    let offsets = [
        20,
        20 + 6 * n,
        20 + 6 * n + 4 * h,
        20 + 6 * n + 4 * h + 6 * k,
    ];
    let total = offsets[3] + 4 * a;
    let header = [total, n, m, h, k, a].into_iter().chain(offsets);
    let records = (HEADER_LENGTH..total).step_by(2);
    let words: Vec<usize> = header.chain(records.map(|_| random.below(4))).collect();
    words
        .iter()
        .flat_map(|&word| (word as u16).to_le_bytes())
        .collect()
}

/// A catalogue: any bytes, likely ones, right ones, or right ones damaged.
fn any_catalogue(random: &mut Random) -> Vec<u8> {
    let mut bytes = vec![0; random.below(MOST)];
    fill(random, &mut bytes);
    match random.below(8) {
        0 => bytes,
        1 => {
            let total = (bytes.len() as u16).to_le_bytes();
            bytes
                .iter_mut()
                .zip(total)
                .for_each(|(byte, of)| *byte = of);
            bytes
        }
        2 => likely(random),
        which => {
            let shape = SHAPES[random.below(SHAPES.len())];
            let n = 1 + random.below(20);
            let right = catalogue(random, shape, n);
            let damage = damage(random, &right);
            match which {
                3 | 4 => damage.applied(&right.bytes()).into_owned(),
                _ => right.bytes(),
            }
        }
    }
}

/// A length: what is asked for, a little less or more, or any.
fn length(random: &mut Random, asked: usize) -> usize {
    match random.below(12) {
        0 => asked.saturating_sub(1),
        1 => random.below(MOST),
        2 => asked + random.below(9),
        _ => asked,
    }
}

/// Entries of an answer: four, sometimes fewer or more.
fn any_answer(random: &mut Random) -> usize {
    match random.below(16) {
        0 => random.below(4),
        1 => 5,
        _ => 4,
    }
}

/// A store: any bytes, zeros, or the classified one, sometimes with a bit turned.
fn fill_store(random: &mut Random, catalogue: &[u8], store: &mut [u8]) {
    match random.below(6) {
        0 => fill(random, store),
        1 => {}
        which => {
            let Ok((_, right)) = reference::calls::classified(catalogue) else {
                return;
            };
            store
                .iter_mut()
                .zip(right)
                .for_each(|(byte, of)| *byte = of);
            if which == 2 && !store.is_empty() {
                let at = random.below(store.len());
                store[at] ^= 1 << random.below(8);
            }
        }
    }
}

/// The lists of a change, right or not as far as the catalogue says.
fn any_lists(random: &mut Random, read: Option<&Catalogue>) -> [Vec<u8>; 2] {
    let in_force = read.map(|read| read.axioms.iter().copied().collect());
    match (random.below(4), read, in_force) {
        (0, _, _) | (_, None, _) | (_, _, None) => [0; 2].map(|_| {
            let mut bytes = vec![0; random.below(40)];
            fill(random, &mut bytes);
            bytes
        }),
        (1, Some(read), Some(in_force)) => Lists::faulty(random, read, &in_force),
        (_, Some(read), Some(in_force)) => Lists::right(random, read, &in_force).bytes(),
    }
}

fn any_call(random: &mut Random, read: Option<&Catalogue>) -> Call {
    let n = read.map_or(4, |read| read.concepts.len());
    let mut number = || match random.below(12) {
        0 => random.below(usize::MAX),
        _ => random.below(n + 1),
    };
    let (first, second) = (number(), number());
    match random.below(9) {
        0 => Call::Check,
        1 | 2 => Call::Classify,
        3 | 4 => {
            let [withdrawn, added] = any_lists(random, read).map(|list| block(&list));
            Call::Change { withdrawn, added }
        }
        5 => Call::Lookup(first, second),
        6 => Call::List(first),
        7 => Call::Row(first),
        _ => Call::Write,
    }
}

impl Trial {
    /// The trial of a seed.
    pub fn new(seed: u64) -> Trial {
        let random = &mut Random::new(seed);
        let catalogue = block(&any_catalogue(random));
        let read = Catalogue::read(&catalogue).ok();
        let call = any_call(random, read.as_ref());
        let sizes = asked(&catalogue).unwrap_or(Sizes {
            store: random.below(MOST),
            work: random.below(MOST),
            list: random.below(MOST),
            output: random.below(MOST),
        });
        let mut buffers = Buffers::new(Lengths {
            store: length(random, sizes.store),
            work: length(random, sizes.work),
            list: length(random, sizes.list),
            output: length(random, sizes.output.min(catalogue.len() + 40)),
            answer: any_answer(random),
        });
        fill_store(random, &catalogue, &mut buffers.store);
        buffers.fill(seed);
        Trial {
            call,
            catalogue,
            buffers,
        }
    }

    /// Every call on a catalogue of 512 concepts, with exactly the lengths that it asks for.
    pub fn large() -> Vec<Trial> {
        let random = &mut Random::new(512);
        let read = catalogue(random, Shape::Mixed, 512);
        let bytes = block(&read.bytes());
        let (_, store) = reference::calls::classified(&bytes).expect("an accepted catalogue");
        let sizes = asked(&bytes).expect("an accepted catalogue");
        let mut buffers = Buffers::new(Lengths {
            store: sizes.store,
            work: sizes.work,
            list: sizes.list,
            output: bytes.len(),
            answer: 4,
        });
        buffers.store = block(&store);
        let in_force = read.axioms.iter().copied().collect();
        let [withdrawn, added] = Lists::right(random, &read, &in_force).bytes();
        let kind = read
            .concepts
            .iter()
            .position(|concept| concept.parts().is_empty());
        let kind = kind.expect("a kind or a top");
        let calls = [
            Call::Check,
            Call::Classify,
            Call::Change {
                withdrawn: block(&withdrawn),
                added: block(&added),
            },
            Call::Lookup(kind, kind),
            Call::List(kind),
            Call::Row(kind),
            Call::Write,
        ];
        let trial = |call| Trial {
            call,
            catalogue: bytes.clone(),
            buffers: buffers.clone(),
        };
        calls.into_iter().map(trial).collect()
    }
}
