//! The input of gate_running: lists of calls.

use crate::catalogue::{Axiom, Catalogue, list};
use crate::inputs;
use crate::random::Random;
use crate::running::{CHANGE, CLASSIFY, ENTRIES, LIST, ROOM, SIZE};
use crate::store::Layout;
use std::io;
use std::path::Path;

/// A kind of call, and the bytes of its lists.
type Call = (u8, [Vec<u8>; 2]);

/// The lists of a classify are not read.
fn afresh() -> Call {
    (CLASSIFY, [vec![255; ROOM], vec![7; 3]])
}

fn change(withdrawn: &[Axiom], added: &[Axiom]) -> Call {
    (CHANGE, [list(withdrawn), list(added)])
}

/// A list of calls as bytes; past its lists a call has other bytes.
fn bytes(calls: &[Call]) -> Vec<u8> {
    let length = |list: &Vec<u8>| (list.len() as u16).to_le_bytes();
    let room = |list: &Vec<u8>| [&list[..], &vec![9; ROOM - list.len()]].concat();
    let one = |(kind, [out, into]): &Call| {
        let head = [&[*kind][..], &length(out), &length(into)].concat();
        [head, room(out), room(into)].concat()
    };
    calls.iter().flat_map(one).collect()
}

/// The numbers of a case that say what is lent.
type Lent = [usize; 4];

/// What a catalogue and so many calls ask for.
fn enough(catalogue: &Catalogue, calls: usize) -> Lent {
    let layout = Layout::new(catalogue);
    let (store, work) = (layout.store_length(), layout.work_length());
    [store, work, LIST * calls, ENTRIES * calls]
}

fn case(input: &mut Vec<u8>, lent: Lent, catalogue: &[u8], list: &[u8]) {
    let lengths = [catalogue.len(), list.len()];
    for number in lent.into_iter().chain(lengths) {
        input.extend((number as u16).to_le_bytes());
    }
    input.extend([catalogue, list].concat());
}

/// W3 and W5 of document 01 in a row, request Four's moves of W1's axioms, changes
/// that are refused, and a classify that starts over.
fn w1_calls() -> Vec<Call> {
    let twice = list(&[(7, 7), (7, 7)]);
    vec![
        afresh(),
        change(&[(1, 5)], &[]),
        change(&[(1, 5)], &[]),
        change(&[], &[(1, 5)]),
        change(&[], &[(1, 5)]),
        change(&[(1, 5)], &[(0, 6)]),
        change(&[(0, 6)], &[(1, 5)]),
        change(&[(0, 4)], &[(2, 4)]),
        change(&[(2, 4), (6, 3)], &[(0, 4), (0, 5)]),
        change(&[], &[]),
        change(&[(6, 3)], &[(7, 0)]),
        change(&[(0, 7)], &[]),
        (CHANGE, [twice.clone(), vec![]]),
        (CHANGE, [twice.clone(), vec![0; 257]]),
        (CHANGE, [vec![0; 260], vec![]]),
        (CHANGE, [twice[..7].to_vec(), vec![]]),
        (CHANGE, [vec![], twice[..1].to_vec()]),
        afresh(),
    ]
}

/// A catalogue's axioms withdrawn at once, the last one first, and added back: the
/// first ones, and the others for these.
fn out_and_in(catalogue: &Catalogue) -> Vec<Call> {
    let axioms = &catalogue.axioms;
    let reversed: Vec<Axiom> = axioms.iter().rev().copied().collect();
    let (first, others) = axioms.split_at(axioms.len() / 2);
    vec![
        afresh(),
        change(&reversed, &[]),
        change(&[], first),
        change(first, others),
        change(&[], first),
    ]
}

/// Random changes of own and of any axioms; now and then a classify.
fn any_calls(catalogue: &Catalogue, count: usize) -> Vec<Call> {
    let random = &mut Random::new(count as u64);
    let (n, own) = (catalogue.concepts.len(), &catalogue.axioms);
    let edits = (1..count).map(|_| {
        let mut some = |most: usize, of_its_own: usize| -> Vec<Axiom> {
            let one = |random: &mut Random| match random.below(8) < of_its_own {
                true => own[random.below(own.len())],
                false => (random.below(n), random.below(n)),
            };
            (0..random.below(most)).map(|_| one(random)).collect()
        };
        let (out, into) = (some(3, 7), some(4, 2));
        match random.below(20) {
            0 => afresh(),
            _ => change(&out, &into),
        }
    });
    std::iter::once(afresh()).chain(edits).collect()
}

/// The program's input.
pub fn input(data: &Path) -> io::Result<Vec<u8>> {
    let mut input = vec![];
    let read = |name| {
        let bytes = inputs::catalogue(data, name)?;
        let catalogue = Catalogue::read(&bytes).expect("an accepted catalogue");
        Ok::<_, io::Error>((bytes, catalogue))
    };
    // Right lists, with just what they ask for, and with more.
    for name in ["w6", "w7", "self-axiom", "tops"] {
        let (bytes_of, catalogue) = read(name)?;
        let calls = bytes(&out_and_in(&catalogue));
        let lent = enough(&catalogue, calls.len() / SIZE);
        case(&mut input, lent, &bytes_of, &calls);
    }
    let (small, catalogue) = read("small-1")?;
    let calls = bytes(&any_calls(&catalogue, 30));
    case(&mut input, [u16::MAX.into(); 4], &small, &calls);
    // W8, and its first axiom.
    let (w8, catalogue) = read("w8")?;
    let calls = bytes(&[afresh(), change(&[], &[(0, 4)]), change(&[(0, 4)], &[])]);
    case(
        &mut input,
        enough(&catalogue, 3).map(|n| n + 11),
        &w8,
        &calls,
    );
    // W1: no call, one, and those above; too short for classify or for all.
    let (w1, catalogue) = read("w1")?;
    let calls = w1_calls();
    for count in [0, 1, calls.len()] {
        let lent = enough(&catalogue, count);
        case(&mut input, lent, &w1, &bytes(&calls[..count]));
    }
    let two = bytes(&calls[..2]);
    let lent = enough(&catalogue, 2);
    for which in [1, 2, 4, 8, 12] {
        let short = std::array::from_fn(|i| lent[i] - (which >> i & 1));
        case(&mut input, short, &w1, &two);
    }
    for name in ["w1-cut", "w1-fields", "w1-unsorted"] {
        let damaged = inputs::catalogue(data, name)?;
        case(&mut input, lent, &damaged, &two);
    }
    // Calls that are cut, kinds that they may not be, lists too long for their room.
    for length in [1, SIZE - 1, SIZE + 1, two.len() - 1] {
        case(&mut input, lent, &w1, &two[..length]);
    }
    for (at, byte) in [(0, CHANGE), (0, 255), (SIZE, 2), (SIZE, 255)] {
        let mut bad = two.clone();
        bad[at] = byte;
        case(&mut input, lent, &w1, &bad);
    }
    for (k, at, length) in [(0, 1, 261), (0, 3, 65_535), (1, 1, 512), (1, 3, 261)] {
        let mut bad = two.clone();
        bad[SIZE * k + at..][..2].copy_from_slice(&u16::to_le_bytes(length));
        case(&mut input, lent, &w1, &bad);
    }
    case(&mut input, [0; 4], &w1, &[&two[..SIZE], &two[..7]].concat());
    assert!(input.len() < 65_536, "the program reads no more");
    Ok(input)
}
