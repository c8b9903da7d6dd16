//! The order of the checks: a call with several faults is refused by the first
//! one, and changes no buffer.

use reference::calls;
use reference::catalogue::{Concept, Refusal, list};
use reference::examples;

/// What is lent to a call, the lists of a change, and the concepts that others name.
#[derive(Clone, PartialEq, Debug)]
struct Lent {
    catalogue: Vec<u8>,
    store: Vec<u8>,
    work: Vec<u8>,
    list: Vec<u8>,
    output: Vec<u8>,
    withdrawn: Vec<u8>,
    added: Vec<u8>,
    first: usize,
    second: usize,
}

const CALLS: [&str; 7] = [
    "check", "classify", "change", "lookup", "listing", "row", "write",
];

/// The questions from 10 on, in their order.
const ORDER: [usize; 13] = [10, 11, 12, 22, 23, 13, 14, 15, 18, 16, 17, 19, 20];

/// Those that a call puts.
fn questions(call: &str) -> &'static [usize] {
    match call {
        "check" => &[],
        "classify" => &[10, 11],
        "change" => &[10, 11, 12, 22, 23, 13, 14, 15, 18, 16, 17],
        "lookup" | "row" => &[10, 13, 14, 15, 19],
        "listing" => &[10, 12, 13, 14, 15, 19],
        _ => &[10, 13, 14, 20],
    }
}

/// Runs a call; its refusal, after which nothing may be changed.
fn refusal(call: &str, lent: &Lent) -> Option<Refusal> {
    let mut after = lent.clone();
    let Lent {
        catalogue,
        store,
        work,
        list,
        output,
        withdrawn,
        added,
        first,
        second,
    } = &mut after;
    let refusal = match call {
        "check" => calls::sizes(catalogue).err(),
        "classify" => calls::classify(catalogue, store, work).err(),
        "change" => calls::change(catalogue, withdrawn, added, store, work, list).err(),
        "lookup" => calls::lookup(catalogue, *first, *second, store).err(),
        "listing" => calls::listing(catalogue, *first, store, list).err(),
        "row" => calls::row(catalogue, *first, store).err(),
        _ => calls::write(catalogue, store, output).err(),
    };
    if refusal.is_some() {
        assert_eq!(&after, lent, "{call}: a refused call changed a buffer");
    }
    refusal
}

/// Questions 1 to 9, with every later fault present as well.
#[test]
fn catalogue_checks_come_first() {
    let mut lent = Lent {
        catalogue: examples::w1().bytes(),
        store: vec![],
        work: vec![],
        list: vec![],
        output: vec![],
        withdrawn: vec![0; 261],
        added: vec![0; 8],
        first: 99,
        second: 99,
    };
    // Question, record at fault, offset of the byte that is changed, its value.
    let faults = [
        (9, 2, 76, 1),
        (8, 1, 74, 7),
        (7, 0, 66, 3),
        (6, 5, 54, 5),
        (5, 2, 32, 4),
        (4, 0, 12, 21),
        (3, 0, 11, 17),
        (2, 0, 0, 81),
    ];
    for (number, record, at, value) in faults {
        lent.catalogue[at] = value;
        for call in CALLS {
            assert_eq!(
                refusal(call, &lent),
                Some(Refusal { number, record }),
                "{call}"
            );
        }
    }
    lent.catalogue.truncate(19);
    for call in CALLS {
        let expected = Refusal {
            number: 1,
            record: 0,
        };
        assert_eq!(refusal(call, &lent), Some(expected), "{call}");
    }
}

/// The catalogue with 65 concepts and 4,096 axioms; the last concept is a top.
fn full_catalogue() -> Vec<u8> {
    let mut catalogue = examples::w10();
    catalogue.concepts[64] = Concept::Top;
    catalogue.bytes()
}

/// What is lent with that catalogue, so that every question from one on is answered
/// no, and those before it yes.
fn failing_from(question: Option<usize>, call: &str, classified: &[u8]) -> Lent {
    let place = |question: usize| ORDER.iter().position(|&other| other == question);
    let wrong = |other: usize| question.is_some_and(|question| place(other) >= place(question));
    let short = |question: usize| usize::from(wrong(question));
    let catalogue = full_catalogue();
    let mut store = classified.to_vec();
    if wrong(14) {
        store[64 * 9] |= 1;
    }
    if wrong(13) {
        store[2 * 65 * 9 - 1] |= 128;
    }
    store.truncate(2 * 65 * 9 - short(10));
    // All pairs below 64 are in force.
    let faulty = |faults: &[(usize, (usize, usize))]| {
        let faults = faults.iter().filter(|(question, _)| wrong(*question));
        list(&faults.map(|&(_, axiom)| axiom).collect::<Vec<_>>())
    };
    let twice = (23, (64, 0));
    let added = [(17, (64, 0)), (16, (0, 0)), (15, (0, 65)), twice];
    let mut added = faulty(&added);
    added.extend(vec![0; short(22)]);
    // The top is on no side of an axiom.
    let (first, second) = match call {
        "listing" | "row" if wrong(15) => (65, 0),
        _ => (64, if wrong(15) { 65 } else { 0 }),
    };
    Lent {
        store,
        work: vec![1; 65 * 9 - short(11)],
        list: vec![1; 2 * 65 - short(12)],
        output: vec![1; catalogue.len() - short(20)],
        withdrawn: faulty(&[(18, (64, 64))]),
        added,
        first,
        second,
        catalogue,
    }
}

/// Questions 10 to 23.
#[test]
fn other_checks_in_order() {
    let catalogue = full_catalogue();
    let (_, classified) = calls::classified(&catalogue).expect("an accepted catalogue");
    for call in CALLS {
        for &number in questions(call) {
            let got = refusal(call, &failing_from(Some(number), call, &classified));
            assert_eq!(got, Some(Refusal { number, record: 0 }), "{call}");
        }
    }
    for call in ["check", "classify", "change", "write"] {
        assert_eq!(refusal(call, &failing_from(None, call, &classified)), None);
    }
}
