//! Inputs of programs: what `crates/NAME/stdin` holds, or a file of
//! `crates/NAME/data`, made of built-in catalogues and of those in `data/`.

use crate::calls;
use crate::edit_cases;
use crate::examples;
use crate::running_cases;
use std::fs;
use std::io;
use std::path::Path;

/// Makes a program's input, from the folder of catalogues.
pub type Input = fn(&Path) -> io::Result<Vec<u8>>;

/// The files that gate_listings lists, in its order.
pub const LISTED: &[&str] = &[
    "data/empty",
    "data/long",
    "data/many",
    "data/refused",
    "data/wide",
];

/// The inputs that are made here: crate and file, one line each.
pub const PROGRAMS: &[(&str, &str, Input)] = &[
    ("listing", "stdin", |data| catalogue(data, "w1")),
    ("gate_listings", LISTED[0], |_| Ok(vec![])),
    ("gate_listings", LISTED[1], |_| Ok(vec![255; 70_000])),
    ("gate_listings", LISTED[2], |data| {
        catalogue(data, "bookings-2")
    }),
    ("gate_listings", LISTED[3], |data| {
        catalogue(data, "w1-unsorted")
    }),
    ("gate_listings", LISTED[4], |data| catalogue(data, "wide")),
    ("gate_classification", "stdin", closure_cases),
    ("gate_calls", "stdin", call_cases),
    ("gate_edits", "stdin", edit_cases::input),
    ("gate_running", "stdin", running_cases::input),
];

/// All of a buffer.
const ALL: u32 = u32::MAX;

/// The cases of gate_classification: a catalogue, and the bytes of store and of work
/// space that are lent.
const CLOSURE_CASES: &[(&str, u32, u32)] = &[
    ("w1", 38, 31),
    ("w7", 9, 6),
    ("w8", ALL, ALL),
    ("w1-cut", ALL, ALL),
    ("w1", 34, 28),
    ("w1", 35, 27),
    ("w1", 35, 28),
    ("timing-dense", ALL, ALL),
    ("timing-medium", 327_679, ALL),
    ("timing-medium", 327_680, 294_912),
    ("timing-sparse", ALL, ALL),
    ("bookings-0", ALL, ALL),
    ("composed-0", ALL, ALL),
    ("chain-0", ALL, ALL),
    ("dag-0", ALL, ALL),
    ("w10", ALL, ALL),
    ("tops", ALL, ALL),
    ("tops-bare", ALL, ALL),
    ("example1", ALL, ALL),
    ("example4", ALL, ALL),
    ("w8", ALL, ALL),
];

fn closure_cases(data: &Path) -> io::Result<Vec<u8>> {
    let mut input = vec![];
    for &(name, store, work) in CLOSURE_CASES {
        let bytes = catalogue(data, name)?;
        input.extend((bytes.len() as u16).to_le_bytes());
        input.extend(store.to_le_bytes());
        input.extend(work.to_le_bytes());
        input.extend(bytes);
    }
    Ok(input)
}

/// The numbers of entries of an answer that are lent.
const NONE: &[u16] = &[0];
const FOUR: &[u16] = &[4];
const EVERY: &[u16] = &[0, 1, 2, 3, 4, 6];

/// A case of gate_calls: the call, by its number in the program, and two
/// concepts; numbers of entries, one case for each; the bytes of the store and
/// of the other buffer that are lent; a catalogue, and the store to be read.
type CallCase = (
    u16,
    [u16; 2],
    &'static [u16],
    [u16; 2],
    &'static str,
    &'static str,
);

const CALL_CASES: &[CallCase] = &[
    // write
    (0, [0, 0], NONE, [0, 100], "w1", "w1"),
    (0, [0, 0], NONE, [0, 80], "w1", "w1"),
    (0, [0, 0], NONE, [0, 79], "w1", "w1"),
    (0, [0, 0], NONE, [0, 0], "w1", "w1"),
    (0, [0, 0], NONE, [0, 68], "w1", "w8"),
    (0, [0, 0], NONE, [0, 67], "w1", "w8"),
    (0, [0, 0], NONE, [0, 90], "w8", "w1"),
    (0, [0, 0], NONE, [0, 90], "w8", "w8"),
    (0, [0, 0], NONE, [0, 90], "w1", "w6"),
    (0, [0, 0], NONE, [0, 90], "w9", "w9"),
    (0, [0, 0], NONE, [0, 90], "w1", "w1-cut"),
    (0, [0, 0], NONE, [0, 0], "w1", "w1-stray"),
    (0, [0, 0], NONE, [0, u16::MAX], "w10-bare", "w10"),
    (0, [0, 0], NONE, [0, 16_793], "w10-bare", "w10"),
    (0, [0, 0], NONE, [0, 0], "w10-bare", "w10-over"),
    (0, [0, 0], NONE, [0, 90], "w1-cut", "w1"),
    (0, [0, 0], NONE, [0, 90], "w1-fields", "w1"),
    (0, [0, 0], NONE, [0, 90], "w1-unsorted", "w1"),
    // row_and_answer
    (1, [0, 0], NONE, [0, 0], "w1", "w1"),
    (1, [1, 0], NONE, [0, 0], "w1", "w1"),
    (1, [6, 0], NONE, [0, 0], "w1", "w1"),
    (1, [7, 0], NONE, [0, 0], "w1", "w1"),
    (1, [0, 0], NONE, [0, 0], "w1", "w8"),
    (1, [4, 0], NONE, [0, 0], "w1", "w8"),
    (1, [1, 0], NONE, [0, 0], "tops", "tops"),
    (1, [1, 0], NONE, [0, 0], "tops", "tops-bare"),
    (1, [4, 0], NONE, [0, 0], "tops", "tops-bare"),
    (1, [0, 0], NONE, [0, 0], "w9", "w9"),
    (1, [7, 0], NONE, [0, 0], "w9", "w9"),
    (1, [63, 0], NONE, [0, 0], "w10-bare", "w10"),
    (1, [0, 0], NONE, [0, 0], "w1", "w1-cut"),
    (1, [0, 0], NONE, [0, 0], "w1", "w1-stray"),
    (1, [65, 0], NONE, [0, 0], "w10-bare", "w10-over"),
    (1, [0, 0], NONE, [0, 0], "w1-cut", "w1"),
    (1, [0, 0], NONE, [0, 0], "w1-fields", "w1"),
    (1, [0, 0], NONE, [0, 0], "w1-unsorted", "w1"),
    // classify
    (2, [0, 0], EVERY, [35, 28], "w1", ""),
    (2, [0, 0], EVERY, [35, 28], "w1-unsorted", ""),
    (2, [0, 0], FOUR, [40, 40], "w1", ""),
    (2, [0, 0], FOUR, [34, 27], "w1", ""),
    (2, [0, 0], FOUR, [35, 27], "w1", ""),
    (2, [0, 0], FOUR, [35, 28], "w8", ""),
    (2, [0, 0], FOUR, [40, 32], "w9", ""),
    (2, [0, 0], FOUR, [15, 10], "tops-bare", ""),
    (2, [0, 0], FOUR, [0, 0], "w1-cut", ""),
    (2, [0, 0], FOUR, [35, 28], "w1-fields", ""),
    // lookup
    (3, [0, 3], EVERY, [0, 0], "w1", "w1"),
    (3, [3, 0], EVERY, [0, 0], "w1", "w1"),
    (3, [0, 3], EVERY, [0, 0], "w1-unsorted", "w1"),
    (3, [7, 0], FOUR, [0, 0], "w1", "w1"),
    (3, [0, 7], FOUR, [0, 0], "w1", "w1"),
    (3, [0, 3], FOUR, [0, 0], "w1", "w8"),
    (3, [3, 3], FOUR, [0, 0], "w1", "w8"),
    (3, [0, 4], FOUR, [0, 0], "w1", "w8"),
    (3, [4, 0], FOUR, [0, 0], "w1", "w8"),
    (3, [0, 3], FOUR, [0, 0], "w9", "w9"),
    (3, [0, 7], FOUR, [0, 0], "w9", "w9"),
    (3, [7, 7], FOUR, [0, 0], "w9", "w9"),
    (3, [4, 1], FOUR, [0, 0], "tops", "tops"),
    (3, [4, 1], FOUR, [0, 0], "tops", "tops-bare"),
    (3, [2, 0], FOUR, [0, 0], "tops", "tops-bare"),
    (3, [0, 4], FOUR, [0, 0], "tops", "tops-bare"),
    (3, [4, 4], FOUR, [0, 0], "tops", "tops-bare"),
    (3, [0, 3], FOUR, [0, 0], "w1", "w1-cut"),
    (3, [0, 3], FOUR, [0, 0], "w1", "w1-stray"),
    (3, [65, 0], FOUR, [0, 0], "w10-bare", "w10-over"),
    // list
    (4, [0, 3], EVERY, [0, 14], "w1", "w1"),
    (4, [0, 3], EVERY, [0, 20], "w1-unsorted", "w1"),
    (4, [0, 6], FOUR, [0, 20], "w1", "w1"),
    (4, [0, 3], FOUR, [0, 13], "w1", "w1"),
    (4, [0, 7], FOUR, [0, 14], "w1", "w1"),
    (4, [0, 3], FOUR, [0, 14], "w1", "w8"),
    (4, [0, 4], FOUR, [0, 14], "w1", "w8"),
    (4, [0, 7], FOUR, [0, 16], "w9", "w9"),
    (4, [0, 1], FOUR, [0, 10], "tops", "tops"),
    (4, [0, 1], FOUR, [0, 10], "tops", "tops-bare"),
    (4, [0, 4], FOUR, [0, 10], "tops", "tops-bare"),
    (4, [0, 3], FOUR, [0, 13], "w1", "w1-cut"),
    (4, [0, 3], FOUR, [0, 13], "w1", "w1-stray"),
    (4, [0, 3], FOUR, [0, 14], "w1", "w1-stray"),
    (4, [0, 63], FOUR, [0, 130], "w10-bare", "w10"),
    (4, [0, 65], FOUR, [0, 130], "w10-bare", "w10-over"),
    // row
    (5, [0, 0], EVERY, [0, 0], "w1", "w1"),
    (5, [0, 0], EVERY, [0, 0], "w1-unsorted", "w1"),
    (5, [6, 0], FOUR, [0, 0], "w1", "w1"),
    (5, [7, 0], FOUR, [0, 0], "w1", "w1"),
    (5, [0, 0], FOUR, [0, 0], "w1", "w8"),
    (5, [4, 0], FOUR, [0, 0], "w1", "w8"),
    (5, [1, 0], FOUR, [0, 0], "tops", "tops-bare"),
    (5, [4, 0], FOUR, [0, 0], "tops", "tops-bare"),
    (5, [0, 0], FOUR, [0, 0], "w1", "w1-cut"),
    (5, [0, 0], FOUR, [0, 0], "w1", "w1-stray"),
    (5, [0, 0], FOUR, [0, 0], "w10-bare", "w10-over"),
    // write
    (6, [0, 0], EVERY, [0, 100], "w1", "w1"),
    (6, [0, 0], EVERY, [0, 100], "w1-unsorted", "w1"),
    (6, [0, 0], FOUR, [0, 80], "w8", "w1"),
    (6, [0, 0], FOUR, [0, 79], "w8", "w1"),
    (6, [0, 0], FOUR, [0, 68], "w1", "w8"),
    (6, [0, 0], FOUR, [0, 0], "w1", "w1-cut"),
    (6, [0, 0], FOUR, [0, 0], "w1", "w1-stray"),
    (6, [0, 0], FOUR, [0, u16::MAX], "w10-bare", "w10"),
    (6, [0, 0], FOUR, [0, 0], "w10-bare", "w10-over"),
    // check, and of each of CHECKED
    (7, [0, 0], EVERY, [0, 0], "w1", ""),
    (7, [0, 0], EVERY, [0, 0], "w1-unsorted", ""),
];

/// The catalogues that gate_calls has checked, right and faulty.
const CHECKED: &[&str] = &[
    "w6",
    "w7",
    "w8",
    "w9",
    "w10-bare",
    "example1",
    "example4",
    "self-axiom",
    "tops",
    "tops-bare",
    "wide",
    "shared-parts",
    "chain",
    "chain-64",
    "bookings-2",
    "chain-0",
    "composed-0",
    "dag-0",
    "doubles-0",
    "doubles-1",
    "small-1",
    "timing-dense",
    "tiny-0",
    "tiny-2",
    "empty",
    "w1-cut",
    "w1-total",
    "w1-counts",
    "w1-offsets",
    "w1-kind",
    "w1-fields",
    "w1-roles",
    "w1-sides",
    "example1-inclusion",
    "tiny-2-inclusion",
    "tiny-2-composition",
];

fn call_cases(data: &Path) -> io::Result<Vec<u8>> {
    let check = |&name: &&'static str| (7, [0, 0], FOUR, [0, 0], name, "");
    let cases = CALL_CASES.iter().copied().chain(CHECKED.iter().map(check));
    let mut input = vec![];
    for (call, [c, d], entries, [store, other], name, read) in cases {
        let bytes = catalogue(data, name)?;
        let read = classified(read);
        for &entries in entries {
            let lengths = [bytes.len() as u16, read.len() as u16];
            let numbers = [call, c, d, entries, store, other, lengths[0], lengths[1]];
            input.extend(numbers.into_iter().flat_map(u16::to_le_bytes));
            input.extend(&bytes);
            input.extend(&read);
        }
    }
    Ok(input)
}

/// The used part of a store: a built-in catalogue's, classified, also without its
/// axioms, or a faulty variant of it; none where there is no such catalogue.
fn classified(name: &str) -> Vec<u8> {
    let (of, fault) = name.split_once('-').unwrap_or((name, ""));
    let Some(mut known) = examples::named(of) else {
        return vec![];
    };
    if fault == "bare" {
        known = known.bare();
    }
    let (_, mut store) = calls::classified(&known.bytes()).expect("a built-in catalogue");
    let last = store.len() - 1;
    match fault {
        "cut" => store.truncate(last),
        // A bit from n upward, in the last row.
        "stray" => store[last] |= 128,
        // One axiom more, with the last concept at its left.
        "over" => store[(known.concepts.len() - 1) * known.concepts.len().div_ceil(8)] |= 1,
        _ => {}
    }
    store
}

/// Variants of catalogues that are faulty by one byte: of which, where the byte
/// stands, and its value. `tiny-2-inclusion` and `tiny-2-composition` are at fault
/// in record 1.
const FAULTY: &[(&str, &str, usize, u8)] = &[
    ("w1-total", "w1", 0, 81),
    ("w1-counts", "w1", 2, 0),
    ("w1-offsets", "w1", 12, 21),
    ("w1-kind", "w1", 32, 4),
    ("w1-fields", "w1", 52, 3),
    ("w1-roles", "w1", 66, 3),
    ("w1-sides", "w1", 74, 7),
    ("example1-inclusion", "example1", 62, 3),
    ("tiny-2-inclusion", "tiny-2", 68, 2),
    ("tiny-2-composition", "tiny-2", 84, 2),
];

/// The bytes of a catalogue: none, a faulty variant, a built-in one, also without
/// its axioms (`NAME-bare`), or `NAME.bin` in the folder.
pub(crate) fn catalogue(data: &Path, name: &str) -> io::Result<Vec<u8>> {
    let mut w1 = examples::w1();
    let bare = name.strip_suffix("-bare").and_then(examples::named);
    let known = examples::named(name).or(bare.map(|known| known.bare()));
    let faulty = FAULTY.iter().find(|(faulty, ..)| *faulty == name);
    match (name, faulty, known) {
        ("empty", ..) => Ok(vec![]),
        ("w1-cut", ..) => Ok(w1.bytes()[..19].to_vec()),
        ("w1-unsorted", ..) => {
            w1.axioms.swap(1, 2);
            Ok(w1.bytes())
        }
        (_, Some(&(_, of, at, value)), _) => {
            let mut bytes = catalogue(data, of)?;
            bytes[at] = value;
            Ok(bytes)
        }
        (_, None, Some(known)) => Ok(known.bytes()),
        (_, None, None) => fs::read(data.join(name).with_extension("bin")),
    }
}
