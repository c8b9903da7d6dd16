//! Implementations that are wrong on purpose: each is found, and the report has the seed, a list
//! of calls that cannot be shortened, and the catalogue as text.

use std::collections::HashSet;

use differential::batch::run_seed;
use differential::case::{Call, Case, Lent};
use differential::report::{Report, catalogue_text};
use differential::run::run;
use differential::side::{EXPORTED, Side};
use differential::tally::Tally;
use girvotal_command::text::compile;
use reference::calls::sizes;
use reference::catalogue::Catalogue;

/// The seeds that a wrong implementation is looked for in.
const SEEDS: u64 = 1_000;

/// The most steps of a shortest list.
const STEPS: usize = 4;

/// A right call.
fn right(call: &Call, catalogue: &[u8], lent: &mut Lent<'_>) -> usize {
    (EXPORTED.make)(call, catalogue, lent)
}

/// A side that makes right calls and then spoils what they leave, by what they returned.
macro_rules! spoiled {
    ($name:literal, |$call:ident, $catalogue:ident, $lent:ident, $returned:ident| $spoil:expr) => {
        Side {
            name: $name,
            make: |$call, $catalogue, $lent| {
                let $returned = right($call, $catalogue, $lent);
                $spoil
            },
        }
    };
}

/// The count of concepts of an accepted catalogue.
fn concepts(catalogue: &[u8]) -> usize {
    Catalogue::read(catalogue)
        .expect("an accepted one")
        .concepts
        .len()
}

const WRONG: [Side; 15] = [
    spoiled!("a lookup turned round", |call, _c, lent, returned| {
        if let Call::Lookup(first, second) = call
            && returned == 0
            && *first == *second + 2
        {
            lent.answer[0] ^= 1;
        }
        returned
    }),
    spoiled!("every own pair is a yes", |call, _c, lent, returned| {
        if let Call::Lookup(first, second) = call
            && returned == 0
            && first == second
        {
            lent.answer[0] = 1;
        }
        returned
    }),
    spoiled!(
        "a bit lost in a change of both lists",
        |call, c, lent, returned| {
            if let Call::Change { withdrawn, added } = call
                && returned == 0
                && !withdrawn.is_empty()
                && !added.is_empty()
            {
                let row = (2 * concepts(c) - 1) * concepts(c).div_ceil(8);
                lent.store[row] &= lent.store[row].wrapping_sub(1);
            }
            returned
        }
    ),
    spoiled!("one returned too many", |call, _c, lent, returned| {
        let change = matches!(call, Call::Change { .. });
        if change && returned == 0 && lent.answer[0] > lent.answer[1] && lent.answer[1] > 0 {
            lent.answer[1] += 1;
        }
        returned
    }),
    spoiled!("work left after classify", |call, c, lent, returned| {
        if *call == Call::Classify && returned == 0 {
            let used = sizes(c).expect("an accepted one").work;
            lent.work[used - 1] |= 1;
        }
        returned
    }),
    spoiled!(
        "a byte past the used part of the store",
        |call, c, lent, returned| {
            if *call == Call::Classify && returned == 0 {
                let used = sizes(c).expect("an accepted one").store;
                lent.store[used..]
                    .iter_mut()
                    .take(1)
                    .for_each(|byte| *byte = 0);
            }
            returned
        }
    ),
    spoiled!(
        "a change done though refused by 16",
        |call, _c, lent, returned| {
            if matches!(call, Call::Change { .. }) && returned == 16 {
                lent.store[0] ^= 1;
            }
            returned
        }
    ),
    spoiled!("a list with one entry more", |call, _c, lent, returned| {
        if matches!(call, Call::List(_)) && returned == 0 {
            let end = 2 * lent.answer[0] as usize;
            lent.list[end..]
                .iter_mut()
                .take(1)
                .for_each(|byte| *byte = 0);
        }
        returned
    }),
    spoiled!(
        "a row of full bytes one too wide",
        |call, c, lent, returned| {
            if matches!(call, Call::Row(_)) && returned == 0 && concepts(c).is_multiple_of(8) {
                lent.answer[1] += 1;
            }
            returned
        }
    ),
    spoiled!(
        "a byte written past the catalogue",
        |call, _c, lent, returned| {
            if *call == Call::Write && returned == 0 {
                let end = lent.answer[0] as usize;
                lent.output[end..]
                    .iter_mut()
                    .take(1)
                    .for_each(|byte| *byte = 0);
            }
            returned
        }
    ),
    spoiled!("9 not asked by check", |call, _c, lent, returned| {
        match (call, returned % 65_536) {
            (Call::Check, 9) => {
                lent.answer[..4].fill(0);
                0
            }
            _ => returned,
        }
    }),
    spoiled!(
        "the record after the one at fault",
        |_call, _c, _lent, returned| {
            match returned % 65_536 {
                6 => returned + 65_536,
                _ => returned,
            }
        }
    ),
    spoiled!("15 asked before 13", |call, c, _lent, returned| {
        match call {
            Call::Row(concept) if returned == 13 && *concept >= concepts(c) => 15,
            _ => returned,
        }
    }),
    spoiled!("a fifth entry", |_call, _c, lent, returned| {
        if returned == 0 && lent.answer.len() > 4 {
            lent.answer[4] = 0;
        }
        returned
    }),
    Side {
        name: "a change as two edits",
        make: two_edits,
    },
];

/// Withdraws, and then adds, with the sums of the counts.
fn two_edits(call: &Call, catalogue: &[u8], lent: &mut Lent<'_>) -> usize {
    let Call::Change { withdrawn, added } = call else {
        return right(call, catalogue, lent);
    };
    let edit = |withdrawn: &[u8], added: &[u8]| Call::Change {
        withdrawn: withdrawn.to_vec(),
        added: added.to_vec(),
    };
    let (store, list) = (lent.store.to_vec(), lent.list.to_vec());
    let returned = right(&edit(withdrawn, &[]), catalogue, lent);
    if returned != 0 || added.is_empty() {
        return match returned {
            0 => 0,
            _ => right(call, catalogue, lent),
        };
    }
    let first: Vec<u64> = lent.answer[..4].to_vec();
    let second = right(&edit(&[], added), catalogue, lent);
    if second != 0 {
        lent.store.copy_from_slice(&store);
        lent.list.copy_from_slice(&list);
        return right(call, catalogue, lent);
    }
    (0..3).for_each(|i| lent.answer[i] += first[i]);
    0
}

/// The first seed's report.
fn found(side: Side) -> (u64, Box<Report>) {
    let sides = [side];
    let mut reports = (0..SEEDS).filter_map(|seed| {
        let done = run_seed(seed, &sides, &mut Tally::default());
        done.err().map(|report| (seed, report))
    });
    let found = reports.next();
    found.unwrap_or_else(|| panic!("{} is not found", side.name))
}

#[test]
fn each_is_found_and_reported() {
    println!("found: {} wrong implementations", WRONG.len());
    for side in WRONG {
        let (seed, report) = found(side);
        let text = report.to_string();
        let Case {
            steps, catalogue, ..
        } = &report.shortest;
        println!("{}: seed {seed}, {} steps", side.name, steps.len());
        assert!(steps.len() <= STEPS, "{text}");
        assert!(text.starts_with(&format!("seed {seed}: ")), "{text}");
        assert!(text.contains(side.name), "{text}");
        assert!(text.contains(&catalogue_text(catalogue)), "{text}");
        not_shorter(&report.shortest, side);
    }
}

/// It differs, and without any one of its steps it does not.
fn not_shorter(case: &Case, side: Side) {
    let differs = |case: &Case| run(case, &[side], &mut Tally::default()).is_err();
    assert!(differs(case));
    for step in 0..case.steps.len() {
        let mut shorter = case.clone();
        shorter.steps.remove(step);
        assert!(!differs(&shorter), "step {step} can be left out");
    }
}

/// What a report says of a lookup: the lengths lent, and what differs.
#[test]
fn a_report() {
    let (_, report) = found(WRONG[1]);
    let text = report.to_string();
    println!("{text}");
    let lines: Vec<&str> = text.lines().collect();
    assert!(lines[1].starts_with("the shortest list, "), "{text}");
    assert!(text.contains("lookup "), "{text}");
    assert!(text.contains("; lent: store "), "{text}");
    let last = lines.last().expect("lines");
    assert!(last.ends_with("answer[0] is 1, not 0"), "{text}");
}

/// The text of a report compiles to the catalogue, with each role axiom once; a refused one is
/// printed in digits.
#[test]
fn texts_of_catalogues() {
    for seed in 0..200 {
        let bytes = differential::cases::case(seed).catalogue;
        let text = catalogue_text(&bytes);
        let compiled = compile(text.as_bytes()).unwrap_or_else(|_| panic!("{text}"));
        let mut once = Catalogue::read(&bytes).expect("accepted");
        let (mut inclusions, mut compositions) = (HashSet::new(), HashSet::new());
        once.inclusions.retain(|&axiom| inclusions.insert(axiom));
        once.compositions
            .retain(|&axiom| compositions.insert(axiom));
        assert_eq!(compiled.catalogue, once.bytes(), "seed {seed}: {text}");
    }
    let refused = catalogue_text(&[20, 0, 255]);
    assert!(refused.contains("shorter than its header") && refused.ends_with("14 00 ff\n"));
}
