//! The shortest list of calls that still differs.

use crate::case::{Call, Case, Step};
use reference::catalogue::AXIOM_LENGTH;

/// Leaves out parts of a list, halves first and then single entries, as long as it still fails. In
/// the end no single entry can be left out.
fn shortened<T: Clone>(mut list: Vec<T>, mut fails: impl FnMut(&[T]) -> bool) -> Vec<T> {
    let mut size = (list.len() / 2).max(1);
    loop {
        let before = list.len();
        let mut at = 0;
        while at < list.len() {
            let mut rest = list.clone();
            rest.drain(at..(at + size).min(list.len()));
            if fails(&rest) {
                list = rest;
            } else {
                at += size;
            }
        }
        if size > 1 {
            size /= 2;
        } else if list.len() == before {
            return list;
        }
    }
}

/// A case with other steps.
fn with(case: &Case, steps: &[Step]) -> Case {
    let mut shorter = case.clone();
    shorter.steps = steps.to_vec();
    shorter
}

/// Shortens the lists of axioms of one step, if it is a change.
fn shorten_lists(case: &mut Case, step: usize, fails: &impl Fn(&Case) -> bool) {
    for which in 0..2 {
        let Step::Make {
            call: Call::Change { withdrawn, added },
            ..
        } = &case.steps[step]
        else {
            return;
        };
        let list = [withdrawn, added][which];
        if !list.len().is_multiple_of(AXIOM_LENGTH) {
            continue;
        }
        let axioms: Vec<Vec<u8>> = list.chunks(AXIOM_LENGTH).map(<[u8]>::to_vec).collect();
        let mut tried = case.clone();
        let shortest = shortened(axioms, |axioms| {
            set_list(&mut tried.steps[step], which, axioms.concat());
            fails(&tried)
        });
        set_list(&mut case.steps[step], which, shortest.concat());
    }
}

fn set_list(step: &mut Step, which: usize, list: Vec<u8>) {
    if let Step::Make {
        call: Call::Change { withdrawn, added },
        ..
    } = step
    {
        *[withdrawn, added][which] = list;
    }
}

/// The case with as few steps as can be, short lists of axioms in them, and a store of zeros at
/// first where that will do. It fails; without any one of its steps it does not.
pub fn shortest(case: &Case, fails: impl Fn(&Case) -> bool) -> Case {
    let mut case = case.clone();
    let mut zero = case.clone();
    zero.buffers.store.fill(0);
    if fails(&zero) {
        case = zero;
    }
    loop {
        let before = case.clone();
        case.steps = shortened(case.steps.clone(), |steps| fails(&with(&case, steps)));
        for step in 0..case.steps.len() {
            shorten_lists(&mut case, step, &fails);
        }
        if case == before {
            return case;
        }
    }
}
