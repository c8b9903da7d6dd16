//! Changes of a store with as many axioms as it may have, for gate_edits.

use crate::calls;
use crate::catalogue::{Axiom, list};
use crate::edit_script::{ALL, Script};
use crate::edits::{MARK, UNMARK, WORK_LENGTH};
use crate::examples;
use crate::inputs;
use std::io;
use std::path::Path;

/// The axioms that a store may have: one too many, the most, one less.
pub(crate) fn at_the_limit(script: &mut Script, data: &Path) -> io::Result<()> {
    let bare = inputs::catalogue(data, "w10-bare")?;
    let full = calls::classified(&examples::w10().bytes()).expect("a built-in catalogue");
    script.put(&full.1);
    // 4,096.
    script.change(&bare, [&[], &[(5, 5)]]);
    script.change(&bare, [&[], &[(64, 0)]]);
    script.change(&bare, [&[(64, 0)], &[]]);
    script.change(&bare, [&[(5, 5)], &[(64, 0)]]);
    script.change(&bare, [&[], &[(5, 5)]]);
    script.change(&bare, [&[(64, 0)], &[(5, 5)]]);
    let own: Vec<Axiom> = (0..64).map(|i| (i, i)).collect();
    let new: Vec<Axiom> = (0..64).map(|i| (i, 64)).collect();
    script.change(&bare, [&own[..63], &new]);
    script.change(&bare, [&own, &new]);
    script.change(&bare, [&new, &own]);
    questions_in_order(script, &bare, full.1.len());
    // 4,097.
    script.bits(MARK, 64 * 9, &[1]);
    script.change(&bare, [&[], &[(5, 5)]]);
    script.change(&bare, [&[], &[(65, 0)]]);
    script.change(&bare, [&[(64, 0)], &[]]);
    script.change(&bare, [&[], &[]]);
    script.bits(UNMARK, 64 * 9, &[1]);
    // 4,095.
    script.bits(UNMARK, 7 * 9, &[32]);
    script.change(&bare, [&[], &[(7, 5), (64, 0)]]);
    script.change(&bare, [&[], &[(64, 0)]]);
    script.change(&bare, [&[], &[(7, 5)]]);
    script.change(&bare, [&[(64, 0)], &[]]);
    script.change(&bare, [&[(5, 5)], &[]]);
    script.change(&bare, [&[], &[(5, 5), (7, 5)]]);
    Ok(())
}

/// Changes with every fault from a question on, the store with 4,096 axioms: 22
/// for either list, 23, 13, 14, 15, 18, 16, 17; and one without a fault.
fn questions_in_order(script: &mut Script, catalogue: &[u8], used: usize) {
    let out = list(&[(65, 65), (64, 64)]);
    let into = list(&[(65, 65), (0, 0), (64, 0), (64, 1)]);
    let long = [0; 260];
    script.bits(MARK, used - 1, &[128]);
    script.bits(MARK, 64 * 9, &[1]);
    script.change_by(catalogue, [&long, &into], [used - 1, WORK_LENGTH, 130]);
    for lists in [
        [&long[..], &into],
        [&out[..7], &into],
        [&out, &long],
        [&out, &into[..15]],
        [&out, &into],
        [&out[4..], &into],
    ] {
        script.change_by(catalogue, lists, ALL);
    }
    script.bits(UNMARK, used - 1, &[128]);
    script.change_by(catalogue, [&out[4..], &into], ALL);
    script.bits(UNMARK, 64 * 9, &[1]);
    script.change_by(catalogue, [&out[4..], &into], ALL);
    script.change_by(catalogue, [&out, &into[4..]], ALL);
    script.change_by(catalogue, [&out[4..], &into[4..]], ALL);
    script.change_by(catalogue, [&[], &into[4..]], ALL);
    script.change(catalogue, [&[(0, 1)], &[(0, 0), (64, 0)]]);
    script.change(catalogue, [&[(0, 1)], &[(64, 0), (64, 1)]]);
    script.change(catalogue, [&[(0, 1)], &[(64, 0)]]);
    script.change(catalogue, [&[(64, 0)], &[(0, 1)]]);
    // An axiom that is moved to itself, and one twice in a list.
    script.change(catalogue, [&[(0, 1)], &[(0, 1)]]);
    script.change(catalogue, [&[], &[(64, 0), (64, 0)]]);
    script.change(catalogue, [&[(0, 1), (0, 2), (0, 1)], &[]]);
}
