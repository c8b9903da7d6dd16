//! What the axioms of a catalogue use.

use girvotal::{Axiom, Catalogue, Composition, Inclusion, Record, Role};

use super::print::parts;

/// Which concepts are in an axiom, as a side or in one.
pub fn used(catalogue: Catalogue<'_>) -> Vec<bool> {
    let records: Vec<Record> = catalogue.records().collect();
    let mut used = vec![false; records.len()];
    for Axiom { left, right } in catalogue.axioms() {
        used[usize::from(left.0)] = true;
        used[usize::from(right.0)] = true;
    }
    // From the last on: parts have smaller numbers than their record.
    for (number, &record) in records.iter().enumerate().rev() {
        if used[number] {
            parts(record).for_each(|part| used[part] = true);
        }
    }
    used
}

/// Which roles are in an axiom, or in a role axiom.
pub fn used_roles(catalogue: Catalogue<'_>) -> Vec<bool> {
    let mut roles: Vec<Role> = Vec::new();
    for Inclusion { within, around } in catalogue.inclusions() {
        roles.extend([within, around]);
    }
    for composition in catalogue.compositions() {
        let Composition {
            first,
            second,
            result,
        } = composition;
        roles.extend([first, second, result]);
    }
    for (record, used) in catalogue.records().zip(used(catalogue)) {
        if let (Record::Existential(role, _), true) = (record, used) {
            roles.push(role);
        }
    }
    let numbers = (0..).map(Role).take(catalogue.roles());
    numbers.map(|role| roles.contains(&role)).collect()
}
