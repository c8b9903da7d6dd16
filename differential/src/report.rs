//! What is printed of a difference.

use crate::case::{Call, Case, Damage, Lengths, Step};
use crate::run::{Difference, run};
use crate::shrink::shortest;
use crate::side::Side;
use crate::tally::Tally;
use girvotal::Catalogue;
use girvotal_command::text::{self, Names};
use reference::catalogue::{AXIOM_LENGTH, axioms};
use std::fmt::Write;

/// The most bytes of a store that are printed.
const SHOWN: usize = 1024;

/// A difference, its case, and the shortest list of calls that differs.
#[derive(Clone, Debug)]
pub struct Report {
    pub case: Case,
    pub shortest: Case,
    pub difference: Difference,
}

/// Runs a case; on a difference, the report of it.
pub fn reported(case: &Case, sides: &[Side], tally: &mut Tally) -> Result<(), Box<Report>> {
    if run(case, sides, tally).is_ok() {
        return Ok(());
    }
    let differs = |case: &Case| run(case, sides, &mut Tally::default()).err();
    let shortest = shortest(case, |case| differs(case).is_some());
    let difference = differs(&shortest).expect("it still differs");
    Err(Box::new(Report {
        case: case.clone(),
        shortest,
        difference,
    }))
}

/// A catalogue as text that compiles to it; in hexadecimal digits where it is refused.
pub fn catalogue_text(bytes: &[u8]) -> String {
    match Catalogue::new(bytes) {
        Ok(catalogue) => text::print(catalogue, &Names::numbered(catalogue), true),
        Err(refusal) => format!("({refusal})\n{}\n", hex(bytes)),
    }
}

fn hex(bytes: &[u8]) -> String {
    let digits: Vec<String> = bytes.iter().map(|byte| format!("{byte:02x}")).collect();
    digits.join(" ")
}

/// A list of axioms; its bytes where they are not whole ones.
fn list_text(list: &[u8]) -> String {
    if !list.len().is_multiple_of(AXIOM_LENGTH) {
        return format!("bytes {}", hex(list));
    }
    let sides = axioms(list).into_iter();
    let sides: Vec<String> = sides
        .map(|(left, right)| format!("{left} < {right}"))
        .collect();
    format!("[{}]", sides.join(", "))
}

fn call_text(call: &Call) -> String {
    match call {
        Call::Check | Call::Classify | Call::Write => call.name().to_string(),
        Call::Change { withdrawn, added } => {
            let (out, new) = (list_text(withdrawn), list_text(added));
            format!("change, withdrawn {out}, added {new}")
        }
        Call::Lookup(first, second) => format!("lookup {first} {second}"),
        Call::List(number) | Call::Row(number) => format!("{} {number}", call.name()),
    }
}

fn damage_text(damage: &Damage) -> String {
    let mut text = String::new();
    for (at, value) in &damage.bytes {
        text += &format!(", catalogue[{at}] = {value}");
    }
    if let Some(length) = damage.length {
        text += &format!(", catalogue of {length} bytes");
    }
    text
}

fn step_text(step: &Step) -> String {
    match step {
        Step::Poke { at, mask } => format!("store[{at}] ^= {mask}"),
        Step::Make {
            call,
            damage,
            lent,
            fill,
        } => {
            let Lengths {
                store,
                work,
                list,
                output,
                answer,
            } = lent;
            format!(
                "{}{}; lent: store {store}, work {work}, list {list}, output {output}, \
                answer {answer}; filled by {fill}",
                call_text(call),
                damage_text(damage),
            )
        }
    }
}

/// Every step of a case, with its catalogues as text.
pub fn case_text(case: &Case) -> String {
    let mut text = String::new();
    for (number, step) in case.steps.iter().enumerate() {
        let _ = writeln!(text, "  {number}: {}", step_text(step));
    }
    let whole = case.buffers.lengths();
    let _ = writeln!(text, "whole buffers: {whole:?}");
    let store = &case.buffers.store;
    if store.iter().any(|&byte| byte != 0) && store.len() <= SHOWN {
        let _ = writeln!(text, "store at first: {}", hex(store));
    }
    let _ = write!(text, "catalogue:\n{}", catalogue_text(&case.catalogue));
    for (number, step) in case.steps.iter().enumerate() {
        if let Step::Make { damage, .. } = step
            && !damage.is_none()
        {
            let damaged = catalogue_text(&damage.applied(&case.catalogue));
            let _ = write!(text, "catalogue of step {number}:\n{damaged}");
        }
    }
    text
}

impl std::fmt::Display for Report {
    fn fmt(&self, f: &mut std::fmt::Formatter<'_>) -> std::fmt::Result {
        let Difference { step, what } = &self.difference;
        writeln!(f, "{}: a difference", self.case.name)?;
        let (all, left) = (self.case.steps.len(), self.shortest.steps.len());
        writeln!(f, "the shortest list, {left} of {all} steps:")?;
        f.write_str(&case_text(&self.shortest))?;
        writeln!(f, "step {step}, {what}")
    }
}
