//! The text of the check programs that read an input: what each prints for it.
//! The input's form is said at the head of the program.

use crate::calls;
use crate::catalogue::{Catalogue, Refusal};
use crate::checksum::fnv1a;
use crate::exports;
use crate::store::Layout;

/// The buffers of gate_classification: the longest that a catalogue asks for.
const STORE_LENGTH: usize = 589_824;
const WORK_LENGTH: usize = 557_056;

/// What is left of an input.
pub(crate) struct Input<'a>(pub(crate) &'a [u8]);

impl<'a> Input<'a> {
    /// The next bytes.
    pub(crate) fn bytes(&mut self, count: usize) -> &'a [u8] {
        let (first, rest) = self.0.split_at(count);
        self.0 = rest;
        first
    }

    /// The next number, in so many bytes, low byte first.
    pub(crate) fn number(&mut self, bytes: usize) -> usize {
        let digits = self.bytes(bytes).iter().rev();
        digits.fold(0, |number, &byte| 256 * number + usize::from(byte))
    }
}

pub(crate) fn refused(refusal: Refusal) -> String {
    format!("refused {} {}", refusal.number, refusal.record)
}

pub(crate) fn digits(bytes: &[u8]) -> String {
    bytes.iter().map(|byte| format!("{byte:02x}")).collect()
}

/// The bytes that hexadecimal digits give.
fn decoded(line: &str) -> Vec<u8> {
    let pairs = (0..line.len() / 2).map(|k| &line[2 * k..2 * k + 2]);
    pairs
        .map(|pair| u8::from_str_radix(pair, 16).expect("two digits"))
        .collect()
}

/// What questions 1 to 9 answer for each catalogue.
pub fn gate_catalogue(input: &[u8]) -> String {
    let text = str::from_utf8(input).expect("digits");
    text.split_terminator('\n')
        .map(|line| match Catalogue::read(&decoded(line)) {
            Ok(_) => "accepted\n".to_string(),
            Err(refusal) => refused(refusal) + "\n",
        })
        .collect()
}

/// The answers of classify, with checksums of the buffers.
pub fn gate_classification(input: &[u8]) -> String {
    let mut store = vec![165; STORE_LENGTH];
    let mut work = vec![0; WORK_LENGTH];
    let mut input = Input(input);
    let mut lines = String::new();
    while !input.0.is_empty() {
        let length = input.number(2);
        let store_lent = input.number(4).min(STORE_LENGTH);
        let work_lent = input.number(4).min(WORK_LENGTH);
        let catalogue = input.bytes(length);
        work.fill(90);
        lines += &classified(catalogue, &mut store[..store_lent], &mut work[..work_lent]);
        lines += &format!(" store {} work {}\n", fnv1a(&store), fnv1a(&work));
    }
    lines
}

fn classified(catalogue: &[u8], store: &mut [u8], work: &mut [u8]) -> String {
    let answer = calls::classify(catalogue, store, work);
    let read = Catalogue::read(catalogue);
    match answer.and_then(|counts| Ok((counts, Layout::new(&read?)))) {
        Ok((counts, layout)) => {
            let used = fnv1a(&store[..layout.store_length()]);
            format!("pairs {} links {} used {used}", counts.pairs, counts.links)
        }
        Err(refusal) => refused(refusal),
    }
}

/// The answers of lookup, listing and row.
pub fn gate_lookups(input: &[u8]) -> String {
    let mut input = Input(input);
    let mut lines = String::new();
    while !input.0.is_empty() {
        let [call, c, d, list, catalogue, store] = [(); 6].map(|()| input.number(2));
        let mut list = vec![195; list];
        let catalogue = input.bytes(catalogue);
        let store = input.bytes(store);
        lines += &match call {
            0 => looked_up(catalogue, c, d, store),
            1 => listed(catalogue, d, store, &mut list),
            _ => row(catalogue, c, store),
        };
        lines += "\n";
    }
    lines
}

fn looked_up(catalogue: &[u8], c: usize, d: usize, store: &[u8]) -> String {
    match calls::lookup(catalogue, c, d, store) {
        Ok(true) => "yes".to_string(),
        Ok(false) => "no".to_string(),
        Err(refusal) => refused(refusal),
    }
}

fn listed(catalogue: &[u8], d: usize, store: &[u8], list: &mut [u8]) -> String {
    let answer = match calls::listing(catalogue, d, store, list) {
        Ok(count) => format!("listed {count}"),
        Err(refusal) => refused(refusal),
    };
    format!("{answer} {}", digits(list))
}

fn row(catalogue: &[u8], c: usize, store: &[u8]) -> String {
    match calls::row(catalogue, c, store) {
        Ok(row) => {
            let width = row.bytes.len();
            format!("row {} {width} {}", row.offset, digits(row.bytes))
        }
        Err(refusal) => refused(refusal) + " ",
    }
}

/// The buffers of gate_calls: the store that is classified into, and the work
/// space, list or output.
const CALLS_STORE_LENGTH: usize = 4_096;
const CALLS_OTHER_LENGTH: usize = 65_536;

/// The answers of write, row_and_answer and the exported calls, with checksums
/// of the buffers.
pub fn gate_calls(input: &[u8]) -> String {
    let mut input = Input(input);
    let mut lines = String::new();
    while !input.0.is_empty() {
        let [call, c, d, entries, store_lent, other_lent, catalogue, read] =
            [(); 8].map(|()| input.number(2));
        let mut store = vec![165; CALLS_STORE_LENGTH];
        let mut other = vec![90; CALLS_OTHER_LENGTH];
        let store_lent = &mut store[..store_lent.min(CALLS_STORE_LENGTH)];
        let other_lent = &mut other[..other_lent];
        let catalogue = input.bytes(catalogue);
        let read = input.bytes(read);
        lines += &match call {
            0 => written(catalogue, read, other_lent),
            1 => row_and_answer(catalogue, c, read),
            _ => replied(entries, |answer| match call {
                2 => exports::classify(catalogue, store_lent, other_lent, answer),
                3 => exports::lookup(catalogue, c, d, read, answer),
                4 => exports::list(catalogue, d, read, other_lent, answer),
                5 => exports::row(catalogue, c, read, answer),
                6 => exports::write(catalogue, read, other_lent, answer),
                _ => exports::check(catalogue, answer),
            }),
        };
        lines += &format!(" store {} other {}\n", fnv1a(&store), fnv1a(&other));
    }
    lines
}

fn written(catalogue: &[u8], store: &[u8], output: &mut [u8]) -> String {
    match calls::write(catalogue, store, output) {
        Ok(length) => format!("length {length}"),
        Err(refusal) => refused(refusal),
    }
}

fn row_and_answer(catalogue: &[u8], c: usize, store: &[u8]) -> String {
    let (answer, part) = match calls::row(catalogue, c, store) {
        Ok(row) => (format!("row {} {}", row.offset, row.bytes.len()), row.bytes),
        Err(refusal) => (refused(refusal), &[][..]),
    };
    format!("{answer} part {} {}", part.len(), fnv1a(part))
}

/// What an exported call returns with so many entries lent of an answer, and
/// the whole answer.
pub(crate) fn replied(entries: usize, call: impl FnOnce(&mut [u64]) -> usize) -> String {
    let mut answer = [99; 6];
    let returned = call(&mut answer[..entries.min(6)]);
    format!(
        "returned {returned} {}",
        answer.map(|entry| entry.to_string()).join(" ")
    )
}
