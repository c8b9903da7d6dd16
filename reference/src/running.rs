//! gate_running: what it prints for the lists of calls of its input. The input's
//! form is said at the head of the program, that of a list of calls in the crate
//! `running`.

use crate::calls;
use crate::checksum::fnv1a;
use crate::exports::entries;
use crate::programs::Input;

/// The buffers: of the lists as many bytes as 64 calls ask for; of the answers as
/// many numbers as 65 do.
const STORE_LENGTH: usize = 4_096;
const WORK_LENGTH: usize = 4_096;
const LISTS_LENGTH: usize = 65_536;
const ANSWERS_LENGTH: usize = 390;

/// How many calls are printed at most.
const SHOWN: usize = 64;

/// The bytes of a call; the bytes of list and the numbers of answer that it gets.
pub(crate) const SIZE: usize = HEAD + 2 * ROOM;
pub(crate) const LIST: usize = 1_024;
pub(crate) const ENTRIES: usize = 6;

/// A call's kind and the lengths of its lists, and the room for each list.
const HEAD: usize = 5;
pub(crate) const ROOM: usize = 260;

/// The kinds of calls.
pub(crate) const CLASSIFY: u8 = 0;
pub(crate) const CHANGE: u8 = 1;

/// What carrying out a list of calls answers.
enum Carried {
    Done(usize),
    BadCall(usize),
    ShortLists,
    ShortAnswers,
}

/// The withdrawn list and the added list of a whole call.
fn lists(call: &[u8]) -> Option<[&[u8]; 2]> {
    let mut numbers = Input(&call[1..HEAD]);
    let mut list = |from: usize| call[from..from + ROOM].get(..numbers.number(2));
    Some([list(HEAD)?, list(HEAD + ROOM)?])
}

/// What is asked of a list of calls before the first one.
fn asked(list: &[u8], lists_lent: usize, answers: usize) -> Carried {
    let last_kind = |k: usize| if k == 0 { CLASSIFY } else { CHANGE };
    let bad = |(k, call): (usize, &[u8])| {
        call.len() < SIZE || call[0] > last_kind(k) || lists(call).is_none()
    };
    let count = list.chunks(SIZE).count();
    match list.chunks(SIZE).enumerate().position(bad) {
        Some(k) => Carried::BadCall(k),
        None if lists_lent / LIST < count => Carried::ShortLists,
        None if answers / ENTRIES < count => Carried::ShortAnswers,
        None => Carried::Done(count),
    }
}

/// One call: the number and the record of a refusal, or two zeros, and its counts.
fn answer(
    call: &[u8],
    catalogue: &[u8],
    store: &mut [u8],
    work: &mut [u8],
    touched: &mut [u8],
) -> [usize; ENTRIES] {
    let [withdrawn, added] = lists(call).expect("a right call");
    let result = match call[0] {
        CLASSIFY => calls::classify(catalogue, store, work).map(|c| [c.pairs, c.links, 0, 0]),
        _ => calls::change(catalogue, withdrawn, added, store, work, touched).map(entries),
    };
    match result {
        Ok([p, q, r, s]) => [0, 0, p, q, r, s],
        Err(refusal) => [refusal.number, refusal.record, 0, 0, 0, 0],
    }
}

/// Carries out a list of calls, each with its own part of the lists and of the
/// answers.
fn carry_out(
    catalogue: &[u8],
    list: &[u8],
    store: &mut [u8],
    work: &mut [u8],
    lists: &mut [u8],
    answers: &mut [usize],
) -> Carried {
    let carried = asked(list, lists.len(), answers.len());
    if let Carried::Done(_) = carried {
        let parts = lists.chunks_mut(LIST).zip(answers.chunks_mut(ENTRIES));
        for (call, (touched, entries)) in list.chunks(SIZE).zip(parts) {
            entries.copy_from_slice(&answer(call, catalogue, store, work, touched));
        }
    }
    carried
}

/// What the program prints.
pub fn text(input: &[u8]) -> String {
    let mut input = Input(input);
    let mut lines = String::new();
    while !input.0.is_empty() {
        let [store_lent, work_lent, lists_lent, numbers, catalogue, list] =
            [(); 6].map(|()| input.number(2));
        let mut store = vec![165; STORE_LENGTH];
        let mut work = vec![90; WORK_LENGTH];
        let mut lists = vec![195; LISTS_LENGTH];
        let mut answers = vec![99; ANSWERS_LENGTH];
        let catalogue = input.bytes(catalogue);
        let list = input.bytes(list);
        let carried = carry_out(
            catalogue,
            list,
            &mut store[..store_lent.min(STORE_LENGTH)],
            &mut work[..work_lent.min(WORK_LENGTH)],
            &mut lists[..lists_lent.min(LISTS_LENGTH)],
            &mut answers[..numbers.min(ANSWERS_LENGTH)],
        );
        let (said, count) = match carried {
            Carried::Done(count) => (format!("done {count}"), count),
            Carried::BadCall(k) => (format!("bad call {k}"), 0),
            Carried::ShortLists => ("short lists".to_string(), 0),
            Carried::ShortAnswers => ("short answers".to_string(), 0),
        };
        lines += &format!("{said}\n");
        let parts = answers.chunks(ENTRIES).zip(lists.chunks(LIST));
        for (entries, list) in parts.take(count.min(SHOWN - 1) + 1) {
            let words: String = entries.iter().map(|entry| format!(" {entry}")).collect();
            lines += &format!("{words} list {}\n", fnv1a(list));
        }
        let sums = [&store, &work, &lists].map(|buffer| fnv1a(buffer));
        lines += &format!("store {} work {} lists {}\n", sums[0], sums[1], sums[2]);
    }
    lines
}
