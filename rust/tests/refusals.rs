//! Refusals: every question is reached through the crate, and a refused call changes no byte.

#[path = "support/lent.rs"]
mod lent;
mod support;

use girvotal::exported::{self, ENTRIES, SHORT_ANSWER};
use girvotal::{Builder, Question, Refusal};
use lent::{Call, Lent, axiom, checked, kinds};
use std::collections::BTreeSet;
use support::{file, files};

const CALLS: [Call; 6] = [
    Call::Classify,
    Call::Change(&[], &[]),
    Call::Lookup(0, 0),
    Call::List(0),
    Call::Row(0),
    Call::Write,
];

/// What refuses a buffer that is too short, and the calls that are lent it.
const SHORT: [(Question, &[Call]); 4] = [
    (Question::Store, &CALLS),
    (Question::Work, &[Call::Classify, Call::Change(&[], &[])]),
    (Question::List, &[Call::Change(&[], &[]), Call::List(0)]),
    (Question::Output, &[Call::Write]),
];

/// The buffer that a question asks the length of.
fn buffer(question: Question, lent: &mut Lent) -> &mut Vec<u8> {
    match question {
        Question::Store => &mut lent.store,
        Question::Work => &mut lent.work,
        Question::List => &mut lent.list,
        Question::Output => &mut lent.output,
        other => panic!("{other:?} asks no length"),
    }
}

/// A refusal that names no record.
fn by(question: Question) -> Refusal {
    Refusal {
        question,
        record: 0,
    }
}

/// W1 with some of its two-byte numbers changed, each by its offset.
fn damaged(numbers: &[(usize, u16)]) -> Vec<u8> {
    let mut bytes = file("w1");
    for &(at, number) in numbers {
        bytes[at..at + 2].copy_from_slice(&number.to_le_bytes());
    }
    bytes
}

/// The questions that refused a call.
#[derive(Default)]
struct Met(BTreeSet<Question>);

impl Met {
    /// A call is refused by a question.
    fn refused(&mut self, refusal: Refusal, call: Call, catalogue: &[u8], lent: &Lent) {
        let result = lent.clone().make(call, catalogue);
        assert_eq!(result, Err(refusal), "{call:?}");
        self.0.insert(refusal.question);
    }

    /// Questions 1 to 9, put by every call.
    fn of_catalogues(&mut self, lent: &Lent) {
        let w1 = &file("w1")[..];
        for (question, record, catalogue) in [
            (Question::Header, 0, vec![]),
            (Question::Header, 0, w1[..19].to_vec()),
            (Question::Total, 0, w1[..79].to_vec()),
            (Question::Total, 0, [w1, &[0]].concat()),
            (Question::Counts, 0, damaged(&[(2, 0)])),
            (Question::Counts, 0, damaged(&[(4, 17)])),
            (Question::Offsets, 0, damaged(&[(12, 21)])),
            (Question::Kind, 2, damaged(&[(32, 4), (44, 4)])),
            (Question::Fields, 3, damaged(&[(42, 1)])),
            (Question::Fields, 4, damaged(&[(46, 3)])),
            (Question::Roles, 0, damaged(&[(66, 3)])),
            (Question::Sides, 1, damaged(&[(72, 7), (76, 7)])),
            (Question::Order, 2, damaged(&[(76, 1), (78, 5)])),
        ] {
            for call in CALLS {
                self.refused(Refusal { question, record }, call, &catalogue, lent);
            }
        }
    }

    /// Those of the lengths lent.
    fn of_lengths(&mut self, lent: &Lent) {
        for (question, calls) in SHORT {
            for &call in calls {
                let mut lent = lent.clone();
                buffer(question, &mut lent).clear();
                self.refused(by(question), call, &file("w1"), &lent);
            }
        }
    }

    /// Those of the arguments.
    fn of_arguments(&mut self, lent: &Lent) {
        let w1 = &file("w1")[..];
        let (own, new) = (axiom(0, 4), axiom(0, 3));
        for (question, out, into) in [
            (Question::Whole, vec![own; 65], vec![]),
            (Question::Whole, vec![], vec![new; 65]),
            (Question::Whole, vec![own], vec![new; 1000]),
            (Question::Twice, vec![own; 2], vec![]),
            (Question::Twice, vec![], vec![new; 64]),
            (Question::Twice, vec![own], vec![own]),
            (Question::Concept, vec![axiom(7, 0)], vec![]),
            (Question::Concept, vec![], vec![axiom(0, u16::MAX)]),
            (Question::NotInForce, vec![new], vec![]),
            (Question::InForce, vec![], vec![own]),
        ] {
            self.refused(by(question), Call::Change(&out, &into), w1, lent);
        }
        for call in [
            Call::Lookup(7, 0),
            Call::Lookup(0, 7),
            Call::List(u16::MAX),
            Call::Row(512),
        ] {
            self.refused(by(Question::Concept), call, w1, lent);
        }
        let mut lent = lent.clone();
        let withdrawn = lent.make(Call::Change(&[axiom(1, 5)], &[]), w1);
        assert_eq!(withdrawn, Ok([10, 0, 0, 4]));
        for call in [Call::Lookup(0, 5), Call::List(5), Call::Row(5)] {
            self.refused(by(Question::Occurs), call, w1, &lent);
        }
    }

    /// Those of what the store holds.
    fn of_stores(&mut self, lent: &Lent) {
        let mut spare = lent.clone();
        spare.store[20] |= 128;
        let full = kinds(65, (0..4096).map(|i| axiom(i / 64, i % 64)));
        let mut limit = Lent::classified(&full);
        let one_more = Call::Change(&[], &[axiom(64, 0)]);
        self.refused(by(Question::Full), one_more, &full, &limit);
        let one_moved = Call::Change(&[axiom(0, 0)], &[axiom(64, 0)]);
        assert!(limit.make(one_moved, &full).is_ok(), "as many as before");
        limit.store[0] |= 1;
        for call in &CALLS[1..] {
            self.refused(by(Question::Spare), *call, &file("w1"), &spare);
            self.refused(by(Question::Limit), *call, &full, &limit);
        }
    }
}

/// Every question that a call of the crate can put is answered no.
#[test]
fn every_question() {
    let lent = Lent::classified(&file("w1"));
    let mut met = Met::default();
    met.of_catalogues(&lent);
    met.of_lengths(&lent);
    met.of_arguments(&lent);
    met.of_stores(&lent);
    met.0.insert(Question::ShortAnswer); // the crate lends four entries
    assert!(met.0.iter().eq(Question::ALL), "{:?}", met.0);
}

/// A catalogue with as many axioms as it can have.
fn filled(catalogue: &[u8]) -> Vec<u8> {
    let catalogue = checked(catalogue);
    let n = catalogue.concepts() as u16;
    let pairs = (0..n).flat_map(|left| (0..n).map(move |right| axiom(left, right)));
    let mut builder = Builder::of(&catalogue);
    let more = pairs.filter(|pair| catalogue.axioms().all(|own| own != *pair));
    for axiom in more.take(4096 - catalogue.axioms().len()) {
        builder.axiom(axiom.left, axiom.right);
    }
    builder.build().expect("an accepted catalogue")
}

/// Buffers of exactly the sizes are enough, where write gives the most too; with
/// one byte less a call is refused.
#[test]
fn one_byte_less() {
    let mut met = Met::default();
    for (name, bytes) in files() {
        let catalogue = filled(&bytes);
        let sizes = checked(&bytes).sizes();
        assert_eq!(sizes, checked(&catalogue).sizes(), "{name}");
        assert_eq!(sizes.written, catalogue.len(), "{name}");
        let lent = Lent::classified(&catalogue);
        for call in CALLS {
            let accepted = lent.clone().make(call, &catalogue);
            assert!(accepted.is_ok(), "{name}: {call:?}: {accepted:?}");
        }
        for (question, calls) in SHORT {
            let mut lent = lent.clone();
            buffer(question, &mut lent).pop();
            for &call in calls {
                met.refused(by(question), call, &catalogue, &lent);
            }
        }
    }
}

#[test]
fn short_answers() {
    for length in 0..ENTRIES {
        let result = exported::check(&file("w1"), &mut [0; ENTRIES][..length]);
        assert_eq!(result, SHORT_ANSWER);
        let refusal = Refusal::of(result).expect("refused");
        assert_eq!(refusal.question, Question::ShortAnswer);
    }
}

/// A refusal says its question's sentence, and the record where there is one.
#[test]
fn what_a_refusal_says() {
    for &question in Question::ALL {
        let refusal = Refusal {
            question,
            record: 3,
        };
        let number = question.number();
        let record = if (5..=9).contains(&number) {
            " (record 3)"
        } else {
            ""
        };
        assert_eq!(
            refusal.to_string(),
            format!("{}{record}", question.sentence())
        );
        assert_eq!(Refusal::of(number + 3 * 65_536), Some(refusal));
        assert_eq!(Question::of(number), Some(question));
    }
    let error: Box<dyn std::error::Error> = Box::new(by(Question::Work));
    assert_eq!(error.to_string(), "the work space is too short");
}

/// A number that the crate does not know is told, and no reason to stop the program.
#[test]
fn numbers_of_no_question() {
    assert_eq!(Refusal::of(0), None);
    for number in [21, 24, 65_534] {
        let refusal = Refusal::of(number).expect("refused");
        assert_eq!(refusal.question.number(), number);
        assert_eq!(refusal.to_string(), "no question has this number");
        assert_eq!(Question::of(number), None);
    }
}
