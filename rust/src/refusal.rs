//! The questions that a call puts, and what a refusal says.

use core::fmt;

macro_rules! questions {
    ($($number:literal $variant:ident $name:literal $sentence:literal $advice:literal)*) => {
        /// A question that a call puts; a refusal names the first that is answered no.
        ///
        /// The numbers and their order are those of docs/REFUSALS.md.
        #[derive(Clone, Copy, Debug, PartialEq, Eq, PartialOrd, Ord, Hash)]
        #[non_exhaustive]
        pub enum Question {
            $(#[doc = concat!($number, ": ", $sentence, ".")] $variant,)*
            /// A number that is in no row of the table: the library is newer than the crate.
            Other(u16),
        }

        impl Question {
            /// Every question of the table, by number.
            pub const ALL: &'static [Question] = &[$(Question::$variant),*];

            /// Its number.
            pub const fn number(self) -> usize {
                match self {
                    $(Question::$variant => $number,)*
                    Question::Other(number) => number as usize,
                }
            }

            /// What it is about, in a word or two.
            pub const fn name(self) -> &'static str {
                match self {
                    $(Question::$variant => $name,)*
                    Question::Other(_) => "other",
                }
            }

            /// What is wrong where it is answered no.
            pub const fn sentence(self) -> &'static str {
                match self {
                    $(Question::$variant => $sentence,)*
                    Question::Other(_) => "no question has this number",
                }
            }

            /// What to do about it.
            pub const fn advice(self) -> &'static str {
                match self {
                    $(Question::$variant => $advice,)*
                    Question::Other(_) => "take the crate and the library from one version",
                }
            }
        }
    };
}

questions! {
    1 Header "header" "the catalogue is shorter than its header of 20 bytes"
        "lend the whole file: an empty one, or one cut within its header, gives this"
    2 Total "total" "the catalogue's total is not the length lent"
        "lend exactly the catalogue's bytes, all of them and none after"
    3 Counts "counts" "a count is outside its limits: 1 to 512 concepts, at most 16 roles, \
        64 inclusions, 64 compositions, 4,096 axioms"
        "split the catalogue, or drop what is unused; one without a concept needs one"
    4 Offsets "offsets" "the offsets and the total are not what the counts give"
        "write the sections in their order, without gaps, the first at 20"
    5 Kind "kind" "a concept's kind is above 3"
        "look at the concept record named"
    6 Fields "fields" "a concept's fields are not as its kind lays down"
        "parts have smaller numbers than their record, roles are below the count of roles, \
        and unused fields are 0"
    7 Roles "roles" "an inclusion or a composition names a role that is not there"
        "look at the inclusion or composition record named; inclusions are asked first"
    8 Sides "sides" "an axiom names a concept that is not there"
        "look at the axiom record named"
    9 Order "order" "an axiom is not above the one before it"
        "sort the axioms by left, then right, and drop repeats; the later one is named"
    10 Store "store" "the store is too short"
        "lend as many bytes as girvotal_check answers"
    11 Work "work" "the work space is too short"
        "lend as many bytes as girvotal_check answers"
    12 List "list" "the list is too short"
        "lend as many bytes as girvotal_check answers"
    13 Spare "spare" "a row of the store has a bit set past the last concept"
        "the store is damaged or of another catalogue: classify again"
    14 Limit "limit" "the store has more than 4,096 axioms"
        "the store is damaged or of another catalogue: classify again"
    15 Concept "concept" "a concept named is not in the catalogue"
        "name concepts below the catalogue's count"
    16 InForce "in force" "an axiom to add is in force already"
        "leave it out of the list"
    17 Full "full" "more than 4,096 axioms would be in force"
        "withdraw some first"
    18 NotInForce "not in force" "an axiom to withdraw is not in force"
        "leave it out of the list"
    19 Occurs "occurs" "a concept named does not occur: it is in no axiom in force"
        "for a wish, classify with a kind equal to it, as query does"
    20 Output "output" "the output is too short"
        "lend as many bytes as girvotal_check answers"
    22 Whole "whole" "a list of axioms has more than 64, or not whole ones"
        "lend four bytes for each axiom; for more than 64, make several changes, or classify anew"
    23 Twice "twice" "an axiom stands twice in the two lists together"
        "name each axiom once"
    65535 ShortAnswer "short answer" "the answer has fewer than four entries"
        "lend an answer of four entries"
}

impl Question {
    /// The question of a number; none where the table has no such number.
    pub fn of(number: usize) -> Option<Question> {
        Self::ALL.iter().copied().find(|q| q.number() == number)
    }

    /// Whether a refusal by it names the record at fault.
    pub const fn names_record(self) -> bool {
        matches!(self.number(), 5..=9)
    }
}

/// Why a call was refused; it has changed no byte of what it was lent.
#[derive(Clone, Copy, Debug, PartialEq, Eq, Hash)]
pub struct Refusal {
    /// The question that is answered no.
    pub question: Question,
    /// The first record at fault, for questions 5 to 9; else 0.
    pub record: usize,
}

impl Refusal {
    /// The refusal that the result of a function in [`exported`](crate::exported) says; none where
    /// it is 0.
    pub fn of(result: usize) -> Option<Refusal> {
        let number = result % 65_536;
        (result != 0).then(|| Refusal {
            question: Question::of(number).unwrap_or(Question::Other(number as u16)),
            record: result / 65_536,
        })
    }
}

impl fmt::Display for Refusal {
    fn fmt(&self, f: &mut fmt::Formatter<'_>) -> fmt::Result {
        f.write_str(self.question.sentence())?;
        if self.question.names_record() {
            write!(f, " (record {})", self.record)?;
        }
        Ok(())
    }
}

impl core::error::Error for Refusal {}
