//! Why a run ends without doing what was asked, and how it says so.

use std::fmt;

use girvotal::{Question, Refusal};

use crate::json::Json;
use crate::text::Fault;

/// A failure, with its exit status.
#[derive(Debug)]
pub enum Failure {
    /// The library refuses: 2.
    Refused {
        /// By which question.
        question: Question,
        /// What is wrong.
        sentence: String,
    },
    /// Errors in a text: 3.
    Faults {
        /// The text's file, or what stands for it.
        file: String,
        /// All its errors, in order.
        faults: Vec<Fault>,
    },
    /// A wrong way to call the command: 3.
    Usage(String),
    /// A file that can't be read, written or understood: 4.
    File(String),
}

impl Failure {
    /// A refusal with something to add to its sentence.
    pub fn refused(refusal: Refusal, detail: &str) -> Failure {
        let parted = if detail.is_empty() { "" } else { ": " };
        let advice = advice(refusal.question);
        Failure::Refused {
            question: refusal.question,
            sentence: format!("{refusal}{parted}{detail}; {advice}"),
        }
    }

    /// The exit status.
    pub fn status(&self) -> u8 {
        match self {
            Failure::Refused { .. } => 2,
            Failure::Faults { .. } | Failure::Usage(_) => 3,
            Failure::File(_) => 4,
        }
    }

    /// As an object.
    pub fn json(&self) -> Json {
        let (name, value) = match self {
            Failure::Refused { question, sentence } => (
                "refused",
                Json::Object(vec![
                    ("number", question.number().into()),
                    ("name", question.name().into()),
                    ("sentence", sentence.as_str().into()),
                ]),
            ),
            Failure::Faults { file, faults } => (
                "errors",
                Json::List(faults.iter().map(|fault| placed(file, fault)).collect()),
            ),
            Failure::Usage(sentence) => ("usage", sentence.as_str().into()),
            Failure::File(sentence) => ("file", sentence.as_str().into()),
        };
        Json::Object(vec![(name, value)])
    }
}

/// What to do about a refusal, with the command.
pub fn advice(question: Question) -> &'static str {
    match question {
        Question::Counts => "drop what nothing uses, or make two catalogues of it",
        Question::InForce => "leave it out",
        Question::NotInForce => "`girvotal text STATE` prints those in force",
        Question::Full => "withdraw some first",
        Question::Occurs => "`girvotal query STATE 'EXPR'` says which kinds meet an expression",
        Question::Whole => "make several changes, or `girvotal update STATE TEXT`",
        Question::Twice => "name it once",
        Question::Spare | Question::Limit => "classify its text again",
        _ => "make the file again, by `girvotal compile` or by what wrote it",
    }
}

/// An error of a text with its place, as an object.
fn placed(file: &str, fault: &Fault) -> Json {
    Json::Object(vec![
        ("file", file.into()),
        ("line", fault.line.into()),
        ("column", fault.column.into()),
        ("message", fault.message.as_str().into()),
    ])
}

impl From<Refusal> for Failure {
    fn from(refusal: Refusal) -> Failure {
        Failure::refused(refusal, "")
    }
}

/// The lines for standard error.
impl fmt::Display for Failure {
    fn fmt(&self, f: &mut fmt::Formatter<'_>) -> fmt::Result {
        match self {
            Failure::Refused { question, sentence } => {
                writeln!(f, "girvotal: refused ({}): {sentence}", question.number())
            }
            Failure::Faults { file, faults } => {
                for fault in faults {
                    let Fault {
                        line,
                        column,
                        message,
                    } = fault;
                    writeln!(f, "{file}:{line}:{column}: error: {message}")?;
                }
                Ok(())
            }
            Failure::Usage(sentence) | Failure::File(sentence) => {
                writeln!(f, "girvotal: {sentence}")
            }
        }
    }
}
