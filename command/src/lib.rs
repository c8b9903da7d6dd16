//! What the command `girvotal` does, over the crate of that name alone.
//!
//! - [`text`]: catalogues as text: compiled, and printed
//! - [`state`]: the state file
//! - [`files`]: files read, and made so that a broken-off run leaves the old or the new one
//! - [`system`]: signals held back meanwhile, and whether standard output was closed
//! - [`verbs`]: the table of verbs, and what each does
//! - [`manual`], [`completion`]: the manual page and bash's completion, made from that table
//! - [`run`]: one run of the command

#![warn(missing_docs)]
#![deny(unsafe_code)]

pub mod arguments;
mod clock;
pub mod completion;
pub mod failure;
pub mod files;
pub mod json;
mod lock;
pub mod manual;
pub mod state;
#[allow(unsafe_code)]
pub mod system;
pub mod text;
pub mod verbs;

use std::ffi::OsString;
use std::io::{Read, Write};

use arguments::Request;
use failure::Failure;
use files::Step;
use json::Json;

/// What a run reads and writes.
pub struct Streams<'a> {
    /// Standard input.
    pub input: &'a mut dyn Read,
    /// Standard output.
    pub output: &'a mut dyn Write,
    /// Standard error.
    pub errors: &'a mut dyn Write,
    /// Called after each step of making a file; nothing, but for tests that break off there.
    pub after: &'a dyn Fn(Step),
}

/// What a verb has to say.
pub struct Report {
    /// The exit status: 0, or 1 for a no.
    pub status: u8,
    /// The lines for standard output.
    pub text: String,
    /// The same as one object.
    pub json: Json,
}

impl Report {
    /// Done, or yes.
    pub fn done(text: String, json: Json) -> Report {
        let status = 0;
        Report { status, text, json }
    }
}

/// Runs the command with its arguments, the program's name left out, and gives the exit status:
/// 0 done or yes, 1 no, 2 refused, 3 wrong text or usage, 4 file trouble.
pub fn run(arguments: Vec<OsString>, streams: &mut Streams<'_>) -> u8 {
    let as_json = arguments::options(&arguments).any(|argument| argument == "--json");
    let report = match Request::parse(&arguments) {
        Ok(Request::Print(text)) => Ok(Report::done(text, Json::Nothing)),
        Ok(Request::Verb(verb, given)) => (verb.run)(&given, streams),
        Err(failure) => Err(failure),
    };
    let (status, text) = match report {
        Ok(report) => (report.status, print(report.text, report.json, as_json)),
        Err(failure) if as_json => (failure.status(), format!("{}\n", failure.json())),
        Err(failure) => {
            // Nothing is left to be told where standard error can't be written to.
            let _ = streams.errors.write_all(failure.to_string().as_bytes());
            return failure.status();
        }
    };
    match files::put(streams.output, text.as_bytes()) {
        Ok(()) => status,
        Err(failure) => {
            let _ = streams.errors.write_all(failure.to_string().as_bytes());
            failure.status()
        }
    }
}

/// What goes to standard output: the object, if that is asked for and there is one.
fn print(text: String, json: Json, as_json: bool) -> String {
    match json {
        Json::Nothing => text,
        json if as_json => format!("{json}\n"),
        _ => text,
    }
}

/// The failure of an argument that is not UTF-8.
fn not_utf8(argument: &std::ffi::OsStr) -> Failure {
    let argument = argument.to_string_lossy();
    Failure::Usage(format!("`{argument}` is not UTF-8; write it so"))
}
