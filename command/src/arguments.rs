//! The command's arguments, by the table of verbs.

use std::ffi::{OsStr, OsString};
use std::time::Duration;

use crate::failure::Failure;
use crate::not_utf8;
use crate::text::nearest;
use crate::verbs::{VERBS, Verb};

/// An option of a verb.
#[derive(Debug)]
pub struct Flag {
    /// As it is written.
    pub name: &'static str,
    /// What follows it; empty if nothing does.
    pub value: &'static str,
    /// What it is for.
    pub help: &'static str,
}

/// What every verb takes.
pub const COMMON: [Flag; 2] = [
    Flag {
        name: "--json",
        value: "",
        help: "print one JSON object, errors too",
    },
    Flag {
        name: "--help",
        value: "",
        help: "print this",
    },
];

/// What is taken without a verb or with any.
pub const OPTIONS: [Flag; 3] = [
    Flag {
        name: "--help",
        value: "",
        help: "print help; after a verb, its own, as `help VERB` does",
    },
    Flag {
        name: "--version",
        value: "",
        help: "print the version",
    },
    Flag {
        name: "--json",
        value: "",
        help: "with any verb: print one JSON object, errors too",
    },
];

/// How long a run waits for another one, unless `--wait` says it.
const WAIT: Duration = Duration::from_secs(5);

/// What the command is for.
pub const DESCRIPTION: &str = "Says which kinds of a catalogue lie under which, and keeps that in step while axioms\n\
     are added and withdrawn.";

/// What `-` stands for.
pub const STREAMS: &str = "A file `-` is standard input or output.";

/// The exit statuses.
pub const STATUSES: [(u8, &str); 5] = [
    (0, "done or yes"),
    (1, "no"),
    (2, "refused"),
    (3, "wrong text or usage"),
    (4, "file trouble"),
];

/// What is asked for.
pub enum Request {
    /// A text: help, or the version.
    Print(String),
    /// A verb, with what it is given.
    Verb(&'static Verb, Given),
}

/// The operands and options that a verb is given.
#[derive(Debug, Default)]
pub struct Given {
    operands: Vec<OsString>,
    options: Vec<(&'static str, OsString)>,
}

impl Given {
    /// How many operands there are.
    pub fn operands(&self) -> usize {
        self.operands.len()
    }

    /// The operand of a number; the table says how many there are.
    pub fn operand(&self, number: usize) -> &OsStr {
        &self.operands[number]
    }

    /// The same as text.
    pub fn text(&self, number: usize) -> Result<&str, Failure> {
        let operand = self.operand(number);
        operand.to_str().ok_or_else(|| not_utf8(operand))
    }

    /// Whether an option is given.
    pub fn has(&self, name: &str) -> bool {
        self.options.iter().any(|(given, _)| *given == name)
    }

    /// How long the run waits for another one.
    pub fn wait(&self) -> Result<Duration, Failure> {
        let Some(value) = self.values("--wait").last() else {
            return Ok(WAIT);
        };
        let seconds = value.to_str().and_then(|text| text.parse().ok());
        let wait = seconds.and_then(|seconds| Duration::try_from_secs_f64(seconds).ok());
        let wrong = || {
            let value = value.to_string_lossy();
            let sentence = format!("`{value}` is no number of seconds; write `--wait 30`");
            Failure::Usage(sentence)
        };
        wait.ok_or_else(wrong)
    }

    /// The values of an option, in order.
    pub fn values<'a>(&'a self, name: &'a str) -> impl Iterator<Item = &'a OsStr> + 'a {
        let named = move |given: &&(&str, OsString)| given.0 == name;
        self.options
            .iter()
            .filter(named)
            .map(|(_, value)| value.as_os_str())
    }
}

impl Request {
    /// What the arguments ask for.
    pub fn parse(arguments: &[OsString]) -> Result<Request, Failure> {
        let Some(first) = arguments.iter().find(|argument| *argument != "--json") else {
            return Err(Failure::Usage(
                "a verb is missing; `girvotal --help` lists them".into(),
            ));
        };
        let name = first.to_str().ok_or_else(|| not_utf8(first))?;
        match name {
            "--help" | "-h" => return Ok(Request::Print(overview())),
            "--version" | "-V" => return Ok(Request::Print(version())),
            _ => {}
        }
        let at = arguments.iter().position(|argument| argument == first);
        let rest = &arguments[at.map_or(0, |at| at + 1)..];
        if name == "help" {
            return help(rest).map(Request::Print);
        }
        let verb = verb(name)?;
        if options(rest).any(|argument| argument == "--help" || argument == "-h") {
            return Ok(Request::Print(verb.help()));
        }
        Ok(Request::Verb(verb, verb.given(rest)?))
    }
}

/// The verb of a name.
fn verb(name: &str) -> Result<&'static Verb, Failure> {
    let unknown = || {
        let meant = meant(name, VERBS.iter().map(|verb| verb.name));
        Failure::Usage(format!(
            "`{name}` is no verb; `girvotal --help` lists them{meant}"
        ))
    };
    let mut verbs = VERBS.iter();
    verbs.find(|verb| verb.name == name).ok_or_else(unknown)
}

/// `help`, `help VERB`
fn help(arguments: &[OsString]) -> Result<String, Failure> {
    let mut words = arguments.iter().filter(|argument| *argument != "--json");
    match (words.next(), words.next()) {
        (None, _) => Ok(overview()),
        (Some(name), None) => {
            let name = name.to_str().ok_or_else(|| not_utf8(name))?;
            match name {
                "help" | "--help" | "-h" => Ok(overview()),
                _ => Ok(verb(name)?.help()),
            }
        }
        _ => Err(Failure::Usage(
            "help takes one verb; usage: girvotal help [VERB]".into(),
        )),
    }
}

/// The arguments among which options are: those before `--`.
pub fn options(arguments: &[OsString]) -> impl Iterator<Item = &OsString> {
    arguments.iter().take_while(|argument| *argument != "--")
}

/// `; did you mean ..?`, if one of these is near.
fn meant<'a>(name: &str, names: impl Iterator<Item = &'a str>) -> String {
    match nearest(name, names) {
        Some(near) => format!("; did you mean `{near}`?"),
        None => String::new(),
    }
}

fn version() -> String {
    format!(
        "girvotal {} (ABI {}, state file {})\n",
        env!("CARGO_PKG_VERSION"),
        girvotal::ABI,
        crate::state::VERSION
    )
}

/// The help for the whole command.
fn overview() -> String {
    let mut text = format!(
        "Usage: girvotal VERB ..\n\n{DESCRIPTION}\n\
         docs/COMMAND.md has the text's grammar.\n\nVerbs:\n"
    );
    for verb in VERBS {
        text += &format!("  {:<10}{}\n", verb.name, verb.summary);
    }
    let statuses = STATUSES.map(|(status, meaning)| format!("{status} {meaning}"));
    text += &format!(
        "\nOptions:\n{}\n{STREAMS}\nExit: {}.\n",
        flags(&OPTIONS),
        statuses.join(", ")
    );
    text
}

/// Lines for options.
fn flags(flags: &[Flag]) -> String {
    let line = |flag: &Flag| {
        let written = format!("{} {}", flag.name, flag.value);
        format!("  {written:<16}{}\n", flag.help)
    };
    flags.iter().map(line).collect()
}

impl Verb {
    /// Its help.
    pub fn help(&self) -> String {
        format!(
            "Usage: girvotal {} {}\n\n{}\n\nOptions:\n{}{}",
            self.name,
            self.usage,
            self.help,
            flags(self.flags),
            flags(&COMMON)
        )
    }

    /// A usage error that names the verb's usage.
    fn misused(&self, what: &str, meant: &str) -> Failure {
        Failure::Usage(format!(
            "{what}; usage: girvotal {} {}{meant}",
            self.name, self.usage
        ))
    }

    /// Whether it can't do without `-o`: the usage has in brackets what may be left out.
    fn needs_output(&self) -> bool {
        self.flags.iter().any(|flag| flag.name == "-o") && !self.usage.contains("[-o ")
    }

    /// The arguments after its name.
    fn given(&'static self, arguments: &[OsString]) -> Result<Given, Failure> {
        let mut given = Given::default();
        let mut rest = arguments.iter();
        while let Some(argument) = rest.next() {
            if argument == "--" {
                given.operands.extend(rest.by_ref().cloned());
            } else if !argument.to_string_lossy().starts_with('-') || argument == "-" {
                given.operands.push(argument.clone());
            } else if argument == "--json" {
                given.options.push(("--json", OsString::new()));
            } else {
                given.options.push(self.option(argument, &mut rest)?);
            }
        }
        let most = self.operands.len();
        if !(most - self.optional..=most).contains(&given.operands.len()) {
            let names = self.operands.join(" ");
            return Err(self.misused(&format!("{} takes {names}", self.name), ""));
        }
        match (given.values("-o").count(), self.needs_output()) {
            (0 | 2.., true) => Err(self.misused("one `-o` is needed", "")),
            (2.., false) => Err(self.misused("one `-o` is enough", "")),
            _ => Ok(given),
        }
    }

    /// An option and its value.
    fn option<'a>(
        &self,
        argument: &OsStr,
        rest: &mut impl Iterator<Item = &'a OsString>,
    ) -> Result<(&'static str, OsString), Failure> {
        let Some(flag) = self.flags.iter().find(|flag| argument == flag.name) else {
            let name = argument.to_string_lossy();
            let names = self.flags.iter().chain(&COMMON).map(|flag| flag.name);
            let wrong = format!("{} has no option `{name}`", self.name);
            return Err(self.misused(&wrong, &meant(&name, names)));
        };
        if flag.value.is_empty() {
            return Ok((flag.name, OsString::new()));
        }
        match rest.next() {
            Some(value) => Ok((flag.name, value.clone())),
            None => Err(self.misused(&format!("`{}` needs {}", flag.name, flag.value), "")),
        }
    }
}
