//! Whole processes beside each other on the files of 512 concepts: the command,
//! the C example, and Konclude where it is installed.

use crate::processes::{self, Ran};
use crate::scratch::Scratch;
use crate::statistics::Sample;
use crate::timing::Budget;
use std::path::{Path, PathBuf};
use std::process::Command;

pub const FILES: [&str; 3] = ["timing-sparse", "timing-medium", "timing-dense"];

/// The other reasoner.
pub const KONCLUDE: &str = "Konclude";

/// What one program took on one file.
pub struct Took {
    pub program: &'static str,
    pub milliseconds: Sample,
    /// Processor time.
    pub processor: Sample,
    /// The most bytes resident.
    pub peak: f64,
}

impl Took {
    fn of(program: &'static str, runs: &[Ran]) -> Took {
        let all = |cost: fn(&Ran) -> f64| runs.iter().map(cost);
        Took {
            program,
            milliseconds: Sample::of(all(|ran| ran.milliseconds).collect()),
            processor: Sample::of(all(|ran| ran.processor).collect()),
            peak: all(|ran| ran.peak).fold(0.0, f64::max),
        }
    }
}

/// What the programs took on one file.
pub struct Whole {
    pub file: &'static str,
    pub took: Vec<Took>,
    /// Konclude was run, and failed: nothing is kept of it.
    pub failed: bool,
}

/// A program with its arguments, and the exit status that it must have.
struct Program {
    name: &'static str,
    words: Vec<String>,
    status: i32,
}

/// The programs of this repository that are run.
pub struct Built {
    pub command: PathBuf,
    pub example: PathBuf,
}

impl Built {
    /// What `./bench` has built.
    pub fn here() -> Built {
        let root = Path::new(env!("CARGO_MANIFEST_DIR")).join("..");
        Built {
            command: root.join("target/release/girvotal"),
            example: root.join("target/example"),
        }
    }

    /// What the command prints of a file; nothing if it refuses.
    fn text(&self, file: &Path, flags: &[&str]) -> Option<Vec<u8>> {
        let mut command = Command::new(&self.command);
        let output = command.arg("text").arg(file).args(flags).output().ok()?;
        output.status.success().then_some(output.stdout)
    }

    /// The programs for a file in `data`.
    fn programs(&self, name: &str, scratch: &Scratch) -> Vec<Program> {
        let data = Path::new(env!("CARGO_MANIFEST_DIR")).join("../data");
        let file = data.join(name).with_extension("bin");
        let shown = |path: &Path| path.display().to_string();
        let girvotal = shown(&self.command);
        let text = self
            .text(&file, &[])
            .expect("the command prints every catalogue");
        let text = scratch.file("text.gv", &text);
        let state = scratch.path("state");
        let classify = |name, file: String| Program {
            name,
            words: vec![
                girvotal.clone(),
                "classify".into(),
                file,
                "-o".into(),
                state.clone(),
            ],
            status: 0,
        };
        let mut programs = vec![
            classify("girvotal, a text", text),
            classify("girvotal, a catalogue", shown(&file)),
            Program {
                name: "C example",
                words: vec![shown(&self.example), shown(&file)],
                // It ends where it withdraws an axiom that these catalogues lack.
                status: 2,
            },
            Program {
                name: "girvotal --version",
                words: vec![girvotal.clone(), "--version".into()],
                status: 0,
            },
        ];
        let owl = self.text(&file, &["--owl"]).filter(|_| installed(KONCLUDE));
        programs.extend(owl.map(|owl| konclude(scratch.file("catalogue.owl", &owl), scratch)));
        programs
    }
}

/// Whether a program of that name is installed.
fn installed(name: &str) -> bool {
    let path = std::env::var_os("PATH").unwrap_or_default();
    std::env::split_paths(&path).any(|folder| folder.join(name).is_file())
}

/// Konclude's classification of a file in OWL functional syntax, ended after 20
/// seconds: now and then it hangs, with one thread more often.
fn konclude(owl: String, scratch: &Scratch) -> Program {
    let words = [
        "timeout",
        "-s",
        "KILL",
        "20",
        KONCLUDE,
        "classification",
        "-w",
        "2",
        "-i",
    ];
    let mut words: Vec<String> = words.map(String::from).to_vec();
    words.extend([owl, "-o".into(), scratch.path("konclude.owl")]);
    Program {
        name: KONCLUDE,
        words,
        status: 0,
    }
}

/// Runs a program once, or again, three times in all, where it does not end with the
/// status that it must have. Nothing if Konclude never does; the others must.
fn run(program: &Program) -> Option<Ran> {
    const TRIES: usize = 3;
    let (first, arguments) = program.words.split_first().expect("a program");
    let arguments: Vec<&str> = arguments.iter().map(String::as_str).collect();
    let mut tries = (0..TRIES).filter_map(|_| processes::run(first, &arguments));
    let ran = tries.find(|ran| ran.status == program.status);
    assert!(
        ran.is_some() || program.name == KONCLUDE,
        "{} does not end with {}",
        program.name,
        program.status
    );
    ran
}

/// Runs all programs on a file in turn, in rounds; one that fails is not run again.
pub fn time(built: &Built, file: &'static str, budget: Budget) -> Whole {
    let scratch = Scratch::new();
    let programs = built.programs(file, &scratch);
    let count = programs.len();
    let mut kept: Vec<(Program, Vec<Ran>)> = programs.into_iter().map(|p| (p, vec![])).collect();
    let round = |kept: &mut Vec<(Program, Vec<Ran>)>| {
        kept.retain_mut(|(program, runs)| {
            let ran = run(program);
            runs.extend(ran);
            ran.is_some()
        });
    };
    round(&mut kept);
    let first = kept.iter().map(|(_, runs)| runs[0].milliseconds).sum();
    (0..budget.rounds(first)).for_each(|_| round(&mut kept));
    let took = kept
        .iter()
        .map(|(program, runs)| Took::of(program.name, &runs[1..]));
    Whole {
        file,
        took: took.collect(),
        failed: kept.len() < count,
    }
}
