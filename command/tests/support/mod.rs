//! Runs of the command in a folder of their own.

#![allow(dead_code)]

use std::collections::HashSet;
use std::ffi::OsString;
use std::fs;
use std::io::Write;
use std::path::{Path, PathBuf};
use std::process::{Command, Output, Stdio};
use std::sync::atomic::{AtomicUsize, Ordering};

use girvotal::{Builder, Catalogue};

/// A new folder, removed when dropped, with the texts and catalogues of `data/`.
pub struct Folder {
    pub path: PathBuf,
}

static FOLDERS: AtomicUsize = AtomicUsize::new(0);

/// Says a line on standard error, also where a test passes.
pub fn say(line: &str) {
    writeln!(std::io::stderr(), "{line}").expect("standard error");
}

/// The repository's folder of catalogues.
pub fn data() -> PathBuf {
    Path::new(env!("CARGO_MANIFEST_DIR")).join("../data")
}

/// The files of `data/` with an ending.
pub fn data_files(ending: &str) -> Vec<PathBuf> {
    let entries = fs::read_dir(data()).expect("the folder data");
    let paths = entries.map(|entry| entry.expect("an entry").path());
    let mut paths: Vec<PathBuf> = paths
        .filter(|path| path.extension() == Some(ending.as_ref()))
        .collect();
    paths.sort();
    assert!(!paths.is_empty(), "files .{ending} in data");
    paths
}

/// A catalogue with each role axiom once, as a text has them.
pub fn once(bytes: &[u8]) -> Vec<u8> {
    let catalogue = Catalogue::new(bytes).expect("accepted");
    let mut builder = Builder::new();
    catalogue.records().for_each(|record| {
        builder.record(record);
    });
    (0..catalogue.roles()).for_each(|_| {
        builder.role();
    });
    let mut seen = HashSet::new();
    for inclusion in catalogue.inclusions().filter(|&i| seen.insert(i)) {
        builder.inclusion(inclusion.within, inclusion.around);
    }
    let mut seen = HashSet::new();
    for composition in catalogue.compositions().filter(|&c| seen.insert(c)) {
        builder.composition(composition.first, composition.second, composition.result);
    }
    for axiom in catalogue.axioms() {
        builder.axiom(axiom.left, axiom.right);
    }
    builder.build().expect("accepted")
}

impl Folder {
    pub fn new() -> Folder {
        let number = FOLDERS.fetch_add(1, Ordering::Relaxed);
        let name = format!("girvotal-{}-{number}", std::process::id());
        let path = std::env::temp_dir().join(name);
        fs::create_dir_all(&path).expect("a new folder");
        for ending in ["gv", "bin"] {
            for file in data_files(ending) {
                let name = file.file_name().expect("a file's name");
                fs::copy(&file, path.join(name)).expect("a copy");
            }
        }
        Folder { path }
    }

    /// A folder with the state of the lake.
    pub fn with_lake() -> Folder {
        let folder = Folder::new();
        folder.done("classify lake.gv -o lake.state");
        folder
    }

    pub fn write(&self, name: &str, bytes: impl AsRef<[u8]>) {
        fs::write(self.path.join(name), bytes).expect("a file written");
    }

    pub fn read(&self, name: &str) -> Vec<u8> {
        fs::read(self.path.join(name)).expect("a file read")
    }

    pub fn has(&self, name: &str) -> bool {
        self.path.join(name).exists()
    }

    /// A run with these arguments, not started.
    pub fn command(&self, arguments: &[impl AsRef<std::ffi::OsStr>]) -> Command {
        let mut command = Command::new(env!("CARGO_BIN_EXE_girvotal"));
        command
            .args(arguments)
            .current_dir(&self.path)
            .stdin(Stdio::null());
        command
    }

    /// A run: its exit status, standard output and standard error.
    pub fn run(&self, line: &str) -> (i32, String, String) {
        told(self.command(&words(line)).output().expect("a run"))
    }

    /// What a run prints that ends with 0 and says nothing on standard error.
    pub fn done(&self, line: &str) -> String {
        let (status, output, errors) = self.run(line);
        assert_eq!((status, errors.as_str()), (0, ""), "girvotal {line}");
        output
    }

    /// A run of a shell line, the command on its path.
    pub fn shell(&self, line: &str) -> (i32, String, String) {
        let bin = Path::new(env!("CARGO_BIN_EXE_girvotal"))
            .parent()
            .expect("its folder");
        let mut path = OsString::from(bin);
        path.push(":");
        path.push(std::env::var_os("PATH").unwrap_or_default());
        let mut command = Command::new("sh");
        command
            .args(["-c", line])
            .env("PATH", path)
            .current_dir(&self.path)
            .stdin(Stdio::null());
        told(command.output().expect("a run"))
    }
}

impl Drop for Folder {
    fn drop(&mut self) {
        let _ = fs::remove_dir_all(&self.path);
    }
}

pub fn told(output: Output) -> (i32, String, String) {
    let text = |bytes| String::from_utf8(bytes).expect("UTF-8");
    let status = output.status.code().expect("an exit status");
    (status, text(output.stdout), text(output.stderr))
}

/// The words of a line; those in single quotes are one.
pub fn words(line: &str) -> Vec<String> {
    let mut words = Vec::new();
    for (i, part) in line.split('\'').enumerate() {
        match i % 2 {
            0 => words.extend(part.split_whitespace().map(String::from)),
            _ => words.push(part.to_string()),
        }
    }
    words
}
