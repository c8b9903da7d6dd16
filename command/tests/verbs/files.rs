//! Files and streams: trouble with them, links, permissions.

use std::fs::{self, File};
use std::os::unix::fs::{FileTypeExt, MetadataExt, PermissionsExt, chown};
use std::os::unix::process::CommandExt;
use std::path::Path;
use std::process::Stdio;

use girvotal_command::verbs::VERBS;

use crate::support::{Folder, say, told, words};

#[test]
fn file_trouble() {
    let folder = Folder::with_lake();
    folder.write("cut.state", &folder.read("lake.state")[..100]);
    std::os::unix::fs::symlink("nowhere", folder.path.join("dangling")).expect("a link");
    let missing = "No such file or directory (os error 2)";
    let cases = [
        ("check none.gv", format!("cannot read none.gv: {missing}")),
        (
            "lookup none.state a b",
            format!("cannot read none.state: {missing}"),
        ),
        (
            "add none.state 'a < b'",
            format!("cannot read none.state: {missing}"),
        ),
        (
            "classify lake.gv -o no/lake.state",
            format!("cannot write no/lake.state: cannot lock its folder no: {missing}"),
        ),
        (
            "list lake.gv pitch",
            "lake.gv is no state: it does not begin with `GIRVOTAL`; `girvotal classify` makes one"
                .to_string(),
        ),
        ("list cut.state pitch", {
            let length = folder.read("lake.state").len();
            format!("cut.state is damaged: it has 100 bytes, not {length}")
        }),
        ("compile lake.gv -o .", "cannot write .: ".to_string()),
        (
            "add /dev/null 'a < b'",
            "/dev/null is no plain file, and can't be changed".to_string(),
        ),
        (
            "compile lake.gv -o dangling",
            format!("cannot follow dangling: {missing}"),
        ),
    ];
    for (line, sentence) in cases {
        let (status, output, errors) = folder.run(line);
        assert_eq!((status, output.as_str()), (4, ""), "{line}");
        assert!(
            errors.starts_with(&format!("girvotal: {sentence}")) && errors.contains("; "),
            "{line}: {errors}"
        );
    }
    assert!(!folder.has("none.state.girvotal-new"));
}

/// Every verb that prints, with standard output on a full device.
#[test]
fn full_device() {
    let folder = Folder::with_lake();
    folder.write("wrong.gv", "kind tap\ntapp < tap\n");
    let lines = [
        "--help",
        "--version",
        "check lake.gv",
        "check wrong.gv --json",
        "compile lake.gv -o -",
        "compile lake.gv -o made.bin",
        "text lake.gv",
        "text lake.gv --owl",
        "classify lake.gv -o -",
        "lookup lake.state pitch pitch",
        "lookup lake.state pitch tap",
        "list lake.state pitch",
        "above lake.state pitch",
        "query lake.state 'offers some water'",
        "diff lake.gv w1.gv",
        "tree lake.state",
        "tree lake.state --html",
        "tree lake.state --dot",
        "update lake.state lake.gv --dry-run",
        "change lake.state",
        "add lake.state 'tap < pillar'",
        "withdraw lake.state 'tap < pillar'",
        "write lake.state -o -",
        "explain 19",
    ];
    for verb in VERBS {
        let of_it = |line: &&str| line.split(' ').next() == Some(verb.name);
        assert!(lines.iter().any(of_it), "{}", verb.name);
    }
    for line in lines {
        let full = File::options()
            .write(true)
            .open("/dev/full")
            .expect("a full device");
        let mut command = folder.command(&words(line));
        let output = command.stdout(Stdio::from(full)).output().expect("a run");
        let (status, _, errors) = told(output);
        assert_eq!(status, 4, "{line}: {errors}");
        let sentence = "girvotal: cannot write to standard output: ";
        assert!(errors.starts_with(sentence), "{line}: {errors}");
    }
    // First a pipe of its own, so that no device is harmed by a run that replaces what it is given.
    let line = "mkfifo pipe; cat pipe > piped & girvotal compile w1.gv -o pipe > told && wait";
    let (status, _, errors) = folder.shell(line);
    assert_eq!((status, errors.as_str()), (0, ""));
    assert_eq!(folder.read("piped"), folder.read("w1.bin"));
    let pipe = fs::metadata(folder.path.join("pipe")).expect("still there");
    assert!(pipe.file_type().is_fifo() && !folder.has("pipe.girvotal-new"));
    for line in [
        "compile lake.gv -o /dev/full",
        "classify lake.gv -o /dev/full",
    ] {
        let (status, _, errors) = folder.run(line);
        assert_eq!(status, 4, "{line}");
        assert!(
            errors.starts_with("girvotal: cannot write /dev/full: "),
            "{line}: {errors}"
        );
    }
    let device = fs::metadata("/dev/full").expect("still there").file_type();
    assert!(device.is_char_device() && !Path::new("/dev/full.girvotal-new").exists());
}

#[test]
fn streams() {
    let folder = Folder::with_lake();
    let (status, output, errors) = folder.shell("girvotal check - < lake.gv");
    assert_eq!((status, errors.as_str()), (0, ""));
    assert_eq!(output, folder.done("check lake.gv"));
    let line = "girvotal compile - -o - < lake.gv > made.bin && girvotal compile lake.gv -o x.bin";
    assert_eq!(folder.shell(line).0, 0);
    assert_eq!(folder.read("made.bin"), folder.read("x.bin"));
    let line = "girvotal classify - -o - < lake.gv | girvotal lookup - corner-pitch powered-pitch";
    assert_eq!(folder.shell(line), (0, "yes\n".into(), String::new()));
    let line = "echo 'kind a\nb < a' | girvotal check -";
    let error = "-:2:1: error: `b` is not declared; declare it first\n".to_string();
    assert_eq!(folder.shell(line), (3, String::new(), error));
    // Pipes by links to them.
    let (status, output, errors) = folder.shell("girvotal tree lake.state -o /dev/stdout | cat");
    assert_eq!((status, errors.as_str()), (0, ""));
    assert!(output.starts_with(&folder.done("tree lake.state")));
    let line = "girvotal compile w1.gv -o /dev/fd/3 3>&1 > told | cat > piped";
    assert_eq!(folder.shell(line), (0, String::new(), String::new()));
    assert_eq!(folder.read("piped"), folder.read("w1.bin"));
    assert_eq!(folder.run("lookup -- lake.state pitch pitch").0, 0);
    folder.write("wide.gv", [0xFF, 0xFE, b'k', 0, b'i', 0]);
    let error = "wide.gv:1:1: error: the byte 0xFF is not UTF-8\n".to_string();
    assert_eq!(
        folder.run("classify wide.gv -o wide.state"),
        (3, String::new(), error)
    );
}

/// A link is followed, and the permissions are kept.
#[test]
fn links_and_permissions() {
    let folder = Folder::with_lake();
    let path = folder.path.join("lake.state");
    fs::set_permissions(&path, fs::Permissions::from_mode(0o640)).expect("permissions");
    std::os::unix::fs::symlink("lake.state", folder.path.join("link")).expect("a link");
    folder.done("withdraw link 'tap < supplies some water'");
    let mode = fs::metadata(&path).expect("the state").permissions().mode();
    assert_eq!(mode & 0o777, 0o640);
    assert!(
        fs::symlink_metadata(folder.path.join("link"))
            .expect("the link")
            .is_symlink()
    );
    assert_eq!(
        folder
            .run("lookup lake.state 'Seeplatz Süd' comfort-pitch")
            .0,
        1
    );
}

/// A state keeps its owner, group and mode, or nothing is changed.
#[test]
fn owners() {
    let folder = Folder::with_lake();
    let path = folder.path.join("lake.state");
    let line = "withdraw lake.state 'tap < supplies some water'";
    let who = |path: &Path| {
        let data = fs::metadata(path).expect("the state");
        (data.uid(), data.gid(), data.mode() & 0o7777)
    };
    if who(&path).0 != 0 {
        say("files: not run by root, so no file is given to another user");
        return;
    }
    chown(&path, Some(1234), Some(5678)).expect("another owner");
    fs::set_permissions(&path, fs::Permissions::from_mode(0o664)).expect("permissions");
    folder.done(line);
    assert_eq!(who(&path), (1234, 5678, 0o664));
    // Another user may write it, but can't give away what it makes.
    let before = folder.read("lake.state");
    fs::set_permissions(&path, fs::Permissions::from_mode(0o666)).expect("permissions");
    fs::set_permissions(&folder.path, fs::Permissions::from_mode(0o777)).expect("permissions");
    let add = line.replace("withdraw", "add");
    let mut command = folder.command(&words(&add));
    let output = command.uid(4321).gid(4321).output().expect("a run");
    let error = "girvotal: cannot write lake.state: it can't stay with user 1234 and group 5678: \
                 Operation not permitted (os error 1); let someone do it who may\n";
    assert_eq!(told(output), (4, String::new(), error.to_string()));
    assert!(before == folder.read("lake.state") && !folder.has("lake.state.girvotal-new"));
    // Its owner can.
    let mut command = folder.command(&words(&add));
    let output = command.uid(1234).gid(5678).output().expect("a run");
    assert_eq!(told(output).0, 0);
    assert_eq!(who(&path), (1234, 5678, 0o666));
}

/// A state that may not be written is refused, and left as it is.
#[test]
fn write_protected() {
    let folder = Folder::with_lake();
    let before = folder.read("lake.state");
    let path = folder.path.join("lake.state");
    fs::set_permissions(&path, fs::Permissions::from_mode(0o444)).expect("permissions");
    for line in [
        "withdraw lake.state 'tap < supplies some water'",
        "update lake.state w1.gv",
        "classify w1.gv -o lake.state",
    ] {
        let (status, output, errors) = folder.run(line);
        assert_eq!((status, output.as_str()), (4, ""), "{line}");
        assert!(
            errors.starts_with("girvotal: cannot write lake.state: "),
            "{line}: {errors}"
        );
    }
    assert!(before == folder.read("lake.state"));
    folder.done("update lake.state w1.gv --dry-run");
}

/// `-o` replaces what it makes, and nothing else without `--force`.
#[test]
fn other_files() {
    let folder = Folder::with_lake();
    folder.done("compile lake.gv -o lake.bin");
    folder.done("tree lake.state -o lake.tree");
    folder.done("tree lake.state --html -o lake.html");
    folder.done("tree lake.state --dot -o lake.dot");
    folder.write("photo.jpg", [0xFF, 0xD8, 0, 1]);
    folder.write("notes.txt", "Wash house\n\n   closed\n");
    folder.write("empty", "");
    let files = [
        ("w1.gv", "a text"),
        ("lake.bin", "a catalogue"),
        ("lake.state", "a state"),
        ("lake.tree", "a tree"),
        ("lake.html", "a page"),
        ("lake.dot", "a graph"),
        ("photo.jpg", "something else"),
        ("notes.txt", "something else"),
    ];
    folder.done("classify lake.gv -o source");
    let lines = [
        ("compile campsite.gv -o", "a catalogue"),
        ("write source -o", "a catalogue"),
        ("classify campsite.gv -o", "a state"),
        ("tree source -o", "a tree"),
        ("tree source --html -o", "a page"),
        ("tree source --dot -o", "a graph"),
    ];
    for (line, makes) in lines {
        for (file, is) in files {
            let before = folder.read(file);
            let (status, _, errors) = folder.run(&format!("{line} {file}"));
            if is == makes {
                assert_eq!((status, errors.as_str()), (0, ""), "{line} {file}");
            } else {
                let sentence = format!(
                    "girvotal: {file} is {is}, and would be replaced by {makes}; name another \
                     file, or add `--force`\n"
                );
                assert_eq!((status, errors), (3, sentence), "{line} {file}");
                assert!(before == folder.read(file), "{line} {file}");
                folder.done(&format!("{line} {file} --force"));
                folder.write(file, before);
            }
        }
        folder.write("empty", "");
        folder.done(&format!("{line} empty"));
    }
}

/// A standard output that is closed is one that can't be written to.
#[test]
fn closed_output() {
    let folder = Folder::with_lake();
    for line in [
        "check lake.gv",
        "lookup lake.state tap tap",
        "--help",
        "list lake.state tap",
    ] {
        let error = "girvotal: cannot write to standard output: it is closed; send it to what \
                     takes it, a file or /dev/null\n";
        let ended = folder.shell(&format!("girvotal {line} >&-"));
        assert_eq!(ended, (4, String::new(), error.to_string()), "{line}");
        let (status, _, errors) = folder.shell(&format!("girvotal {line} > /dev/null <&-"));
        assert_eq!((status, errors.as_str()), (0, ""), "{line}");
    }
}
