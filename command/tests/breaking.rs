//! Runs broken off after each step of making a file: the file is the old or the new one, and the next
//! run takes over what was left. Runs at once wait for each other.

mod support;

use std::ffi::OsString;
use std::fs::File;
use std::os::unix::process::ExitStatusExt;
use std::process::{Command, Stdio};
use std::time::{Duration, Instant};

use girvotal_command::files::Step;
use girvotal_command::{Streams, run};
use support::{Folder, words};

/// The line to run, the step to break off after, and the signal to send itself there instead, for
/// the run that this test starts.
const LINE: &str = "GIRVOTAL_TEST_LINE";
const STEP: &str = "GIRVOTAL_TEST_STEP";
const SIGNAL: &str = "GIRVOTAL_TEST_SIGNAL";

/// What a file is called while it is made.
const NEW: &str = "lake.state.girvotal-new";

/// Not a test of its own: the run that the others start, ended without any cleaning up.
#[test]
fn broken_off() {
    let (Ok(line), Ok(step)) = (std::env::var(LINE), std::env::var(STEP)) else {
        return;
    };
    let after = |done: Step| {
        if format!("{done:?}") != step {
            return;
        }
        match std::env::var(SIGNAL) {
            Ok(signal) => send(&signal, std::process::id()),
            Err(_) => std::process::abort(),
        }
    };
    let arguments: Vec<OsString> = words(&line).into_iter().map(OsString::from).collect();
    let mut streams = Streams {
        input: &mut std::io::empty(),
        output: &mut std::io::sink(),
        errors: &mut std::io::sink(),
        after: &after,
    };
    run(arguments, &mut streams);
    unreachable!("every step is met");
}

/// Sends a signal to a process.
fn send(signal: &str, process: u32) {
    let mut kill = Command::new("kill");
    kill.args(["-s", signal, &process.to_string()]);
    assert!(kill.status().expect("kill").success());
}

/// Runs a line in a folder and breaks it off after a step, by a signal if one is given. The number
/// of the signal that ended it.
fn break_off(folder: &Folder, line: &str, step: Step, signal: Option<&str>) -> Option<i32> {
    let mut command = Command::new(std::env::current_exe().expect("this program"));
    command.args(["--exact", "broken_off", "--nocapture", "--test-threads=1"]);
    command.env(LINE, line).env(STEP, format!("{step:?}"));
    command.envs(signal.map(|signal| (SIGNAL, signal)));
    command
        .current_dir(&folder.path)
        .stdout(Stdio::null())
        .stderr(Stdio::null());
    let status = command.status().expect("a run");
    assert_eq!(
        status.code(),
        None,
        "{line} is ended by a signal after {step:?}"
    );
    status.signal()
}

/// A line that makes `lake.state`, from a folder that has the old one or none.
fn every_step(line: &str, start: fn() -> Folder) {
    let (old, new) = {
        let folder = start();
        let old = folder.has("lake.state").then(|| folder.read("lake.state"));
        folder.done(line);
        (old, folder.read("lake.state"))
    };
    assert_ne!(old.as_ref(), Some(&new), "{line} changes the state");
    for step in Step::ALL {
        let folder = start();
        break_off(&folder, line, step, None);
        let renamed = matches!(step, Step::Renamed | Step::FolderSynced);
        let left = folder.has("lake.state").then(|| folder.read("lake.state"));
        let expected = if renamed {
            Some(new.clone())
        } else {
            old.clone()
        };
        assert!(left == expected, "{line}: the state after {step:?}");
        assert_eq!(folder.has(NEW), !renamed, "{line}: what {step:?} leaves");
        if renamed {
            continue;
        }
        // Readers go on, and so does the next change: it takes over what was left.
        if old.is_some() {
            folder.done("lookup lake.state corner-pitch powered-pitch");
        }
        folder.done(line);
        assert!(folder.read("lake.state") == new, "{line}: done after all");
        assert!(!folder.has(NEW), "{line}: nothing is left after {step:?}");
    }
}

#[test]
fn a_first_state() {
    every_step("classify lake.gv -o lake.state", Folder::new);
}

#[test]
fn a_state_made_again() {
    every_step("classify w1.gv -o lake.state", Folder::with_lake);
}

#[test]
fn a_change() {
    every_step(
        "withdraw lake.state 'tap < supplies some water'",
        Folder::with_lake,
    );
}

#[test]
fn a_change_with_a_new_composite() {
    every_step(
        "add lake.state 'tap < supplies some electricity and water'",
        Folder::with_lake,
    );
}

#[test]
fn an_update() {
    fn start() -> Folder {
        let folder = Folder::with_lake();
        let text = String::from_utf8(folder.read("lake.gv")).expect("UTF-8");
        folder.write("new.gv", text.replace("tap < supplies", "# tap < supplies"));
        folder
    }
    every_step("update lake.state new.gv", start);
}

/// Hang-up, interrupt and termination wait until the file has its name, and leave nothing behind.
#[test]
fn signals() {
    let line = "withdraw lake.state 'tap < supplies some water'";
    let whole = Folder::with_lake();
    whole.done(line);
    for (signal, number) in [("HUP", 1), ("INT", 2), ("TERM", 15)] {
        for step in Step::ALL {
            let folder = Folder::with_lake();
            let ended = break_off(&folder, line, step, Some(signal));
            assert_eq!(ended, Some(number), "{signal} at {step:?}");
            let made = folder.read("lake.state") == whole.read("lake.state");
            assert!(made && !folder.has(NEW), "{signal} at {step:?}");
        }
    }
}

/// A run waits for one that lives, as long as it is told, and then says who holds it up.
#[test]
fn a_living_run() {
    let folder = Folder::with_lake();
    let lock = File::open(&folder.path).expect("the folder");
    lock.lock().expect("a lock");
    let line = "withdraw lake.state 'tap < supplies some water'";
    let before = folder.read("lake.state");
    for wait in ["0", "0.2"] {
        let begin = Instant::now();
        let (status, output, errors) = folder.run(&format!("{line} --wait {wait}"));
        assert_eq!((status, output.as_str()), (4, ""), "{errors}");
        assert!(begin.elapsed().as_secs_f64() >= wait.parse().expect("seconds"));
        let sentence = "girvotal: cannot write lake.state: ";
        let advice = format!(
            " has had its folder locked for {wait} s; try again, or wait longer by `--wait \
             SECONDS`\n"
        );
        let fits = errors.starts_with(sentence) && errors.ends_with(&advice);
        assert!(fits, "{errors}");
        // Where the system tells, this process is named.
        let told = std::fs::exists("/proc/locks").is_ok_and(|is_there| is_there);
        let process = format!("process {} (`", std::process::id());
        assert_eq!(errors.contains(&process), told, "{errors}");
    }
    assert!(folder.read("lake.state") == before);
    // Readers and dry runs wait for nobody; the five seconds that are not said are enough here.
    folder.done("lookup lake.state corner-pitch powered-pitch");
    folder.done("update lake.state lake.gv --dry-run");
    let waiting = folder.command(&words(line)).spawn().expect("a run");
    std::thread::sleep(Duration::from_millis(300));
    lock.unlock().expect("unlocked");
    let ended = waiting.wait_with_output().expect("an end");
    assert!(ended.status.success() && folder.read("lake.state") != before);
    for wait in ["-1", "soon", "inf", ""] {
        let (status, _, errors) = folder.run(&format!("{line} --wait '{wait}'"));
        assert_eq!(status, 3, "{errors}");
    }
}

/// Runs at once: each is in the state, for they wait for each other.
#[test]
fn changes_at_once() {
    let folder = Folder::with_lake();
    let before = axioms(&folder);
    let kinds = [
        "pitch",
        "pillar",
        "tap",
        "electricity",
        "water",
        "comfort-pitch",
    ];
    let line = |kind: &str| {
        words(&format!(
            "add lake.state '\"Seeplatz Süd\" < {kind}' --wait 60"
        ))
    };
    let children: Vec<_> = kinds
        .iter()
        .map(|kind| {
            let mut command = folder.command(&line(kind));
            command.stdout(Stdio::null()).stderr(Stdio::null());
            command.spawn().expect("a run")
        })
        .collect();
    let statuses: Vec<Option<i32>> = children
        .into_iter()
        .map(|mut child| child.wait().expect("an end").code())
        .collect();
    assert!(statuses.iter().all(|&status| status == Some(0)));
    assert_eq!(axioms(&folder), before + kinds.len());
    assert!(!folder.has(NEW));
}

/// How many axioms are in force in the state.
fn axioms(folder: &Folder) -> usize {
    let text = folder.done("text lake.state --exact");
    text.lines()
        .filter(|line| line.contains(" < ") && !line.contains(" then "))
        .count()
}
