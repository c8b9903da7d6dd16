//! Writers at once on one state, killed at random: every change that was accepted is there.
//!
//! Some dozens of kills; `GIRVOTAL_TEST_KILLS=1000` makes it a thousand.

mod support;

use std::process::{Child, Stdio};
use std::sync::atomic::{AtomicUsize, Ordering};
use std::thread;
use std::time::Duration;

use girvotal_command::state::State;
use reference::random::Random;
use support::{Folder, say, words};

/// How many write at once, and how many kinds the state has.
const WRITERS: usize = 4;
const KINDS: usize = 63;

/// What became of the writers.
#[derive(Default)]
struct Tally {
    /// The axioms whose writer ended with 0.
    accepted: Vec<(usize, usize)>,
    killed: usize,
}

/// Ends a run: by a kill, an interrupt or a termination.
fn end(child: &mut Child, how: usize) {
    match ["", "INT", "TERM"][how] {
        "" => child.kill().expect("a kill"),
        signal => {
            let process = child.id().to_string();
            let mut kill = std::process::Command::new("kill");
            kill.args(["-s", signal, &process]).stderr(Stdio::null());
            // It may have ended by itself.
            let _ = kill.status();
        }
    }
}

/// One writer after the other, each with an axiom of its own, until so many are killed in all.
fn write(folder: &Folder, writer: usize, kills: usize, killed: &AtomicUsize) -> Tally {
    let random = &mut Random::new(writer as u64);
    let mut tally = Tally::default();
    let axioms = (writer..KINDS * KINDS).step_by(WRITERS);
    for (left, right) in axioms.map(|number| (number / KINDS, number % KINDS)) {
        if killed.load(Ordering::SeqCst) >= kills {
            break;
        }
        let line = format!("add s 'k{left} < k{right}' --wait 120");
        let mut command = folder.command(&words(&line));
        command.stdout(Stdio::null()).stderr(Stdio::null());
        let mut child = command.spawn().expect("a run");
        thread::sleep(Duration::from_micros(200 * random.below(100) as u64));
        let ended = child.try_wait().expect("a status").is_some();
        if !ended && random.below(8) > 0 {
            end(&mut child, random.below(3));
        }
        match child.wait().expect("an end").code() {
            Some(status) => {
                assert_eq!(status, 0, "{line}");
                tally.accepted.push((left, right));
            }
            None => {
                killed.fetch_add(1, Ordering::SeqCst);
                tally.killed += 1;
            }
        }
    }
    tally
}

/// How many runs to kill.
fn kills() -> usize {
    let kills = std::env::var("GIRVOTAL_TEST_KILLS");
    kills.map_or(60, |kills| kills.parse().expect("a number"))
}

/// A folder with a state of kinds alone.
fn with_kinds() -> Folder {
    let folder = Folder::new();
    let text: String = (0..=KINDS).map(|i| format!("kind k{i}\n")).collect();
    folder.write("s.gv", text);
    folder.done("classify s.gv -o s");
    folder
}

/// Interrupts and terminations leave the state, old or new, and nothing beside it.
#[test]
fn interrupts_leave_nothing() {
    let folder = with_kinds();
    let random = &mut Random::new(7);
    let names = || -> Vec<_> {
        let entries = std::fs::read_dir(&folder.path).expect("the folder");
        let mut names: Vec<_> = entries
            .map(|entry| entry.expect("one").file_name())
            .collect();
        names.sort();
        names
    };
    let (before, mut killed) = (names(), 0);
    for number in 0..KINDS * KINDS {
        let line = format!("add s 'k{} < k{}'", number / KINDS, number % KINDS);
        let mut command = folder.command(&words(&line));
        command.stdout(Stdio::null()).stderr(Stdio::null());
        let mut child = command.spawn().expect("a run");
        thread::sleep(Duration::from_micros(50 * random.below(100) as u64));
        end(&mut child, 1 + random.below(2));
        killed += usize::from(child.wait().expect("an end").code().is_none());
        assert_eq!(names(), before, "{line}");
        State::read(&folder.read("s")).expect("a state");
        if killed >= kills() {
            return;
        }
    }
    panic!("{killed} were interrupted");
}

#[test]
fn every_accepted_change_is_there() {
    let kills = kills();
    let folder = &with_kinds();
    let killed = &AtomicUsize::new(0);
    let tallies: Vec<Tally> = thread::scope(|scope| {
        let start = |writer| scope.spawn(move || write(folder, writer, kills, killed));
        let writers: Vec<_> = (0..WRITERS).map(start).collect();
        let ends = writers.into_iter().map(|writer| writer.join());
        ends.map(|tally| tally.expect("a writer")).collect()
    });
    let (accepted, killed): (Vec<_>, Vec<usize>) = tallies
        .into_iter()
        .map(|tally| (tally.accepted, tally.killed))
        .unzip();
    let (accepted, killed) = (accepted.concat(), killed.iter().sum::<usize>());
    let state = State::read(&folder.read("s")).expect("a state");
    let axioms = state.site.catalogue().axioms();
    let held: Vec<(usize, usize)> = axioms
        .map(|axiom| (usize::from(axiom.left.0), usize::from(axiom.right.0)))
        .collect();
    let lost = accepted.iter().filter(|axiom| !held.contains(axiom));
    assert_eq!(lost.count(), 0, "accepted changes are lost");
    assert!(killed >= kills, "{killed} were killed");
    // The next change goes through, and nothing is left then.
    folder.done(&format!("add s 'k{KINDS} < k0'"));
    assert!(!folder.has("s.girvotal-new"));
    say(&format!(
        "killed: {killed} writers of {}, {} accepted, {} in the state",
        killed + accepted.len(),
        accepted.len(),
        held.len()
    ));
}
