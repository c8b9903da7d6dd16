//! One run at a time makes files in a folder: the system's lock of the folder, which ends with the
//! run whatever ends it.

use std::fs::{self, File, TryLockError};
use std::os::unix::fs::MetadataExt;
use std::path::Path;
use std::thread;
use std::time::{Duration, Instant};

use crate::failure::Failure;

/// How long between two trials.
const PAUSE: Duration = Duration::from_millis(5);

/// A folder that no other run has locked; until it is dropped.
#[derive(Debug)]
pub struct Lock {
    folder: File,
}

impl Lock {
    /// Locks the folder of a file that is to be made, or says who has it locked for so long.
    pub fn of(file: &Path, wait: Duration) -> Result<Lock, Failure> {
        let path = folder(file);
        let open = File::open(path);
        let cannot = |error| {
            let (file, path) = (file.display(), path.display());
            Failure::File(format!(
                "cannot write {file}: cannot lock its folder {path}: {error}; name a folder that \
                 is there, may be read, and is on a disk with locks"
            ))
        };
        let folder = open.map_err(cannot)?;
        let until = Instant::now().checked_add(wait);
        let early = || until.is_none_or(|until| Instant::now() < until);
        loop {
            match folder.try_lock() {
                Ok(()) => return Ok(Lock { folder }),
                Err(TryLockError::Error(error)) => return Err(cannot(error)),
                Err(TryLockError::WouldBlock) if early() => thread::sleep(PAUSE),
                Err(TryLockError::WouldBlock) => return Err(held_up(file, &folder, wait)),
            }
        }
    }

    /// Makes the names in the folder last.
    pub fn sync(&self) -> std::io::Result<()> {
        self.folder.sync_all()
    }
}

/// The folder that a file stands in.
fn folder(file: &Path) -> &Path {
    let folder = file.parent().filter(|folder| *folder != Path::new(""));
    folder.unwrap_or(Path::new("."))
}

/// The failure of a run that another holds up.
fn held_up(file: &Path, folder: &File, wait: Duration) -> Failure {
    let who = holder(folder).unwrap_or_else(|| "another run".into());
    Failure::File(format!(
        "cannot write {}: {who} has had its folder locked for {} s; try again, or wait longer by \
         `--wait SECONDS`",
        file.display(),
        wait.as_secs_f64()
    ))
}

/// The process that has a folder locked, where the system tells: its number and how it was called.
fn holder(folder: &File) -> Option<String> {
    let inode = folder.metadata().ok()?.ino().to_string();
    let locks = fs::read_to_string("/proc/locks").ok()?;
    let of_folder = |line: &&str| {
        let mut place = line.split_whitespace().nth(5)?.rsplit(':');
        let flock = line.split_whitespace().nth(1) == Some("FLOCK");
        (flock && place.next() == Some(&inode)).then_some(())
    };
    let line = locks.lines().find(|line| of_folder(line).is_some())?;
    let process = line.split_whitespace().nth(4)?;
    let called = fs::read(format!("/proc/{process}/cmdline")).unwrap_or_default();
    let words = String::from_utf8_lossy(&called).replace(char::is_control, " ");
    Some(match words.trim() {
        "" => format!("process {process}"),
        words => format!("process {process} (`{words}`)"),
    })
}
