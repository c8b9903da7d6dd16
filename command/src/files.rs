//! Files read, and files made so that a run broken off at any step leaves the old or the new one.

use std::ffi::{OsStr, OsString};
use std::fs::{self, File, Metadata, OpenOptions};
use std::io::{self, ErrorKind, Write};
use std::os::unix::fs::{MetadataExt, OpenOptionsExt, fchown};
use std::path::{Path, PathBuf};
use std::time::Duration;

use crate::Streams;
use crate::failure::Failure;
use crate::lock::Lock;
use crate::system::Held;

/// A step of making a file.
#[derive(Clone, Copy, Debug, PartialEq, Eq)]
pub enum Step {
    /// FILE.girvotal-new is created; what a run that was killed left there is gone.
    Created,
    /// It has the owner, group and permissions of the file that it will replace.
    Permitted,
    /// The first half of the bytes is written to it.
    HalfWritten,
    /// All are.
    Written,
    /// Its bytes are on the disk.
    Synced,
    /// It has the name FILE.
    Renamed,
    /// That name is on the disk.
    FolderSynced,
}

impl Step {
    /// The steps, in order.
    pub const ALL: [Step; 7] = [
        Step::Created,
        Step::Permitted,
        Step::HalfWritten,
        Step::Written,
        Step::Synced,
        Step::Renamed,
        Step::FolderSynced,
    ];
}

/// Whether a path stands for standard input or output.
pub fn is_stream(path: &OsStr) -> bool {
    path == "-"
}

/// A file's bytes; `-` is standard input.
pub fn read(path: &OsStr, streams: &mut Streams<'_>) -> Result<Vec<u8>, Failure> {
    if is_stream(path) {
        let mut bytes = Vec::new();
        let read = streams.input.read_to_end(&mut bytes);
        return read
            .map(|_| bytes)
            .map_err(|error| cannot("read", "standard input".as_ref(), &error));
    }
    fs::read(path).map_err(|error| cannot("read", path, &error))
}

/// Whether two paths are of one file.
pub fn same(one: &OsStr, other: &OsStr) -> bool {
    let canonical = |path| fs::canonicalize(path).ok();
    !is_stream(one) && canonical(one).is_some_and(|path| canonical(other) == Some(path))
}

/// Writes bytes to standard output.
pub fn put(output: &mut dyn Write, bytes: &[u8]) -> Result<(), Failure> {
    let put = output.write_all(bytes).and_then(|()| output.flush());
    put.map_err(|error| cannot("write to", "standard output".as_ref(), &error))
}

/// The failure of what can't be done with a file, with what to do.
pub fn cannot(what: &str, path: &OsStr, error: &io::Error) -> Failure {
    let advice = match error.kind() {
        ErrorKind::NotFound => "look at the name",
        ErrorKind::PermissionDenied => "let someone do it who may",
        ErrorKind::StorageFull | ErrorKind::QuotaExceeded => "make room",
        ErrorKind::IsADirectory => "name a file in it",
        ErrorKind::BrokenPipe => "send it to what takes it, a file or /dev/null",
        _ => "try it elsewhere",
    };
    let path = path.to_string_lossy();
    Failure::File(format!("cannot {what} {path}: {error}; {advice}"))
}

/// The parts up to a place, and those from there on; the one in which it lies is split.
fn split<'p>(parts: &[&'p [u8]], mut at: usize) -> (Vec<&'p [u8]>, Vec<&'p [u8]>) {
    let halves = parts.iter().map(|part| {
        let here = at.min(part.len());
        at -= here;
        part.split_at(here)
    });
    halves.unzip()
}

fn write_all(file: &mut File, parts: &[&[u8]]) -> io::Result<()> {
    parts.iter().try_for_each(|part| file.write_all(part))
}

/// A file to be made. Where it is to replace a plain file, or there is none yet, no other run can
/// make one in its folder from now on until this is dropped.
#[derive(Debug)]
pub struct Target {
    path: PathBuf,
    /// None where the target is a device or a pipe, which is written to as it is.
    plain: Option<Plain>,
}

/// A plain file to be made.
#[derive(Debug)]
struct Plain {
    lock: Lock,
    /// The file that it will replace.
    old: Option<Metadata>,
}

impl Target {
    /// Begins to make a file, for which it waits so long. A link is followed, also to a pipe, which
    /// has no path of its own.
    pub fn of(path: &OsStr, wait: Duration) -> Result<Target, Failure> {
        let mut path = PathBuf::from(path);
        if fs::metadata(&path).is_ok_and(|data| !data.is_file()) {
            return Ok(Target { path, plain: None });
        }
        if fs::symlink_metadata(&path).is_ok_and(|data| data.is_symlink()) {
            let followed = fs::canonicalize(&path);
            path = followed.map_err(|error| cannot("follow", path.as_os_str(), &error))?;
        }
        let lock = Lock::of(&path, wait)?;
        let old = writable(&path).map_err(|error| cannot("write", path.as_os_str(), &error))?;
        let plain = Some(Plain { lock, old });
        Ok(Target { path, plain })
    }

    /// The same for a file that is read and made anew, and can't be a device or a pipe.
    pub fn of_file(path: &OsStr, wait: Duration) -> Result<Target, Failure> {
        let target = Target::of(path, wait)?;
        match target.plain {
            Some(_) => Ok(target),
            None => Err(Failure::File(format!(
                "{} is no plain file, and can't be changed; name a state's file",
                path.to_string_lossy()
            ))),
        }
    }

    /// The bytes of the plain file that it will replace.
    pub fn old(&self) -> Result<Option<Vec<u8>>, Failure> {
        match &self.plain {
            Some(Plain { old: Some(_), .. }) => fs::read(&self.path)
                .map(Some)
                .map_err(|error| cannot("read", self.path.as_os_str(), &error)),
            _ => Ok(None),
        }
    }

    /// Writes the parts and gives the file its name.
    pub fn save(self, parts: &[&[u8]], streams: &Streams<'_>) -> Result<(), Failure> {
        let path = self.path.as_path();
        let saved = match &self.plain {
            Some(plain) => plain.save(path, parts, streams.after),
            None => OpenOptions::new()
                .write(true)
                .open(path)
                .and_then(|mut file| write_all(&mut file, parts)),
        };
        saved.map_err(|error| cannot("write", path.as_os_str(), &error))
    }
}

/// What is known of a file that may be written; nothing of one that is not there.
fn writable(path: &Path) -> io::Result<Option<Metadata>> {
    let data = match OpenOptions::new().write(true).open(path) {
        Ok(file) => file.metadata()?,
        Err(error) if error.kind() == ErrorKind::NotFound => return Ok(None),
        Err(error) => return Err(error),
    };
    match data.permissions().readonly() {
        // Those who may do anything are told as well.
        true => Err(io::Error::new(
            ErrorKind::PermissionDenied,
            "it is write-protected",
        )),
        false => Ok(Some(data)),
    }
}

impl Plain {
    /// The steps; those before the new name are undone where one fails. Signals wait meanwhile.
    fn save(&self, path: &Path, parts: &[&[u8]], after: &dyn Fn(Step)) -> io::Result<()> {
        let _held = Held::back();
        let mut new = New::create(path, self.old.is_some())?;
        after(Step::Created);
        if let Some(old) = &self.old {
            new.keep(old)?;
        }
        after(Step::Permitted);
        let length = parts.iter().map(|part| part.len()).sum::<usize>();
        let (first, second) = split(parts, length / 2);
        write_all(&mut new.file, &first)?;
        after(Step::HalfWritten);
        write_all(&mut new.file, &second)?;
        after(Step::Written);
        new.file.sync_all()?;
        after(Step::Synced);
        fs::rename(&new.path, path)?;
        new.renamed = true;
        after(Step::Renamed);
        self.lock.sync()?;
        after(Step::FolderSynced);
        Ok(())
    }
}

/// FILE.girvotal-new, removed when dropped unless it has got the name FILE.
struct New {
    path: PathBuf,
    file: File,
    renamed: bool,
}

impl Drop for New {
    fn drop(&mut self) {
        if !self.renamed {
            // Where it can't be removed, the next run tries again.
            let _ = fs::remove_file(&self.path);
        }
    }
}

impl New {
    /// Creates it; what is there was left by a run that was killed, for this one has the lock.
    /// Until it has the old one's permissions, where there is one, nobody else may use it.
    fn create(target: &Path, replaces: bool) -> io::Result<New> {
        let mut path = OsString::from(target);
        path.push(".girvotal-new");
        let path = PathBuf::from(path);
        match fs::remove_file(&path) {
            Err(error) if error.kind() != ErrorKind::NotFound => return Err(error),
            _ => {}
        }
        let mut options = OpenOptions::new();
        options.write(true).create_new(true);
        let mode = if replaces { 0o600 } else { 0o666 };
        let file = options.mode(mode).open(&path)?;
        let renamed = false;
        Ok(New {
            path,
            file,
            renamed,
        })
    }

    /// Gives it the owner, group and permissions of the file that it will replace.
    fn keep(&self, old: &Metadata) -> io::Result<()> {
        let new = self.file.metadata()?;
        if (new.uid(), new.gid()) != (old.uid(), old.gid()) {
            fchown(&self.file, Some(old.uid()), Some(old.gid())).map_err(|error| {
                let (user, group) = (old.uid(), old.gid());
                let what = format!("it can't stay with user {user} and group {group}: {error}");
                io::Error::new(error.kind(), what)
            })?;
        }
        self.file.set_permissions(old.permissions())
    }
}
