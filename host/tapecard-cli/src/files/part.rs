//! The part: the file that is written beside the one that it will replace, so that this one is always whole.
//!
//! Its name goes by the name of the file that it will become, and its writer holds its lock. So a part whose lock is free was left
//! behind by a run that died, and goes.

use std::ffi::OsStr;
use std::fs::{self, File, OpenOptions};
use std::io::{self, ErrorKind, Write};
use std::os::unix::ffi::OsStrExt;
use std::os::unix::fs::{MetadataExt, OpenOptionsExt, fchown};
use std::path::{Path, PathBuf};
use std::thread;
use std::time::Duration;

use crate::command_line::failure::complain;
use crate::files::identity::Identity;
use crate::files::links;
use crate::system::flock;
use crate::terminal::interrupt::unfinished;
use crate::words;

/// How often a name is tried that another run has, and how long it is given each time.
const TRIES: usize = 100;
const A_MOMENT: Duration = Duration::from_millis(10);
const PRIVATE: u32 = 0o600;
const USUAL: u32 = 0o666;

pub struct Part {
    file: File,
    path: PathBuf,
    named: bool,
}

impl Part {
    /// An empty part beside this file, readable by nobody else where it will replace one.
    pub fn beside(target: &Path, replaces: bool) -> io::Result<Part> {
        let path = part_path(target)?;
        let mode = if replaces { PRIVATE } else { USUAL };
        for _ in 0..TRIES {
            if let Some(part) = Part::begin(&path, mode)? {
                return Ok(part);
            }
            if !remove_left_behind(&path)? {
                thread::sleep(A_MOMENT);
            }
        }
        Err(io::Error::other(
            "another run of tapecard is writing it just now (try again)",
        ))
    }

    /// `None` where a file of this name is there, or was taken for one left behind before its lock was ours.
    fn begin(path: &Path, mode: u32) -> io::Result<Option<Part>> {
        let mut unfinished = unfinished();
        let opened = OpenOptions::new()
            .read(true)
            .write(true)
            .create_new(true)
            .mode(mode)
            .open(path);
        let file = match opened {
            Err(e) if e.kind() == ErrorKind::AlreadyExists => return Ok(None),
            Err(e) if e.kind() == ErrorKind::PermissionDenied => {
                return Err(io::Error::other(
                    "its folder lets us make no file beside it",
                ));
            }
            opened => opened?,
        };
        let locked = flock::try_lock(&file).inspect_err(|_| drop(fs::remove_file(path)))?;
        if !locked || !is_at(&file, path)? {
            return Ok(None);
        }
        unfinished.part = Some(path.to_owned());
        Ok(Some(Part {
            file,
            path: path.to_owned(),
            named: false,
        }))
    }

    /// Owner, group and mode of the file that it will replace.
    pub fn take_after(&self, old: &fs::Metadata) -> io::Result<()> {
        let own = self.file.metadata()?;
        if (own.uid(), own.gid()) != (old.uid(), old.gid()) {
            fchown(&self.file, Some(old.uid()), Some(old.gid())).map_err(|_| {
                io::Error::other(format!(
                    "its owner (user {}, group {}) could not be kept (copy it to a file of your own)",
                    old.uid(),
                    old.gid()
                ))
            })?;
        }
        self.file.set_permissions(old.permissions())
    }

    pub fn fill(&mut self, content: &[u8]) -> io::Result<()> {
        self.file.write_all(content)?;
        self.file.sync_all()
    }

    /// Takes the target's name and place. The file comes back open and locked; `told` is its name for an interrupt to tell.
    pub fn replace(self, target: &Path, told: &Path) -> io::Result<File> {
        self.take_name(target, told, |part, target| fs::rename(part, target))
    }

    /// Takes a name that nobody has: a file that came meanwhile stays.
    pub fn create(self, target: &Path, told: &Path) -> io::Result<File> {
        self.take_name(target, told, name_where_none_is)
    }

    fn take_name(
        mut self,
        target: &Path,
        told: &Path,
        rename: impl FnOnce(&Path, &Path) -> io::Result<()>,
    ) -> io::Result<File> {
        let file = self.file.try_clone()?;
        let mut unfinished = unfinished();
        rename(&self.path, target)?;
        self.named = true;
        unfinished.part = None;
        unfinished.is_kept(told);
        drop(unfinished);
        flush_folder(target, told);
        Ok(file)
    }
}

/// A part that was not named goes away.
impl Drop for Part {
    fn drop(&mut self) {
        if !self.named {
            let mut unfinished = unfinished();
            let _ = fs::remove_file(&self.path);
            unfinished.part = None;
        }
    }
}

/// A link is refused where the name is taken; a file system without links is asked beforehand.
fn name_where_none_is(part: &Path, target: &Path) -> io::Result<()> {
    match fs::hard_link(part, target) {
        Ok(()) => fs::remove_file(part),
        Err(_) if fs::symlink_metadata(target).is_ok() => Err(io::Error::other(
            "another program has made a file of this name meanwhile",
        )),
        Err(_) => fs::rename(part, target),
    }
}

/// Short for a name of any length.
fn part_path(target: &Path) -> io::Result<PathBuf> {
    let name = target
        .file_name()
        .ok_or_else(|| io::Error::new(ErrorKind::InvalidInput, "it names no file"))?;
    Ok(target.with_file_name(format!(".tapecard-{:016x}.part", hash(name))))
}

/// FNV-1a, in 64 bits.
fn hash(name: &OsStr) -> u64 {
    let step = |sum: u64, byte: &u8| (sum ^ u64::from(*byte)).wrapping_mul(0x0100_0000_01b3);
    name.as_bytes().iter().fold(0xcbf2_9ce4_8422_2325, step)
}

/// False where its writer is alive.
fn remove_left_behind(path: &Path) -> io::Result<bool> {
    let found = OpenOptions::new().read(true).write(true).open(path);
    let file = match found {
        Err(e) if e.kind() == ErrorKind::NotFound => return Ok(true),
        found => found.map_err(|e| in_the_way(path, &e))?,
    };
    let left_behind = flock::try_lock(&file)?;
    if left_behind && is_at(&file, path)? {
        fs::remove_file(path)?;
    }
    Ok(left_behind)
}

fn in_the_way(path: &Path, error: &io::Error) -> io::Error {
    io::Error::other(format!(
        "{} is in the way ({}; remove it)",
        words::shown(path.file_name().unwrap_or_default()),
        words::io_error(error)
    ))
}

/// The path still leads to this very file.
fn is_at(file: &File, path: &Path) -> io::Result<bool> {
    match fs::symlink_metadata(path) {
        Ok(there) => Ok(Identity::of(&there).same_file(&Identity::of(&file.metadata()?))),
        Err(e) if e.kind() == ErrorKind::NotFound => Ok(false),
        Err(e) => Err(e),
    }
}

/// A name is safe when its folder is. The file has its content all the same, so this is told and no failure.
fn flush_folder(target: &Path, told: &Path) {
    let flushed = File::open(links::folder_of(target)).and_then(|folder| folder.sync_all());
    if let Err(e) = flushed {
        complain(&format!(
            "{} has its new content, but its folder could not be flushed to the disk ({e}): a power cut now could bring \
             the old content back",
            words::shown(told)
        ));
    }
}
