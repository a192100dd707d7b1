//! A file that is this run's own from the first look at it to its last replacement: locked against other runs, watched for
//! changes by other programs, replaced only when whole.

use std::fs::{self, File, Metadata, OpenOptions};
use std::io::{self, ErrorKind, Read};
use std::os::unix::fs::{MetadataExt, PermissionsExt};
use std::path::{Path, PathBuf};
use std::thread;
use std::time::{Duration, Instant};

use crate::command_line::failure::{Failure, complain};
use crate::files::identity::Identity;
use crate::files::links;
use crate::files::part::Part;
use crate::system::flock;
use crate::words;

/// How long a run waits for another one that has the file.
const PATIENCE: Duration = Duration::from_secs(5);
const LOOK_AGAIN: Duration = Duration::from_millis(20);
const ANY_WRITER: u32 = 0o222;

pub struct HeldFile {
    /// As the command line names it.
    path: PathBuf,
    /// Where its links lead.
    real: PathBuf,
    there: Option<There>,
}

/// The open file and how it was when its content was known.
struct There {
    file: File,
    identity: Identity,
}

impl HeldFile {
    /// Takes hold of the file, or of its name where none is there yet. Waits for another run that has it.
    pub fn take(path: &Path, purpose: Purpose) -> Result<HeldFile, Failure> {
        let mut patience = Patience::new(path);
        let fail = |e: io::Error| purpose.failed(path, &e);
        loop {
            let real = links::followed(path).map_err(fail)?;
            let file = match open(&real) {
                Err(e) if e.kind() == ErrorKind::NotFound => {
                    return Ok(HeldFile::of(path, real, None));
                }
                opened => opened.map_err(fail)?,
            };
            if !flock::try_lock(&file).map_err(|e| unlockable(path, &e))? {
                patience.wait()?;
                continue;
            }
            let there = There::of(file).map_err(fail)?;
            if there.is_at(&real) {
                return Ok(HeldFile::of(path, real, Some(there)));
            }
        }
    }

    fn of(path: &Path, real: PathBuf, there: Option<There>) -> HeldFile {
        HeldFile {
            path: path.to_owned(),
            real,
            there,
        }
    }

    pub fn path(&self) -> &Path {
        &self.path
    }

    pub fn is_there(&self) -> bool {
        self.there.is_some()
    }

    /// The file to read, and its length; none where there is none yet.
    pub fn content(&mut self) -> Option<(&mut File, u64)> {
        let there = self.there.as_mut()?;
        Some((&mut there.file, there.identity.length()))
    }

    /// Nothing that can be known beforehand keeps [`HeldFile::save`] from replacing it.
    pub fn ensure_replaceable(&self) -> io::Result<()> {
        if self.is_there() {
            OpenOptions::new().write(true).open(&self.real)?;
        }
        self.begin_part().map(drop)
    }

    /// An empty part that has what the file's replacement must keep.
    fn begin_part(&self) -> io::Result<Part> {
        let Some(there) = &self.there else {
            return Part::beside(&self.real, false);
        };
        let old = there.file.metadata()?;
        judge(&old)?;
        let part = Part::beside(&self.real, true)?;
        part.take_after(&old)?;
        Ok(part)
    }

    /// Gives the file this content, or leaves it as it was.
    pub fn save(&mut self, content: &[u8]) -> io::Result<()> {
        self.ensure_unchanged()?;
        let mut part = self.begin_part()?;
        part.fill(content)?;
        self.ensure_unchanged()?;
        let file = match self.there {
            Some(_) => part.replace(&self.real, &self.path)?,
            None => part.create(&self.real, &self.path)?,
        };
        self.there = Some(There::of(file)?);
        Ok(())
    }

    /// The file is still the one that was read: no other is replaced.
    pub fn ensure_unchanged(&self) -> io::Result<()> {
        let Some(there) = &self.there else {
            return Ok(());
        };
        match fs::symlink_metadata(&self.real) {
            Ok(now) if Identity::of(&now) == there.identity => Ok(()),
            _ => Err(io::Error::other(
                "another program has changed or replaced it since it was read",
            )),
        }
    }
}

impl There {
    fn of(file: File) -> io::Result<There> {
        let identity = Identity::of(&file.metadata()?);
        Ok(There { file, identity })
    }

    /// The name has not gone to another file while we waited.
    fn is_at(&self, real: &Path) -> bool {
        let now = fs::symlink_metadata(real).map(|m| Identity::of(&m));
        now.is_ok_and(|now| now.same_file(&self.identity))
    }
}

/// Open for writing where that is allowed: some file systems lock only such a file. A pipe would be waited for, a device might
/// begin to move.
fn open(real: &Path) -> io::Result<File> {
    let metadata = fs::metadata(real)?;
    if metadata.is_dir() {
        return Err(ErrorKind::IsADirectory.into());
    }
    if !metadata.is_file() {
        return Err(io::Error::other("it is no plain file"));
    }
    let both = OpenOptions::new().read(true).write(true).open(real);
    both.or_else(|_| File::open(real))
}

/// The bits count for root too, who may write everything.
fn judge(old: &Metadata) -> io::Result<()> {
    let mode = old.permissions().mode() & 0o7777;
    if mode & ANY_WRITER == 0 {
        return Err(io::Error::other(format!(
            "its mode {mode:04o} lets nobody write it (chmod u+w would)"
        )));
    }
    if old.nlink() > 1 {
        return Err(io::Error::other(format!(
            "it has {} names (hard links), and replacing it would part them (copy it to a file of its own)",
            old.nlink()
        )));
    }
    Ok(())
}

/// Waiting for another run, with a word at the beginning.
struct Patience<'a> {
    path: &'a Path,
    until: Option<Instant>,
}

impl Patience<'_> {
    fn new(path: &Path) -> Patience<'_> {
        Patience { path, until: None }
    }

    fn wait(&mut self) -> Result<(), Failure> {
        let until = *self.until.get_or_insert_with(|| {
            complain(&format!(
                "{} is in use by another run of tapecard; waiting up to {} seconds for it",
                words::shown(self.path),
                PATIENCE.as_secs()
            ));
            Instant::now() + PATIENCE
        });
        if Instant::now() >= until {
            return Err(Failure::work(format!(
                "{} is still in use by another run of tapecard; nothing was changed. Try again when that has ended",
                words::shown(self.path)
            )));
        }
        thread::sleep(LOOK_AGAIN);
        Ok(())
    }
}

/// Reads up to so many bytes; more is an error of its own.
pub fn read_at_most(file: &mut impl Read, most: u64) -> io::Result<Vec<u8>> {
    let mut bytes = Vec::new();
    file.take(most + 1).read_to_end(&mut bytes)?;
    if bytes.len() as u64 > most {
        return Err(io::Error::other(format!(
            "it is longer than {}, more than the largest cartridge holds",
            words::count(most, "byte")
        )));
    }
    Ok(bytes)
}

/// What a file is taken for, to be said where that fails.
#[derive(Clone, Copy)]
pub enum Purpose {
    Image,
    Record,
    Output,
}

impl Purpose {
    pub fn failed(self, path: &Path, error: &io::Error) -> Failure {
        let missing = error.kind() == ErrorKind::NotFound;
        let (path, error) = (words::shown(path), words::io_error(error));
        Failure::work(match self {
            Purpose::Image if missing => {
                format!("the image {path} could not be read: {error}; tapecard new makes one")
            }
            Purpose::Image => format!("the image {path} could not be read: {error}"),
            Purpose::Record => format!("the record {path} could not be read: {error}"),
            Purpose::Output => format!("{path} could not be written: {error}; nothing was changed"),
        })
    }
}

fn unlockable(path: &Path, error: &io::Error) -> Failure {
    Failure::work(format!(
        "{} could not be locked against other runs: {}; nothing was changed. Copy it to a disk that locks files",
        words::shown(path),
        words::io_error(error)
    ))
}

/// The sentence for a file that was not written, and what became of the rest.
pub fn unwritten(path: &Path, error: &io::Error, rest: &str) -> Failure {
    Failure::work(format!(
        "{} could not be written: {}; {rest}",
        words::shown(path),
        words::io_error(error)
    ))
}
