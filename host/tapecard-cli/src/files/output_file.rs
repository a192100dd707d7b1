//! Where bytes that a command gives out go: a file of their own, a device, or standard output.

use std::fs::{self, File, OpenOptions};
use std::io::{self, Write};
use std::path::{Path, PathBuf};

use crate::command_line::failure::Failure;
use crate::files::held_file::{HeldFile, Purpose, unwritten};
use crate::words;

pub enum OutputFile {
    Standard,
    /// A device or a pipe, which cannot be replaced.
    Open(PathBuf, File),
    Held(HeldFile),
}

pub fn is_standard(path: &Path) -> bool {
    path.as_os_str() == "-"
}

impl OutputFile {
    /// Makes sure of the target. A plain file that is there stays unless `force` is given.
    pub fn open(path: &Path, force: bool) -> Result<OutputFile, Failure> {
        if is_standard(path) {
            return Ok(OutputFile::Standard);
        }
        let refuse = |e| unwritten(path, &e, "nothing was changed");
        match fs::metadata(path) {
            Ok(m) if m.is_dir() => Err(refuse(io::ErrorKind::IsADirectory.into())),
            Ok(m) if !m.is_file() => {
                let file = OpenOptions::new().write(true).open(path);
                Ok(OutputFile::Open(path.to_owned(), file.map_err(refuse)?))
            }
            _ => Ok(OutputFile::Held(take_free(path, force)?)),
        }
    }

    /// Keeps these bytes, all that there are so far. Those that went out for good are taken from them.
    pub fn keep(&mut self, bytes: &mut Vec<u8>) -> Result<(), (PathBuf, io::Error)> {
        let (path, done) = match self {
            OutputFile::Held(held) => (held.path().to_owned(), held.save(bytes)),
            OutputFile::Open(path, file) => (path.clone(), send(file, bytes)),
            OutputFile::Standard => ("standard output".into(), send(&mut io::stdout(), bytes)),
        };
        done.map_err(|e| (path, e))
    }
}

fn send(out: &mut impl Write, bytes: &mut Vec<u8>) -> io::Result<()> {
    out.write_all(bytes)?;
    out.flush()?;
    bytes.clear();
    Ok(())
}

/// Takes hold of a file to be made or, where that is asked for, replaced.
pub fn take_free(path: &Path, force: bool) -> Result<HeldFile, Failure> {
    if !force && fs::metadata(path).is_ok() {
        return Err(there_already(path));
    }
    let held = HeldFile::take(path, Purpose::Output)?;
    if held.is_there() && !force {
        return Err(there_already(path));
    }
    held.ensure_replaceable()
        .map_err(|e| unwritten(path, &e, "nothing was changed"))?;
    Ok(held)
}

fn there_already(path: &Path) -> Failure {
    Failure::work(format!(
        "{} is there already and stays as it is; choose another name, or replace it with --force",
        words::shown(path)
    ))
}
