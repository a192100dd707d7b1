//! A drive's record kept in a file between runs.

use std::io::Read;
use std::path::Path;

use tapecard::Device;

use crate::command_line::failure::Failure;
use crate::files::held_file::{HeldFile, Purpose, unwritten};
use crate::files::record_owner;

/// A record's file, held, and what it holds; no bytes where it is not there yet.
pub struct RecordFile<const N: usize> {
    held: HeldFile,
    kept: Option<[u8; N]>,
}

impl<const N: usize> RecordFile<N> {
    /// Takes the file and makes sure that it holds a record of this device, or none yet, and can be written.
    pub fn take(path: &Path, device: Device) -> Result<RecordFile<N>, Failure> {
        let mut held = HeldFile::take(path, Purpose::Record)?;
        let kept = read(&mut held, device)?;
        held.ensure_replaceable()
            .map_err(|e| unwritten(path, &e, "nothing was changed"))?;
        Ok(RecordFile { held, kept })
    }

    pub fn path(&self) -> &Path {
        self.held.path()
    }

    pub fn kept(&self) -> Option<[u8; N]> {
        self.kept
    }

    /// Keeps the record where it is another one than the file has.
    pub fn keep(&mut self, record: &[u8; N]) -> std::io::Result<()> {
        if self.kept.as_ref() != Some(record) {
            self.held.save(record)?;
            self.kept = Some(*record);
        }
        Ok(())
    }
}

fn read<const N: usize>(held: &mut HeldFile, device: Device) -> Result<Option<[u8; N]>, Failure> {
    let path = held.path().to_owned();
    let Some((file, length)) = held.content() else {
        return Ok(None);
    };
    let mut bytes = Vec::new();
    file.take(N as u64 + 1)
        .read_to_end(&mut bytes)
        .map_err(|e| Purpose::Record.failed(&path, &e))?;
    record_owner::judge(&path, device, &bytes)?;
    match bytes.try_into() {
        Ok(record) => Ok(Some(record)),
        Err(_) => Err(record_owner::wrong_length(&path, device, length)),
    }
}
