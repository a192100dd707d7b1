//! A file that is read to be put on a tape.

use std::ffi::OsStr;
use std::fs::File;
use std::os::unix::ffi::OsStrExt;
use std::path::Path;

use crate::command_line::failure::Failure;
use crate::files::held_file::read_at_most;
use crate::tape::header::LARGEST_CONTENT;
use crate::tape::label::{LONGEST_NAME, Label};
use crate::words;

pub struct Source {
    /// What is told of it.
    pub name: String,
    /// None where it is put in plain blocks.
    pub label: Option<Label>,
    pub bytes: Vec<u8>,
}

impl Source {
    pub fn read(path: &Path, raw: bool) -> Result<Source, Failure> {
        let name = file_name(path)?;
        let read = File::open(path).and_then(|mut f| read_at_most(&mut f, LARGEST_CONTENT));
        let bytes = read.map_err(|e| {
            Failure::work(format!(
                "{} could not be read: {}; nothing was written",
                words::shown(path),
                words::io_error(&e)
            ))
        })?;
        Ok(Source {
            name: words::names::bytes_shown(&name),
            label: (!raw).then(|| Label::of(name, &bytes)),
            bytes,
        })
    }

    /// The label and the blocks with the file's bytes.
    pub fn blocks(&self, block_size: usize) -> u64 {
        (self.bytes.len().div_ceil(block_size) + usize::from(self.label.is_some())) as u64
    }

    /// What a deed adds of a file in plain blocks, whose length the tape does not keep.
    pub fn padding_told(&self, block_size: usize) -> String {
        let padding = self.bytes.len().next_multiple_of(block_size) - self.bytes.len();
        match (&self.label, padding as u64) {
            (None, 0) => ", raw".into(),
            (None, padding) => format!(", raw, padded with {}", words::count(padding, "zero byte")),
            (Some(_), _) => String::new(),
        }
    }
}

fn file_name(path: &Path) -> Result<Vec<u8>, Failure> {
    let name = path.file_name().map(OsStr::as_bytes).unwrap_or_default();
    if name.is_empty() || name.len() > LONGEST_NAME {
        return Err(Failure::work(format!(
            "{} has no file name of 1 to {LONGEST_NAME} bytes; nothing was written",
            words::shown(path)
        )));
    }
    Ok(name.to_vec())
}
