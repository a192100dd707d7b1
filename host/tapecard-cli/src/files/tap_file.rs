//! SIMH tape files to be read.

use std::fs::File;
use std::path::Path;

use crate::command_line::failure::Failure;
use crate::files::held_file::read_at_most;
use crate::files::image_file::LONGEST_FILE;
use crate::words;

/// The whole file, up to the length of the longest image: what stands behind an end mark is not looked at, but may be there.
pub fn read(path: &Path) -> Result<Vec<u8>, Failure> {
    let read = File::open(path).and_then(|mut file| read_at_most(&mut file, LONGEST_FILE));
    read.map_err(|e| {
        Failure::work(format!(
            "{} could not be read: {}; nothing was changed",
            words::shown(path),
            words::io_error(&e)
        ))
    })
}
