//! Cartridge images in files.

use std::fs::{self, File};
use std::io::{self, Read};
use std::path::Path;

use tapecard::{Device, Refusal};

use crate::command_line::failure::Failure;
use crate::files::held_file::{HeldFile, Purpose};
use crate::files::identity::Identity;
use crate::tape::drive::Drive;
use crate::tape::header::{self, Header};
use crate::words;

/// The refusal of an image that breaks a header rule.
const BROKEN_HEADER: Refusal = Refusal {
    number: 2,
    device: Device::Stream,
};

/// The longest file that is read: the largest tape, and room for gaps and a tail.
pub const LONGEST_FILE: u64 = 256 * 1024 * 1024;

/// A drive with the image of this file in it, to be read. Nothing is locked: a file is replaced at once, never in part.
pub fn load(path: &Path) -> Result<Drive, Failure> {
    ensure_plain(path)?;
    let fail = |e| Purpose::Image.failed(path, &e);
    let mut file = File::open(path).map_err(fail)?;
    let before = Identity::of(&file.metadata().map_err(fail)?);
    let image = read(&mut file, before.length()).map_err(fail)?;
    if Identity::of(&file.metadata().map_err(fail)?) != before {
        return Err(changed(path));
    }
    drive_with(path, image, before.length())
}

/// A drive with the image of this file in it, and the file held so that it can be replaced.
pub fn take(path: &Path) -> Result<(HeldFile, Drive), Failure> {
    let (held, image, length) = take_unjudged(path)?;
    Ok((held, drive_with(path, image, length)?))
}

/// The file held, the bytes of the image, and the length of the file. Of a file that is no image only the header is read.
pub fn take_unjudged(path: &Path) -> Result<(HeldFile, Vec<u8>, u64), Failure> {
    ensure_plain(path)?;
    let mut held = HeldFile::take(path, Purpose::Image)?;
    let fail = |e| Purpose::Image.failed(path, &e);
    let Some((file, length)) = held.content() else {
        return Err(fail(io::ErrorKind::NotFound.into()));
    };
    let image = read(file, length).map_err(fail)?;
    held.ensure_unchanged().map_err(|_| changed(path))?;
    Ok((held, image, length))
}

/// A device or a directory is no image and becomes none.
pub fn ensure_plain(path: &Path) -> Result<(), Failure> {
    match fs::metadata(path) {
        Ok(metadata) if !metadata.is_file() => Err(Failure::work(format!(
            "{} is no plain file; name a cartridge image",
            words::shown(path)
        ))),
        _ => Ok(()),
    }
}

fn changed(path: &Path) -> Failure {
    Failure::work(format!(
        "{} was changed by another program while it was read; try again when that has ended",
        words::shown(path)
    ))
}

/// The header is judged first, so that a large file that is no image is not read into memory, nor is one with an absurd tail.
fn read(file: &mut File, length: u64) -> io::Result<Vec<u8>> {
    let mut image = Vec::new();
    file.take(header::LENGTH as u64).read_to_end(&mut image)?;
    if !Header::read(&image).is_some_and(|header| header.allows(length)) {
        return Ok(image);
    }
    if length > LONGEST_FILE {
        return Err(io::Error::other(format!(
            "it has {length} bytes, and no image of more than {LONGEST_FILE} is taken (the largest tape needs a quarter)"
        )));
    }
    file.read_to_end(&mut image)?;
    Ok(image)
}

fn drive_with(path: &Path, image: Vec<u8>, length: u64) -> Result<Drive, Failure> {
    if (image.len() as u64) < length {
        return Err(not_taken(path, length, BROKEN_HEADER));
    }
    Drive::with(image).map_err(|refusal| not_taken(path, length, refusal))
}

/// An image that a device has refused, of a file with this length.
pub fn not_taken(path: &Path, length: u64, refusal: Refusal) -> Failure {
    Failure::work(format!(
        "{} is no whole cartridge image ({refusal}). The file has {}: it may have been cut short, or be something else. \
         Take another copy, or make a fresh image with tapecard new",
        words::shown(path),
        words::count(length, "byte")
    ))
}
