//! The image that a file is read into: one that is there, or one that is made for the file.

use std::fs;
use std::path::Path;

use crate::command_line::args::Args;
use crate::command_line::failure::Failure;
use crate::commands::cartridge::{self, Usual};
use crate::files::held_file::{HeldFile, unwritten};
use crate::files::{image_file, output_file};
use crate::simh::walk::outline;
use crate::simh::words::Cartridge;
use crate::tape::header::{BLOCK_SIZES, Header, LARGEST_CAPACITY};
use crate::words;

pub struct Target {
    held: HeldFile,
    pub image: Vec<u8>,
    /// As it was before the import.
    pub header: Header,
    made: bool,
}

/// What can be said of the options before the file is read.
pub fn judge_options(args: &Args, path: &Path) -> Result<(), Failure> {
    // The range of --early-warning goes by the capacity, which the file may have to tell.
    let largest = Usual {
        capacity: LARGEST_CAPACITY,
        ..Usual::default()
    };
    cartridge::header(args, &largest)?;
    match is_there(path) {
        true => judge_idle_options(args, path),
        false => Ok(()),
    }
}

/// An option that would do nothing is no option: those of a cartridge that is made are for an image that is not there.
fn judge_idle_options(args: &Args, path: &Path) -> Result<(), Failure> {
    match cartridge::OPTIONS.iter().find(|option| args.has(option)) {
        Some(option) => Err(args.wrong(format!(
            "{option} is for an image that is made, and {} is there already",
            words::shown(path)
        ))),
        None => Ok(()),
    }
}

fn is_there(path: &Path) -> bool {
    fs::metadata(path).is_ok()
}

impl Target {
    pub fn take(args: &Args, path: &Path, file: &[u8]) -> Result<Target, Failure> {
        match is_there(path) {
            true => Target::found(args, path),
            false => Target::make(args, path, file),
        }
    }

    fn found(args: &Args, path: &Path) -> Result<Target, Failure> {
        judge_idle_options(args, path)?;
        let (held, drive) = image_file::take(path)?;
        held.ensure_replaceable()
            .map_err(|e| unwritten(path, &e, "nothing was changed"))?;
        Target::of(held, drive.into_image(), false)
    }

    /// As large as the file needs, with blocks of its first record's size, unless options say otherwise.
    fn make(args: &Args, path: &Path, file: &[u8]) -> Result<Target, Failure> {
        let outline = outline(file);
        let first_record = outline.first_record;
        let block_size = BLOCK_SIZES
            .into_iter()
            .find(|size| first_record == Some((*size).into()));
        let capacity = outline.items.clamp(1, LARGEST_CAPACITY as usize) as u32;
        let usual = Usual {
            capacity,
            block_size: block_size.unwrap_or(Usual::default().block_size),
        };
        let header = cartridge::header(args, &usual)?;
        let held = output_file::take_free(path, false)?;
        Target::of(held, header.image(), true)
    }

    fn of(held: HeldFile, image: Vec<u8>, made: bool) -> Result<Target, Failure> {
        let header = Header::read(&image)
            .ok_or_else(|| Failure::work("the image has no header; take another copy"))?;
        Ok(Target {
            held,
            image,
            header,
            made,
        })
    }

    pub fn path(&self) -> &Path {
        self.held.path()
    }

    pub fn cartridge(&self) -> Cartridge<'_> {
        Cartridge {
            name: words::shown(self.path()),
            header: &self.header,
            made: self.made,
        }
    }

    pub fn save(&mut self) -> Result<(), Failure> {
        let saved = self.held.save(&self.image);
        saved.map_err(|e| unwritten(self.path(), &e, "nothing was changed"))
    }

    /// What is said first where the image was made.
    pub fn making_told(&self) -> String {
        match self.made {
            true => cartridge::told(self.path(), &self.header, self.image.len()),
            false => String::new(),
        }
    }
}
