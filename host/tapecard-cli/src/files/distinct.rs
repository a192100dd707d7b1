//! The files that a command names are different ones, whatever they are called.

use std::fs;
use std::path::{Path, PathBuf};

use crate::command_line::failure::Failure;
use crate::files::identity::Identity;
use crate::files::links;
use crate::words;

/// A file with the word for its part in the command.
pub struct Named<'a> {
    pub part: &'a str,
    pub path: &'a Path,
}

/// Refuses where two of them are one file: writing one would destroy the other.
pub fn ensure(files: &[Named]) -> Result<(), Failure> {
    for (index, second) in files.iter().enumerate() {
        for first in &files[..index] {
            if one_file(first.path, second.path) {
                return Err(Failure::work(format!(
                    "{} and {} are one file, {}; nothing was changed. Name another one",
                    first.part,
                    second.part,
                    words::shown(second.path)
                )));
            }
        }
    }
    Ok(())
}

/// Of a command that reads an image and writes another file.
pub fn ensure_written_apart(image: &Path, target: &Path) -> Result<(), Failure> {
    let image = Named {
        part: "the image",
        path: image,
    };
    let target = Named {
        part: "the file to write",
        path: target,
    };
    ensure(&[image, target])
}

fn one_file(first: &Path, second: &Path) -> bool {
    match (identity(first), identity(second)) {
        (Some(first), Some(second)) => first.same_file(&second),
        (None, None) => place(first).is_some_and(|first| Some(first) == place(second)),
        _ => false,
    }
}

/// A device or a pipe may well stand twice.
fn identity(path: &Path) -> Option<Identity> {
    let metadata = fs::metadata(path).ok()?;
    metadata.is_file().then(|| Identity::of(&metadata))
}

/// Where a file that is not there yet would be.
fn place(path: &Path) -> Option<PathBuf> {
    match fs::metadata(path) {
        Ok(_) => None,
        Err(_) => links::followed(path).ok(),
    }
}
