//! Where a name leads: links are followed, also one that leads to no file yet.

use std::fs;
use std::io::{self, ErrorKind};
use std::path::{Path, PathBuf};

/// As many links as the kernel follows.
const MOST_LINKS: usize = 40;

/// The name of the file itself. The file need not be there, its folder must be.
pub fn followed(path: &Path) -> io::Result<PathBuf> {
    let mut path = path.to_owned();
    for _ in 0..MOST_LINKS {
        match fs::canonicalize(&path) {
            Err(e) if e.kind() == ErrorKind::NotFound => {}
            found => return found,
        }
        path = match fs::read_link(&path) {
            Ok(next) => folder_of(&path).join(next),
            Err(_) => return in_real_folder(&path),
        };
    }
    Err(io::Error::other("its links lead in a circle"))
}

fn in_real_folder(path: &Path) -> io::Result<PathBuf> {
    let name = path
        .file_name()
        .ok_or_else(|| io::Error::new(ErrorKind::InvalidInput, "it names no file"))?;
    Ok(fs::canonicalize(folder_of(path))?.join(name))
}

/// The folder that a name stands in.
pub fn folder_of(path: &Path) -> &Path {
    match path.parent() {
        Some(folder) if !folder.as_os_str().is_empty() => folder,
        _ => Path::new("."),
    }
}
