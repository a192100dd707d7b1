//! Links the archive `libtapecard.a` that `make archive` leaves in the project's `target/staticlib`.

use std::env;
use std::path::PathBuf;

const DIRECTORY_VARIABLE: &str = "TAPECARD_ARCHIVE_DIR";

fn main() {
    println!("cargo::rerun-if-env-changed={DIRECTORY_VARIABLE}");
    let directory = archive_directory();
    let archive = directory.join("libtapecard.a");
    println!("cargo::rerun-if-changed={}", archive.display());
    if !archive.is_file() {
        println!(
            "cargo::error={} is not there: run `make archive` in the project's root, \
             or name the archive's directory in {DIRECTORY_VARIABLE}",
            archive.display()
        );
        return;
    }
    println!("cargo::rustc-link-search=native={}", directory.display());
    println!("cargo::rustc-link-lib=static=tapecard");
}

fn archive_directory() -> PathBuf {
    match env::var_os(DIRECTORY_VARIABLE) {
        Some(directory) => PathBuf::from(directory),
        None => PathBuf::from(env!("CARGO_MANIFEST_DIR")).join("../../target/staticlib"),
    }
}
