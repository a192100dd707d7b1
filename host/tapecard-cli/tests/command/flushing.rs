//! What is written is flushed to the disk, the file before its name and the folder after it.

use std::process::Command;

use crate::common::{Place, Said};

/// Tells of fsync, rename and what goes to standard output in the order of the calls; with FAILS set the folder cannot be flushed.
const LISTENER: &str = r#"
#define _GNU_SOURCE
#include <dlfcn.h>
#include <errno.h>
#include <stdio.h>
#include <stdlib.h>
#include <sys/stat.h>
#include <unistd.h>

static void tell(const char *what) {
    FILE *log = fopen(getenv("CALLS"), "a");
    fprintf(log, "%s\n", what);
    fclose(log);
}

int fsync(int fd) {
    struct stat about;
    fstat(fd, &about);
    tell(S_ISDIR(about.st_mode) ? "flush folder" : "flush file");
    if (S_ISDIR(about.st_mode) && getenv("FAILS")) {
        errno = EIO;
        return -1;
    }
    return ((int (*)(int))dlsym(RTLD_NEXT, "fsync"))(fd);
}

int rename(const char *from, const char *to) {
    tell("rename");
    return ((int (*)(const char *, const char *))dlsym(RTLD_NEXT, "rename"))(from, to);
}

ssize_t write(int fd, const void *bytes, size_t count) {
    if (fd == 1) {
        tell("answer");
    }
    return ((ssize_t (*)(int, const void *, size_t))dlsym(RTLD_NEXT, "write"))(fd, bytes, count);
}
"#;

/// Puts a file while the listener listens.
fn put(place: &Place, setting: &str) -> Said {
    place.write("f", "glyphs");
    listen(place);
    place.shell(&format!(
        "{setting} CALLS=calls LD_PRELOAD=./listener.so exec $TAPECARD put t.img f"
    ))
}

fn listen(place: &Place) {
    place.write("listener.c", LISTENER);
    let compiler = std::env::var("TAPECARD_CC").unwrap_or("gcc".into());
    let built = Command::new(compiler)
        .args(["-shared", "-fPIC", "-o"])
        .args([place.path("listener.so"), place.path("listener.c")])
        .arg("-ldl")
        .status();
    assert!(built.expect("a C compiler").success());
}

/// What the listener has heard.
fn calls(place: &Place) -> Vec<String> {
    let calls = String::from_utf8(place.read("calls")).unwrap();
    let mut calls: Vec<String> = calls.lines().map(String::from).collect();
    // An emulator for this very processor is listened to as well.
    calls.dedup();
    calls
}

#[test]
fn file_and_folder_are_flushed_to_the_disk() {
    let place = Place::with_image(8, &[]);
    let said = put(&place, "");
    assert_eq!(said.status, 0, "{}", said.err);
    assert_eq!(
        calls(&place),
        ["flush file", "rename", "flush folder", "answer"]
    );
}

/// What is told before is how the drive stands at the start.
#[test]
fn a_line_of_trains_is_kept_once_and_before_it_is_answered() {
    let place = Place::new();
    assert_eq!(place.run(&["pulse", "--record", "r"]).status, 0);
    listen(&place);
    place.write("lines", "7 2 x17 6 2 x5\n");
    let line = "CALLS=calls LD_PRELOAD=./listener.so $TAPECARD pulse --record r <lines";
    assert_eq!(place.shell(line).status, 0);
    assert_eq!(
        calls(&place),
        ["answer", "flush file", "rename", "flush folder", "answer"]
    );
}

#[test]
fn a_folder_that_cannot_be_flushed_is_told() {
    let place = Place::with_image(8, &[]);
    let said = put(&place, "FAILS=1");
    assert_eq!(said.status, 0, "{}", said.err);
    let told =
        "tapecard: t.img has its new content, but its folder could not be flushed to the disk (";
    assert!(said.err.contains(told), "{}", said.err);
    assert!(place.run(&["list", "t.img"]).out.contains(" f "));
}
