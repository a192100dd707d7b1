//! Output onto an input: two words of a command line that lead to one file, whatever they are called.

use std::fs;
use std::os::unix::fs::symlink;

use crate::common::Place;

const READ: [&str; 12] = [
    "08", "01", "00", "00", "01", "00", "00", "00", "00", "00", "00", "00",
];

/// A cartridge with one file, and a link to it.
fn place() -> Place {
    let place = Place::with_image(16, &[]);
    fs::create_dir(place.path("sub")).unwrap();
    place.write("sub/t.img", "glyphs");
    assert_eq!(place.run(&["put", "t.img", "sub/t.img"]).status, 0);
    symlink("t.img", place.path("link")).unwrap();
    place
}

#[track_caller]
fn refused(place: &Place, words: &[&str], first: &str, second: &str, name: &str) {
    let before = place.read("t.img");
    let (first, second) = (format!("{first} and {second}"), place.names());
    place.run(words).is_bad(
        1,
        &format!("{first} are one file, {name}; nothing was changed. Name another one"),
    );
    assert_eq!(place.read("t.img"), before);
    assert_eq!(place.names(), second);
}

#[test]
fn get_onto_the_image() {
    let place = place();
    for name in ["t.img", "./t.img", "link"] {
        let words = ["get", "t.img", "1", "-o", name, "--force"];
        refused(&place, &words, "the image", "the file to write", name);
    }
}

/// The label's own name may be the image's.
#[test]
fn get_under_the_name_of_the_image() {
    let place = place();
    let words = ["get", "link", "1", "--force"];
    refused(&place, &words, "the image", "the file to write", "t.img");
}

#[test]
fn put_of_the_image_into_itself() {
    let place = place();
    let words = ["put", "t.img", "link"];
    refused(&place, &words, "the image", "the file to put", "link");
}

#[test]
fn export_onto_the_image() {
    let place = place();
    for name in ["t.img", "link"] {
        let words = ["export", "t.img", name, "--force"];
        refused(&place, &words, "the image", "the file to write", name);
    }
}

#[test]
fn an_imports_files_are_apart() {
    let place = place();
    place.write("f.tap", [0; 4]);
    let words = ["import", "link", "t.img"];
    refused(&place, &words, "the SIMH tape file", "the image", "t.img");
    let words = ["import", "f.tap", "t.img", "--record", "link"];
    refused(&place, &words, "the image", "--record", "link");
    let words = ["import", "f.tap", "t.img", "--record", "./f.tap"];
    refused(&place, &words, "the SIMH tape file", "--record", "./f.tap");
    let words = ["import", "f.tap", "new", "--record", "sub/../new"];
    refused(&place, &words, "the image", "--record", "sub/../new");
    assert_eq!(place.read("f.tap"), [0; 4]);
}

#[test]
fn a_packets_files_are_apart() {
    let place = place();
    place.write("r", [0; 16]);
    symlink("r", place.path("also-r")).unwrap();
    for (option, name) in [("--out", "t.img"), ("--record", "link"), ("--out", "link")] {
        let words = [&["packet", "t.img", option, name][..], &READ].concat();
        refused(&place, &words, "the image", option, name);
    }
    let words = ["packet", "t.img", "--data", "link"];
    refused(&place, &words, "the image", "--data", "link");
    for (record, out) in [("r", "also-r"), ("new", "./new"), ("sub/../new", "new")] {
        let words = [
            &["packet", "t.img", "--record", record, "--out", out][..],
            &READ,
        ]
        .concat();
        refused(&place, &words, "--record", "--out", out);
    }
    let words = ["packet", "t.img", "--record", "r", "--data", "also-r"];
    refused(&place, &words, "--record", "--data", "also-r");
    assert_eq!(place.read("r"), [0; 16]);
}

#[test]
fn a_device_may_stand_twice() {
    let words = [
        "packet",
        "t.img",
        "--data",
        "/dev/null",
        "--out",
        "/dev/null",
    ];
    let said = place().run(&words);
    assert_eq!((said.status, said.err.as_str()), (0, ""));
}
