//! What is replaced, what is not, and what a replaced file keeps.

use std::fs::{self, Permissions};
use std::os::unix::fs::{MetadataExt, PermissionsExt, chown, symlink};

use crate::common::Place;

const WRITE: [&str; 12] = [
    "0a", "01", "00", "00", "01", "00", "00", "00", "00", "00", "00", "00",
];
const INQUIRY: &[u8] = b"12 00 00 00 24 00 00 00 00 00 00 00\n";

/// A cartridge with one file `f`, and a block of data `d`.
fn place() -> Place {
    let place = Place::with_image(16, &["--early-warning", "0"]);
    place.write("f", "glyphs");
    place.write("d", [7; 512]);
    assert_eq!(place.run(&["put", "t.img", "f"]).status, 0);
    place
}

fn set_mode(place: &Place, name: &str, mode: u32) {
    fs::set_permissions(place.path(name), Permissions::from_mode(mode)).unwrap();
}

fn stat(place: &Place, name: &str) -> fs::Metadata {
    fs::symlink_metadata(place.path(name)).unwrap()
}

#[test]
fn a_file_that_is_there_is_replaced_by_force_alone() {
    let place = place();
    place.write("dear", "dear");
    let there =
        "dear is there already and stays as it is; choose another name, or replace it with --force";
    place
        .run(&["get", "t.img", "1", "-o", "dear"])
        .is_bad(1, there);
    place
        .run_with(&["packet", "t.img", "--out", "dear"], INQUIRY)
        .is_bad(1, there);
    assert_eq!(place.read("dear"), b"dear");
    place
        .run(&["get", "t.img", "1", "-o", "dear", "--force"])
        .is_good("got dear: 6 bytes\n");
    assert_eq!(place.read("dear"), b"glyphs");
    let words = ["packet", "t.img", "--out", "dear", "--force"];
    assert_eq!(place.run_with(&words, INQUIRY).status, 0);
    assert_eq!(place.read("dear").len(), 36);
}

/// Targets that cannot be written, and why.
const UNWRITABLE: [(&str, &str, &str); 6] = [
    ("--record", "pipe", "could not be read: it is no plain file"),
    (
        "--out",
        "no/o",
        "could not be written: there is no such file or directory; nothing was changed",
    ),
    (
        "--out",
        "sub",
        "could not be written: it is a directory; nothing was changed",
    ),
    (
        "--record",
        "no/r",
        "could not be read: there is no such file or directory",
    ),
    ("--record", "sub", "could not be read: it is a directory"),
    (
        "--record",
        "r444",
        "could not be written: its mode 0444 lets nobody write it (chmod u+w would); nothing was changed",
    ),
];

#[test]
fn a_packet_is_not_sent_where_a_file_could_not_be_kept() {
    let place = place();
    fs::create_dir(place.path("sub")).unwrap();
    assert_eq!(place.shell("mkfifo pipe").status, 0);
    place.write("r444", [0; 16]);
    set_mode(&place, "r444", 0o444);
    let before = place.read("t.img");
    for (option, name, why) in UNWRITABLE {
        let words = [
            &["packet", "t.img", "--data", "d", option, name][..],
            &WRITE,
        ]
        .concat();
        let said = place.run(&words);
        assert_eq!((said.status, said.out.as_str()), (1, ""), "{option} {name}");
        assert!(
            said.err.ends_with(&format!("{name} {why}\n")),
            "{}",
            said.err
        );
        assert_eq!(place.read("t.img"), before);
    }
    assert_eq!(place.names(), ["d", "f", "pipe", "r444", "sub", "t.img"]);
}

/// A device cannot be tried beforehand; what is kept all the same is said.
#[test]
fn what_is_kept_is_said_where_a_target_still_fails() {
    let place = place();
    let script = [
        &b"11 03 00 00 00 00 00 00 00 00 00 00\n0a01 00 00 01 00 00 00 00 00 00 00\n"[..],
        INQUIRY,
    ]
    .concat();
    let words = [
        "packet",
        "t.img",
        "--data",
        "d",
        "--record",
        "r",
        "--out",
        "/dev/full",
    ];
    place.write("r", [0, 0, 0, 0, 1, 0, 0, 0, 0, 0, 0, 0, 0, 0, 0, 0]);
    place.run_with(&words, &script).is_bad(
        1,
        "/dev/full could not be written: the disk is full; kept in t.img and r",
    );
    assert_eq!(place.read("t.img")[8..12], [0, 0, 0, 4]);
    assert_eq!(place.read("r")[..4], [0, 0, 0, 4]);
}

/// What stands where the new content would be written is named, not removed: it may be anything.
#[test]
fn what_is_in_the_way_is_named() {
    let place = place();
    let part = ".tapecard-d0ad3a7140982bd6.part";
    fs::create_dir(place.path(part)).unwrap();
    place.run(&["put", "t.img", "f"]).is_bad(
        1,
        &format!("t.img could not be written: {part} is in the way (it is a directory; remove it); nothing was changed"),
    );
    assert!(stat(&place, part).is_dir());
}

/// As on a disk that fills up while the new image is being written.
#[test]
fn a_file_that_outgrows_its_limit_changes_nothing() {
    let place = place();
    let before = place.read("t.img");
    // An emulator would be ended by the signal itself.
    let emulated = std::env::var("TAPECARD_RUN").is_ok_and(|word| !word.is_empty());
    let ignored = if emulated { "trap '' XFSZ;" } else { "" };
    let said = place.shell(&format!(
        "{ignored} ulimit -f 4; exec $TAPECARD put t.img d"
    ));
    said.is_bad(
        1,
        "t.img could not be written: File too large (os error 27); nothing was changed",
    );
    assert_eq!(place.read("t.img"), before);
    assert_eq!(place.names(), ["d", "f", "t.img"]);
}

/// The bits count for root too.
#[test]
fn an_image_that_nobody_may_write_is_not_replaced() {
    let place = place();
    set_mode(&place, "t.img", 0o444);
    let before = place.read("t.img");
    let why = "t.img could not be written: its mode 0444 lets nobody write it (chmod u+w would)";
    place
        .run(&["put", "t.img", "f"])
        .is_bad(1, &format!("{why}; nothing was changed"));
    place
        .run(&["new", "t.img", "--force"])
        .is_bad(1, &format!("{why}; nothing was changed"));
    let write = [&["packet", "t.img", "--data", "d"][..], &WRITE].concat();
    place
        .run(&write)
        .is_bad(1, &format!("{why}; the packet was not sent"));
    let read = place.run_with(
        &["packet", "t.img", "--any-answer"],
        b"08 01 00 00 01 00 00 00 00 00 00 00\n",
    );
    assert_eq!(read.status, 0, "reading needs no such mode: {}", read.err);
    assert_eq!(place.read("t.img"), before);
    assert_eq!(stat(&place, "t.img").mode() & 0o7777, 0o444);
}

/// Only root may give a file away; any other run sees that its own stays its own.
#[test]
fn owner_group_and_mode_are_kept() {
    let place = place();
    set_mode(&place, "t.img", 0o640);
    let _ = chown(place.path("t.img"), Some(12_345), Some(23_456));
    let before = stat(&place, "t.img");
    assert_eq!(place.run(&["put", "t.img", "f"]).status, 0);
    let after = stat(&place, "t.img");
    assert_ne!(before.ino(), after.ino(), "it is a new file");
    let kept = |m: &fs::Metadata| (m.uid(), m.gid(), m.mode());
    assert_eq!(kept(&before), kept(&after));
}

#[test]
fn hard_links_are_not_parted() {
    let place = place();
    fs::hard_link(place.path("t.img"), place.path("also.img")).unwrap();
    let before = place.read("t.img");
    place.run(&["put", "t.img", "f"]).is_bad(
        1,
        "t.img could not be written: it has 2 names (hard links), and replacing it would part them (copy it to a file \
         of its own); nothing was changed",
    );
    assert_eq!(stat(&place, "t.img").ino(), stat(&place, "also.img").ino());
    assert_eq!(place.read("t.img"), before);
}

#[test]
fn a_link_to_no_file_is_followed() {
    let place = place();
    fs::create_dir(place.path("sub")).unwrap();
    for (link, words) in [
        ("a", &["new", "a", "--force"][..]),
        ("b", &["get", "t.img", "1", "-o", "b"]),
        ("c", &["pulse", "--record", "c"]),
        ("d.tap", &["export", "t.img", "d.tap"]),
        ("e", &["import", "d.tap", "e"]),
    ] {
        symlink(format!("sub/{link}.file"), place.path(link)).unwrap();
        let said = place.run(words);
        assert_eq!(said.status, 0, "{}", said.err);
        assert!(stat(&place, link).is_symlink());
        assert!(stat(&place, &format!("sub/{link}.file")).is_file());
    }
    symlink("circle", place.path("circle")).unwrap();
    let said = place.run(&["get", "t.img", "1", "-o", "circle", "--force"]);
    assert_eq!(said.status, 1);
    assert!(stat(&place, "circle").is_symlink());
}
