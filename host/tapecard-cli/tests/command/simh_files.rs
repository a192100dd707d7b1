//! Tape files that a real SIMH wrote, kept in examples/simh: what each has on it stands here by hand, as its README tells it.

use std::fs;
use std::path::Path;

use crate::common::Place;

/// A place with this one of the kept files in it.
fn place(name: &str) -> Place {
    let kept = Path::new(env!("CARGO_MANIFEST_DIR")).join("../../examples/simh");
    let place = Place::new();
    place.write(name, fs::read(kept.join(name)).expect("a kept file"));
    place
}

/// A record of text: lines of 16 bytes that tell the record and the line.
fn text(record: usize, bytes: usize) -> Vec<u8> {
    let line = |line: usize| format!("rec {record:02} line {line:03}\n");
    (0..bytes / 16).flat_map(|n| line(n).into_bytes()).collect()
}

/// The tape has these kinds and blocks, and its end mark, which SIMH does not write, is not missed.
#[track_caller]
fn holds(place: &Place, name: &str, size: usize, kinds: &[u8], blocks: &[(usize, Vec<u8>)]) {
    let said = place.run(&["import", name, "t.img"]);
    assert_eq!((said.status, said.err.as_str()), (0, ""));
    let image = place.read("t.img");
    assert_eq!(image[2..4], (size as u16).to_be_bytes());
    assert_eq!(image[8..12], (kinds.len() as u32).to_be_bytes());
    assert_eq!(image[32..][..kinds.len()], *kinds);
    for (element, bytes) in blocks {
        let at = 32 + kinds.len() + element * size;
        assert_eq!(image[at..][..size], **bytes, "element {element}");
    }
}

#[test]
fn records_of_512_bytes() {
    let place = place("blocks-512.tap");
    let every_byte: Vec<u8> = (0..512).map(|n| n as u8).collect();
    let blocks = [(0, text(1, 512)), (1, text(2, 512)), (3, every_byte)];
    holds(&place, "blocks-512.tap", 512, &[1, 1, 2, 1, 2, 2], &blocks);
    place.run(&["labels", "t.img"]).is_good(
        "\
place  number  length
    0       1       2
    3       2       1
    5       3       0
",
    );
}

#[test]
fn records_of_1024_bytes() {
    let place = place("blocks-1024.tap");
    let blocks = [(1, text(1, 1024)), (3, text(2, 1024)), (4, text(3, 1024))];
    holds(&place, "blocks-1024.tap", 1024, &[2, 1, 2, 1, 1], &blocks);
}

/// What the card writes of SIMH's tape is SIMH's file with the end mark behind it.
#[test]
fn a_file_of_simh_goes_out_as_it_came() {
    for name in ["blocks-512.tap", "blocks-1024.tap", "marks.tap"] {
        let place = place(name);
        assert_eq!(place.run(&["import", name, "t.img"]).status, 0);
        assert_eq!(place.run(&["export", "t.img", "back.tap"]).status, 0);
        let expected = [place.read(name), vec![0xFF; 4]].concat();
        assert_eq!(place.read("back.tap"), expected);
    }
}

#[test]
fn two_tape_marks() {
    holds(&place("marks.tap"), "marks.tap", 1024, &[2, 2], &[]);
}

#[test]
fn files_that_are_refused() {
    for (name, why) in [
        (
            "odd.tap",
            "(refusal 12): item 3, at offset 524, is a record of 81 bytes, and t.img would have blocks of 512; nothing was changed. \
             A cartridge takes records of 512 or of 1024 bytes, all alike: have the tape written in such",
        ),
        (
            "mixed.tap",
            "(refusal 12): item 2, at offset 520, is a record of 1024 bytes, and t.img would have blocks of 512; nothing was \
             changed. The records before it have 512, and a cartridge takes records of one size alone: have the tape written in such",
        ),
        (
            "overwritten.tap",
            "(refusal 11): item 3, at offset 8, is cut: a record of 1814049072 bytes takes 1814049080 with its lengths, and 1032 \
             are left; nothing was changed. The file was cut or damaged on its way, or written over a longer one: take another \
             copy, or import its first 8 bytes (head -c 8) for the 2 items before it",
        ),
    ] {
        let place = place(name);
        let sentence = format!("{name} was not imported {why}");
        place.run(&["import", name, "t.img"]).is_bad(1, &sentence);
        assert_eq!(place.names(), [name]);
    }
}
