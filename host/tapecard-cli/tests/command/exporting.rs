//! `export`: a tape as a SIMH tape file (02, A7), and what becomes of the file that it is written to.

use std::fs;

use crate::common::Place;
use crate::reels::{END, MARK, record, unreadable};

/// A cartridge `t.img` of these kinds with blocks of this size, so many of its 8 elements recorded. Every byte of block i is 10 + i.
fn tape(size: usize, kinds: [u8; 8], recorded: u8) -> Place {
    let place = Place::new();
    let words = size.to_string();
    place.run(&["new", "t.img", "--blocks", "8", "--block-size", &words]);
    let mut image = place.read("t.img");
    image[11] = recorded;
    image[32..40].copy_from_slice(&kinds);
    for (element, block) in image[40..].chunks_exact_mut(size).enumerate() {
        block.fill(10 + element as u8);
    }
    place.write("t.img", image);
    place
}

/// The file of a tape with kinds 1 2 4 0 9 255 1, as 02 has it.
fn expected(size: usize) -> Vec<u8> {
    let block = |element: u8| vec![10 + element; size];
    [
        record(&block(0)),
        MARK.to_vec(),
        record(&block(2)),
        unreadable(&block(3)),
        unreadable(&block(4)),
        unreadable(&block(5)),
        record(&block(6)),
        END.to_vec(),
    ]
    .concat()
}

const EVERY_KIND: [u8; 8] = [1, 2, 4, 0, 9, 255, 1, 2];
const MARKED: &str = "tapecard: 1 marked block of t.img went out as plain data: a SIMH tape file has nothing to show the mark by\n";

#[test]
fn every_kind_of_element_in_both_block_sizes() {
    for size in [512, 1024] {
        let place = tape(size, EVERY_KIND, 7);
        let before = place.read("t.img");
        let said = place.run(&["export", "t.img", "t.tap"]);
        let bytes = 6 * (size + 8) + 4 + 4;
        let told = format!(
            "exported t.img to t.tap: 7 elements (3 data blocks (1 marked), 1 filemark, 3 unreadable) in {bytes} bytes\n"
        );
        assert_eq!((said.status, said.out), (0, told));
        assert_eq!(said.err, MARKED);
        assert_eq!(place.read("t.tap"), expected(size));
        assert_eq!(place.read("t.img"), before);
        assert_eq!(place.names(), ["t.img", "t.tap"]);
    }
}

/// Kinds at U and above mean nothing.
#[test]
fn elements_behind_the_end_of_data_do_not_go_out() {
    let place = tape(512, EVERY_KIND, 2);
    place.run(&["export", "t.img", "t.tap"]).is_good(
        "exported t.img to t.tap: 2 elements (1 data block, 1 filemark, 0 unreadable) in 528 bytes\n",
    );
    let expected = [record(&[10; 512]), MARK.to_vec(), END.to_vec()].concat();
    assert_eq!(place.read("t.tap"), expected);
}

#[test]
fn a_blank_tape_is_the_end_mark() {
    let place = tape(1024, EVERY_KIND, 0);
    place.run(&["export", "t.img", "t.tap"]).is_good(
        "exported t.img to t.tap: 0 elements (0 data blocks, 0 filemarks, 0 unreadable) in 4 bytes\n",
    );
    assert_eq!(place.read("t.tap"), END);
}

/// A protected cartridge with kinds at byte 40, blocks at byte 50, and seven bytes behind them.
#[test]
fn an_image_with_another_layout() {
    let mut image = vec![7; 50 + 3 * 512 + 7];
    image[..24].copy_from_slice(&[
        0, 32, 2, 0, 0, 0, 0, 3, 0, 0, 0, 2, 0, 0, 0, 40, 0, 0, 0, 50, 1, 0x81, 0, 3,
    ]);
    image[24..32].fill(0);
    image[40..43].copy_from_slice(&[2, 1, 1]);
    image[50 + 512..][..512].fill(9);
    let place = Place::new();
    place.write("t.img", image);
    assert_eq!(place.run(&["export", "t.img", "t.tap"]).status, 0);
    let expected = [MARK.to_vec(), record(&[9; 512]), END.to_vec()].concat();
    assert_eq!(place.read("t.tap"), expected);
}

/// A file that is replaced has nothing of the old one behind it.
#[test]
fn a_file_that_is_there_is_replaced_by_force_alone() {
    let place = tape(512, EVERY_KIND, 2);
    let dear = [b'd'; 5000];
    place.write("t.tap", dear);
    place.run(&["export", "t.img", "t.tap"]).is_bad(
        1,
        "t.tap is there already and stays as it is; choose another name, or replace it with --force",
    );
    assert_eq!(place.read("t.tap"), dear);
    let said = place.run(&["export", "t.img", "t.tap", "--force"]);
    assert_eq!((said.status, said.err.as_str()), (0, ""));
    assert_eq!(place.read("t.tap").len(), 528);
    assert_eq!(place.names(), ["t.img", "t.tap"]);
}

#[test]
fn bytes_on_standard_output_have_it_for_themselves() {
    let place = tape(512, EVERY_KIND, 7);
    let said = place.run(&["export", "t.img", "-"]);
    assert_eq!((said.status, said.bytes), (0, expected(512)));
    let told = "exported t.img to standard output: 7 elements (3 data blocks (1 marked), 1 filemark, 3 unreadable) in 3128 bytes\n";
    assert_eq!(said.err, format!("{MARKED}{told}"));
    assert_eq!(place.names(), ["t.img"]);
}

/// The file is longer than what a pipe holds.
#[test]
fn a_tape_that_did_not_go_out_whole_is_a_failure() {
    let place = Place::with_image(400, &["--full"]);
    let mut export = place.start(&["export", "t.img", "-"]);
    export.hear("\0\0\0\0");
    export.close_output();
    export.end().is_bad(
        1,
        "standard output could not be written: its reader has closed it; the tape did not go out whole",
    );
}

#[test]
fn a_file_that_cannot_be_written() {
    let place = tape(512, EVERY_KIND, 2);
    fs::create_dir(place.path("sub")).unwrap();
    for (name, why) in [
        (
            "no/t.tap",
            "there is no such file or directory; nothing was changed",
        ),
        ("sub", "it is a directory; nothing was changed"),
        ("/dev/full", "the disk is full; nothing was changed"),
    ] {
        place
            .run(&["export", "t.img", name])
            .is_bad(1, &format!("{name} could not be written: {why}"));
    }
    place.shell("$TAPECARD export t.img - >/dev/full").is_bad(
        1,
        "standard output could not be written: the disk is full; the tape did not go out whole",
    );
    assert_eq!(place.names(), ["sub", "t.img"]);
}

/// As on a disk that fills up: the old file stays.
#[test]
fn a_file_that_outgrows_its_limit_leaves_the_old_one() {
    let place = tape(1024, EVERY_KIND, 7);
    place.write("t.tap", "dear");
    // An emulator would be ended by the signal itself.
    let emulated = std::env::var("TAPECARD_RUN").is_ok_and(|word| !word.is_empty());
    let ignored = if emulated { "trap '' XFSZ;" } else { "" };
    place
        .shell(&format!(
            "{ignored} ulimit -f 4; exec $TAPECARD export t.img t.tap --force"
        ))
        .is_bad(
            1,
            "t.tap could not be written: File too large (os error 27); nothing was changed",
        );
    assert_eq!(place.read("t.tap"), b"dear");
    assert_eq!(place.names(), ["t.img", "t.tap"]);
}

#[test]
fn what_is_no_image_is_not_exported() {
    let place = tape(512, EVERY_KIND, 2);
    let mut image = place.read("t.img");
    image[24] = 1;
    place.write("t.img", &image);
    place.run(&["export", "t.img", "t.tap"]).is_bad(
        1,
        "t.img is no whole cartridge image (refusal 2: image breaks a header rule). The file has 4136 bytes: it may have been cut \
         short, or be something else. Take another copy, or make a fresh image with tapecard new",
    );
    assert_eq!(place.names(), ["t.img"]);
}

/// Reading needs no lock.
#[test]
fn an_image_in_use_is_exported() {
    let place = tape(512, EVERY_KIND, 2);
    let mut session = place.start(&["packet", "t.img"]);
    session.send(b"00 00 00 00 00 00 00 00 00 00 00 00\n");
    session.hear("sense     NO SENSE");
    let said = place.run(&["export", "t.img", "t.tap"]);
    assert_eq!((said.status, said.err.as_str()), (0, ""));
    session.end();
}

/// All the elements that a tape can have.
#[test]
fn the_longest_tape() {
    let place = Place::new();
    place.run(&["new", "t.img", "--full", "--blocks", "65535"]);
    place.run(&["export", "t.img", "t.tap"]).is_good(
        "exported t.img to t.tap: 65535 elements (65535 data blocks, 0 filemarks, 0 unreadable) in 67632124 bytes\n",
    );
    let file = place.read("t.tap");
    assert_eq!(file.len(), 65_535 * 1032 + 4);
    assert!(file.ends_with(&[0, 4, 0, 0, 0xFF, 0xFF, 0xFF, 0xFF]));
}
