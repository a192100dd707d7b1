//! `import`: a SIMH tape file on a cartridge (02, A7), one that is there or one that is made, and what the drive's record is then.

use std::fs::{self, File, Permissions};
use std::os::unix::fs::PermissionsExt;

use crate::common::{Dice, Place};
use crate::reels::{END, MARK, record, unreadable};

const READ: &str = "08 01 00 00 01 00 00 00 00 00 00 00\n";

/// A place with the file `f.tap` of these items.
fn reel(items: &[Vec<u8>]) -> Place {
    let place = Place::new();
    place.write("f.tap", items.concat());
    place
}

/// A record, a tape mark and an unreadable record of this size.
fn three_items(size: usize) -> [Vec<u8>; 3] {
    [
        record(&vec![1; size]),
        MARK.to_vec(),
        unreadable(&vec![3; size]),
    ]
}

#[test]
fn an_image_is_made_where_none_is_there() {
    for (size, size_bytes) in [(512, [2, 0]), (1024, [4, 0])] {
        for end in [&[][..], &END] {
            let place = reel(&[three_items(size).concat(), end.to_vec()]);
            place.run(&["import", "f.tap", "t.img"]).is_good(&format!(
                "made t.img: 3 elements of {size} bytes, {} bytes in all\n\
                 imported f.tap into t.img: 3 elements (1 data block, 1 filemark, 1 unreadable)\n",
                35 + 3 * size
            ));
            let mut expected = vec![0, 32];
            expected.extend(size_bytes);
            expected.extend([0, 0, 0, 3, 0, 0, 0, 3, 0, 0, 0, 32, 0, 0, 0, 35]);
            expected.extend([0; 12]);
            expected.extend([1, 2, 0]);
            expected.extend([vec![1; size], vec![0; size], vec![3; size]].concat());
            assert_eq!(place.read("t.img"), expected);
            assert_eq!(place.names(), ["f.tap", "t.img"]);
        }
    }
}

/// Blocks at U and above and that of a filemark, kinds, every other field, and what stands between and behind them.
#[test]
fn all_else_of_an_image_that_is_there_stays() {
    let mut image: Vec<u8> = Dice(7).bytes(50 + 6 * 512 + 7);
    image[..24].copy_from_slice(&[
        0, 32, 2, 0, 0, 0, 0, 6, 0, 0, 0, 5, 0, 0, 0, 40, 0, 0, 0, 50, 1, 0x81, 0, 2,
    ]);
    image[24..32].fill(0);
    image[40..46].copy_from_slice(&[4, 9, 1, 2, 77, 1]);
    let place = reel(&[three_items(512).concat(), END.to_vec()]);
    place.write("t.img", &image);
    place.run(&["import", "f.tap", "t.img"]).is_good(
        "imported f.tap into t.img: 3 elements (1 data block, 1 filemark, 1 unreadable), in place of 5\n",
    );
    image[11] = 3;
    image[40..43].copy_from_slice(&[1, 2, 0]);
    image[50..][..512].fill(1);
    image[50 + 2 * 512..][..512].fill(3);
    assert_eq!(place.read("t.img"), image);
    assert_eq!(place.names(), ["f.tap", "t.img"]);
}

#[test]
fn what_follows_the_end_mark_is_not_looked_at() {
    for (rest, told) in [
        (vec![9], "1 byte"),
        ([vec![9; 5], record(&[2; 80])].concat(), "93 bytes"),
    ] {
        let place = reel(&[record(&[1; 512]), END.to_vec(), rest]);
        let said = place.run(&["import", "f.tap", "t.img"]);
        assert_eq!(said.status, 0);
        assert_eq!(
            said.err,
            format!(
                "tapecard: f.tap goes on behind its end mark; that rest of {told} was not looked at\n"
            )
        );
        assert_eq!(place.read("t.img")[8..12], [0, 0, 0, 1]);
    }
}

#[test]
fn a_file_without_elements_leaves_a_blank_tape() {
    for file in [&b""[..], &END] {
        let place = Place::with_image(8, &["--full"]);
        let mut expected = place.read("t.img");
        place.write("f.tap", file);
        place.run(&["import", "f.tap", "t.img"]).is_good(
            "imported f.tap into t.img: 0 elements (0 data blocks, 0 filemarks, 0 unreadable), in place of 8\n",
        );
        expected[11] = 0;
        assert_eq!(place.read("t.img"), expected);
        place.run(&["import", "f.tap", "new.img"]).is_good(
            "made new.img: 1 element of 1024 bytes, 1057 bytes in all\n\
             imported f.tap into new.img: 0 elements (0 data blocks, 0 filemarks, 0 unreadable)\n",
        );
    }
}

/// Marks tell no block size: it is 1024, as `new` has it, unless one is asked for.
#[test]
fn a_file_of_marks_alone() {
    for (words, size) in [(&[][..], 1024), (&["--block-size", "512"], 512)] {
        let place = reel(&[MARK.to_vec(), MARK.to_vec()]);
        place
            .run(&[&["import", "f.tap", "t.img"], words].concat())
            .is_good(&format!(
                "made t.img: 2 elements of {size} bytes, {} bytes in all\n\
             imported f.tap into t.img: 2 elements (0 data blocks, 2 filemarks, 0 unreadable)\n",
                34 + 2 * size
            ));
        assert_eq!(place.read("t.img")[32..34], [2, 2]);
    }
}

#[test]
fn options_of_an_image_that_is_made() {
    let place = reel(&three_items(512));
    let line =
        "import f.tap t.img --blocks 20 --block-size 512 --early-warning 5 --protect --medium 0x81";
    place.run(&line.split(' ').collect::<Vec<_>>()).is_good(
        "made t.img: 20 elements of 512 bytes, 10292 bytes in all, write protected\n\
         imported f.tap into t.img: 3 elements (1 data block, 1 filemark, 1 unreadable)\n",
    );
    let image = place.read("t.img");
    let header = [
        0, 32, 2, 0, 0, 0, 0, 20, 0, 0, 0, 3, 0, 0, 0, 32, 0, 0, 0, 52, 1, 0x81, 0, 5,
    ];
    assert_eq!(image[..24], header);
    assert_eq!(image[32..36], [1, 2, 0, 0]);
    place.run(&["import", "f.tap", "u.img", "--blocks", "32"]);
    assert_eq!(
        place.read("u.img")[20..24],
        [0, 0, 0, 2],
        "a sixteenth warns"
    );
}

/// The capacity that the file gives is the range of the early warning.
#[test]
fn options_out_of_range() {
    let place = reel(&three_items(512));
    for (words, sentence) in [
        (
            ["--blocks", "0"],
            "--blocks takes a number from 1 to 65535, not 0",
        ),
        (
            ["--block-size", "80"],
            "--block-size is 512 or 1024, not 80",
        ),
        (
            ["--medium", "256"],
            "--medium takes a number from 0 to 255, not 256",
        ),
        (
            ["--early-warning", "4"],
            "--early-warning takes a number from 0 to 3, not 4",
        ),
    ] {
        place
            .run(&["import", "f.tap", "t.img", words[0], words[1]])
            .is_bad(2, &format!("{sentence}; see tapecard import --help"));
    }
    assert_eq!(place.names(), ["f.tap"]);
}

/// The drive finds its elements: a block, a filemark, an unreadable block, the end of data.
#[test]
fn the_drive_reads_what_was_imported() {
    let place = reel(&three_items(512));
    assert_eq!(place.run(&["import", "f.tap", "t.img"]).status, 0);
    let words = ["packet", "t.img", "--any-answer", "--out", "back"];
    place
        .run_with(&words, READ.repeat(4).as_bytes())
        .has_lines(&[
            "  blocks    1",
            "  sense     NO SENSE: filemark detected (0/00/01), residue 1, filemark",
            "  sense     MEDIUM ERROR: unreadable block (3/11/00), residue 1",
            "  sense     BLANK CHECK: end of data (8/00/05), residue 1",
        ]);
    assert_eq!(place.read("back"), [1; 512]);
}

/// A record at place 2, not loaded, speed 500, locked, with a sense key that no packet takes: speed and lock stay, all else is as
/// after a change.
#[test]
fn the_record_is_as_after_a_cartridge_change() {
    let place = reel(&three_items(512));
    let record = [0, 0, 0, 2, 2, 0, 1, 0xF4, 0x68, 3, 0x11, 0, 0, 0, 0, 1];
    place.write("r", record);
    let words = ["import", "f.tap", "t.img", "--record", "r"];
    assert_eq!(place.run(&words).status, 0);
    let changed = [0, 0, 0, 0, 3, 1, 1, 0xF4, 0, 0, 0, 0, 0, 0, 0, 0];
    assert_eq!(place.read("r"), changed);
    let said = place.run_with(
        &["packet", "t.img", "--record", "r"],
        READ.repeat(2).as_bytes(),
    );
    assert_eq!(said.status, 3);
    said.has_lines(&[
        "  sense     UNIT ATTENTION: cartridge changed (6/28/00)",
        "  blocks    1",
        "  position  1",
    ]);
}

#[test]
fn a_record_that_is_not_there_is_begun() {
    let place = reel(&three_items(512));
    let words = ["import", "f.tap", "t.img", "--record", "r"];
    assert_eq!(place.run(&words).status, 0);
    assert_eq!(
        place.read("r"),
        [0, 0, 0, 0, 1, 1, 0, 250, 0, 0, 0, 0, 0, 0, 0, 0]
    );
    assert_eq!(place.names(), ["f.tap", "r", "t.img"]);
}

#[test]
fn a_record_that_cannot_be_kept_stops_the_import() {
    let place = reel(&three_items(512));
    place.write("r", [0; 16]);
    fs::set_permissions(place.path("r"), Permissions::from_mode(0o444)).unwrap();
    place.run(&["import", "f.tap", "t.img", "--record", "r"]).is_bad(
        1,
        "r could not be written: its mode 0444 lets nobody write it (chmod u+w would); nothing was changed",
    );
    place.write("short", [0; 15]);
    place.run(&["import", "f.tap", "t.img", "--record", "short"]).is_bad(
        1,
        "short has 15 bytes and a record of the stream device has 16; name another file, or remove it to start afresh",
    );
    assert_eq!(place.names(), ["f.tap", "r", "short"]);
}

/// A cartridge of 300 elements by the dice.
fn by_the_dice(place: &Place, size: usize) -> Vec<u8> {
    let words = format!("new t.img --full --blocks 300 --block-size {size}");
    place.run(&words.split(' ').collect::<Vec<_>>());
    let mut dice = Dice(size as u64);
    let mut image = place.read("t.img");
    for kind in &mut image[32..332] {
        *kind = [1, 1, 2, 4, 0, 3, 255][dice.throw(7) as usize];
    }
    let bytes = dice.bytes(300 * size);
    image[332..].copy_from_slice(&bytes);
    place.write("t.img", &image);
    image
}

/// Marked blocks as plain ones, every unreadable kind as 0, and zeros in the block of a filemark, which a fresh image has there.
fn as_it_comes_back(mut image: Vec<u8>, size: usize) -> Vec<u8> {
    let (head, blocks) = image.split_at_mut(332);
    for (kind, block) in head[32..].iter_mut().zip(blocks.chunks_exact_mut(size)) {
        match *kind {
            1 | 4 => *kind = 1,
            2 => block.fill(0),
            _ => *kind = 0,
        }
    }
    image
}

#[test]
fn export_and_import_return_the_elements() {
    for size in [512, 1024] {
        let place = Place::new();
        let image = by_the_dice(&place, size);
        assert_eq!(place.run(&["export", "t.img", "t.tap"]).status, 0);
        let said = place.run(&["import", "t.tap", "back.img", "--early-warning", "0"]);
        assert_eq!((said.status, said.err.as_str()), (0, ""));
        assert!(place.read("back.img") == as_it_comes_back(image, size));
        assert_eq!(place.run(&["export", "back.img", "back.tap"]).status, 0);
        assert!(place.read("back.tap") == place.read("t.tap"));
    }
}

/// As many elements as a cartridge can have are made, with no option.
#[test]
fn the_longest_file() {
    let place = Place::new();
    place.write("f.tap", MARK.repeat(65_535));
    place.run(&["import", "f.tap", "t.img", "--block-size", "512"]).is_good(
        "made t.img: 65535 elements of 512 bytes, 33619487 bytes in all\n\
         imported f.tap into t.img: 65535 elements (0 data blocks, 65535 filemarks, 0 unreadable)\n",
    );
}

#[test]
fn a_file_that_cannot_be_read() {
    let place = Place::with_image(8, &[]);
    let before = place.read("t.img");
    fs::create_dir(place.path("sub")).unwrap();
    let long = File::create(place.path("long")).unwrap();
    long.set_len(256 * 1024 * 1024 + 1).unwrap();
    for (name, why) in [
        ("none", "there is no such file or directory"),
        ("sub", "it is a directory"),
        (
            "long",
            "it is longer than 268435456 bytes, more than the largest cartridge holds",
        ),
    ] {
        for image in ["t.img", "made.img"] {
            place.run(&["import", name, image]).is_bad(
                1,
                &format!("{name} could not be read: {why}; nothing was changed"),
            );
        }
    }
    assert_eq!(place.read("t.img"), before);
    assert_eq!(place.names(), ["long", "sub", "t.img"]);
}

/// Standard input by its name, as a pipe has it.
#[test]
fn a_file_from_a_pipe() {
    let place = reel(&three_items(512));
    let said = place.shell("cat f.tap | $TAPECARD import /dev/stdin t.img");
    assert_eq!((said.status, said.err.as_str()), (0, ""));
    assert_eq!(place.read("t.img")[32..35], [1, 2, 0]);
}

#[test]
fn an_image_that_cannot_be_replaced_or_made() {
    let place = reel(&three_items(512));
    place.write("t.img", [0; 31]);
    place.run(&["import", "f.tap", "t.img"]).is_bad(
        1,
        "t.img is no whole cartridge image (refusal 2: image breaks a header rule). The file has 31 bytes: it may have been cut \
         short, or be something else. Take another copy, or make a fresh image with tapecard new",
    );
    fs::create_dir(place.path("sub")).unwrap();
    place
        .run(&["import", "f.tap", "sub"])
        .is_bad(1, "sub is no plain file; name a cartridge image");
    place.run(&["import", "f.tap", "no/t.img"]).is_bad(
        1,
        "no/t.img could not be written: there is no such file or directory; nothing was changed",
    );
    assert_eq!(place.run(&["import", "f.tap", "u.img"]).status, 0);
    let before = place.read("u.img");
    fs::set_permissions(place.path("u.img"), Permissions::from_mode(0o444)).unwrap();
    place.run(&["import", "f.tap", "u.img"]).is_bad(
        1,
        "u.img could not be written: its mode 0444 lets nobody write it (chmod u+w would); nothing was changed",
    );
    assert_eq!(place.read("u.img"), before);
    assert_eq!(place.names(), ["f.tap", "sub", "t.img", "u.img"]);
}

/// Owner, group and mode stay, and the file is a new one: it is replaced at once, never written in part.
#[test]
fn an_image_is_replaced_whole() {
    let place = Place::with_image(8, &[]);
    place.write("f.tap", three_items(512).concat());
    let held = File::open(place.path("t.img")).unwrap();
    fs::set_permissions(place.path("t.img"), Permissions::from_mode(0o640)).unwrap();
    let before = place.read("t.img");
    assert_eq!(place.run(&["import", "f.tap", "t.img"]).status, 0);
    let old = std::io::read_to_string(held).expect("zeros and small numbers");
    assert_eq!(old.as_bytes(), before);
    let mode = fs::metadata(place.path("t.img"))
        .unwrap()
        .permissions()
        .mode();
    assert_eq!(mode & 0o7777, 0o640);
    assert_ne!(place.read("t.img"), before);
}

/// As on a disk that fills up: image and record stay.
#[test]
fn an_image_that_outgrows_its_limit_leaves_all_as_it_was() {
    let place = Place::with_image(8, &[]);
    place.write("f.tap", three_items(512).concat());
    place.write("r", [0; 16]);
    let before = place.read("t.img");
    // An emulator would be ended by the signal itself.
    let emulated = std::env::var("TAPECARD_RUN").is_ok_and(|word| !word.is_empty());
    let ignored = if emulated { "trap '' XFSZ;" } else { "" };
    let import = "ulimit -f 4; exec $TAPECARD import f.tap";
    for image in ["t.img", "made.img --blocks 8"] {
        let name = image.split(' ').next().unwrap();
        place
            .shell(&format!("{ignored} {import} {image} --record r"))
            .is_bad(
                1,
                &format!(
                    "{name} could not be written: File too large (os error 27); nothing was changed"
                ),
            );
    }
    assert_eq!(place.read("t.img"), before);
    assert_eq!(place.read("r"), [0; 16]);
    assert_eq!(place.names(), ["f.tap", "r", "t.img"]);
}

#[test]
fn an_image_in_use_is_waited_for() {
    let place = Place::with_image(8, &[]);
    place.write("f.tap", three_items(512).concat());
    let mut session = place.start(&["packet", "t.img"]);
    session.send(b"00 00 00 00 00 00 00 00 00 00 00 00\n");
    session.hear("sense     NO SENSE");
    let mut import = place.start(&["import", "f.tap", "t.img"]);
    import.hear_error(
        "tapecard: t.img is in use by another run of tapecard; waiting up to 5 seconds for it\n",
    );
    session.send(b"10 00 00 00 02 00 00 00 00 00 00 00\n");
    assert_eq!(session.end().status, 0);
    import.end().is_good(
        "imported f.tap into t.img: 3 elements (1 data block, 1 filemark, 1 unreadable), in place of 2\n",
    );
}
