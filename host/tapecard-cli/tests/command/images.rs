//! `new` and `info`: fresh images, their strip, images that are none.

use crate::common::Place;

#[test]
fn a_fresh_image_has_the_layout_of_the_card() {
    let place = Place::new();
    let said = place.run(&[
        "new",
        "t.img",
        "--blocks",
        "4",
        "--block-size",
        "512",
        "--early-warning",
        "1",
        "--medium",
        "0x81",
        "--protect",
    ]);
    said.is_good("made t.img: 4 elements of 512 bytes, 2084 bytes in all, write protected\n");
    let mut header = vec![
        0, 32, 2, 0, 0, 0, 0, 4, 0, 0, 0, 0, 0, 0, 0, 32, 0, 0, 0, 36, 1, 0x81, 0, 1,
    ];
    header.resize(32, 0);
    let image = place.read("t.img");
    assert_eq!(image[..32], header);
    assert!(image[32..].iter().all(|b| *b == 0));
    assert_eq!(place.names(), ["t.img"]);
}

#[test]
fn an_image_is_not_overwritten_unless_forced() {
    let place = Place::new();
    place.write("t.img", "dear");
    place.run(&["new", "t.img", "--blocks", "2"]).is_bad(
        1,
        "t.img is there already and stays as it is; choose another name, or replace it with --force",
    );
    assert_eq!(place.read("t.img"), b"dear");
    place
        .run(&["new", "--force", "t.img", "--blocks", "2"])
        .is_good("made t.img: 2 elements of 1024 bytes, 2082 bytes in all\n");
}

#[test]
fn numbers_out_of_range() {
    let place = Place::new();
    for (words, sentence) in [
        (
            ["--blocks", "0"],
            "--blocks takes a number from 1 to 65535, not 0",
        ),
        (
            ["--blocks", "65536"],
            "--blocks takes a number from 1 to 65535, not 65536",
        ),
        (
            ["--blocks", "many"],
            "--blocks takes a number from 1 to 65535, not many",
        ),
        (
            ["--block-size", "600"],
            "--block-size is 512 or 1024, not 600",
        ),
        (
            ["--early-warning", "1025"],
            "--early-warning takes a number from 0 to 1024, not 1025",
        ),
        (
            ["--medium", "256"],
            "--medium takes a number from 0 to 255, not 256",
        ),
    ] {
        let said = place.run(&["new", "t.img", words[0], words[1]]);
        said.is_bad(2, &format!("{sentence}; see tapecard new --help"));
    }
    assert!(place.names().is_empty());
}

#[test]
fn a_directory_that_is_not_there() {
    Place::new().run(&["new", "no/t.img"]).is_bad(
        1,
        "no/t.img could not be written: there is no such file or directory; nothing was changed",
    );
}

#[test]
fn the_strip_of_a_short_tape() {
    let place = Place::with_image(12, &["--early-warning", "3"]);
    place.write("a", [7; 1000]);
    place.run(&["put", "t.img", "a"]);
    let mut image = place.read("t.img");
    image[32 + 1] = 9;
    place.write("t.img", image);
    place.run(&["info", "t.img"]).is_good(
        "\
t.img
  block size     512 bytes
  capacity       12 elements
  write protect  no
  medium type    0
  early warning  in the last 3 elements, from place 9
  layout         kinds at byte 32, blocks at byte 44
  recorded       4 elements, 8 blank
  of these       2 data blocks, 1 filemark, 1 unreadable
  devices        stream only: floppy needs every element recorded

  [#!#|........]
   ^ position 0
       ^ end of data, 4
            ^ early warning, 9

  # data   | filemark   ! unreadable   . blank
  one cell for each element
",
    );
}

#[test]
fn the_strip_of_the_longest_tape() {
    let place = Place::with_image(65_535, &["--early-warning", "0"]);
    let said = place.run(&["info", "t.img"]);
    assert_eq!(said.status, 0, "{}", said.err);
    let blank = format!("  [{}]", ".".repeat(64));
    said.has_lines(&[
        "  early warning  none",
        "  recorded       0 elements, 65535 blank",
        "  of these       0 data blocks, 0 filemarks, 0 unreadable",
        &blank,
        "   ^ end of data, 0",
        "  # data   | filemarks   + data and filemarks   ! some unreadable   . blank",
        "  one cell for about 1024 elements",
    ]);
}

#[test]
fn a_truncated_image_is_no_image() {
    let place = Place::with_image(4, &[]);
    let image = place.read("t.img");
    for length in [0, 31, 32, image.len() - 1] {
        place.write("t.img", &image[..length]);
        for words in [
            &["info", "t.img"][..],
            &["list", "t.img"],
            &["labels", "t.img"],
            &["labels", "t.img", "--csv"],
            &["put", "t.img", "t.img"],
            &["get", "t.img", "1"],
        ] {
            place.run(words).is_bad(
                1,
                &format!(
                    "t.img is no whole cartridge image (refusal 2: image breaks a header rule). The file has {length} \
                     bytes: it may have been cut short, or be something else. Take another copy, or make a fresh image \
                     with tapecard new"
                ),
            );
        }
        assert_eq!(place.read("t.img"), &image[..length]);
    }
}

#[test]
fn a_directory_is_no_image() {
    Place::new()
        .run(&["info", "."])
        .is_bad(1, ". is no plain file; name a cartridge image");
}

#[test]
fn a_file_of_one_byte_is_no_image() {
    let place = Place::new();
    place.write("t.img", "x");
    let said = place.run(&["info", "t.img"]);
    assert!(
        said.err.contains("The file has 1 byte: it may"),
        "{}",
        said.err
    );
}

/// A file of a tebibyte, most of it a hole.
fn make_huge(place: &Place, name: &str) {
    let file = std::fs::File::options()
        .create(true)
        .write(true)
        .truncate(false)
        .open(place.path(name));
    file.unwrap().set_len(1 << 40).unwrap();
}

/// Its header says at once that it is no image, so it is not read into memory.
#[test]
fn a_huge_file_is_judged_by_its_header() {
    let place = Place::new();
    make_huge(&place, "huge");
    for words in [
        &["info", "huge"][..],
        &["list", "huge"],
        &["labels", "huge"],
        &["put", "huge", "f"],
    ] {
        let said = place.run(words);
        assert_eq!(said.status, 1);
        let told = "The file has 1099511627776 bytes";
        assert!(said.err.contains(told), "{}", said.err);
    }
    let packet = [&["packet", "huge"][..], &["00"; 12]].concat();
    let said = place.run(&packet);
    said.has_lines(&["  refused   2: image breaks a header rule"]);
}

#[test]
fn what_is_read_is_bounded() {
    let place = Place::with_image(4, &[]);
    place.run(&["new", "tail.img"]);
    make_huge(&place, "tail.img");
    let said = place.run(&["info", "tail.img"]);
    let bound = "no image of more than 268435456 is taken";
    assert!(said.err.contains(bound), "{}", said.err);
    make_huge(&place, "huge");
    let longer = "could not be read: it is longer than 67107840 bytes, more than the largest cartridge holds";
    place
        .run(&["packet", "t.img", "--data", "huge"])
        .is_bad(1, &format!("the data huge {longer}; nothing was sent"));
    place
        .run(&["put", "t.img", "huge"])
        .is_bad(1, &format!("huge {longer}; nothing was written"));
}

/// Ordinary files on the longest tape: their data is seen beside their filemarks.
#[test]
fn a_long_tape_shows_data_and_filemarks() {
    let place = Place::with_image(65_535, &["--early-warning", "60000"]);
    place.write("a", vec![1; 1_000_000]);
    assert_eq!(place.run(&["put", "t.img", "a", "a"]).status, 0);
    let said = place.run(&["info", "t.img"]);
    let strip = format!("  [#+#+{}]", ".".repeat(60));
    said.has_lines(&[&strip]);
    for line in said.out.lines() {
        assert!(line.chars().count() <= 80, "{line}");
    }
}
