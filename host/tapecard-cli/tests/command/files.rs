//! `put`, `get` and `list`: files on a tape and back.

use crate::common::{Dice, Place};

#[test]
fn files_come_back_byte_for_byte() {
    let lengths = [0, 1, 511, 512, 513, 1024, 40_000, 70_000];
    for size in ["512", "1024"] {
        let place = Place::new();
        place.run(&["new", "t.img", "--block-size", size, "--blocks", "400"]);
        let mut dice = Dice(1);
        let mut words = vec!["put".to_string(), "t.img".into()];
        for length in lengths {
            place.write(&format!("{length}.glyphs"), dice.bytes(length));
            words.push(format!("{length}.glyphs"));
        }
        let words: Vec<&str> = words.iter().map(String::as_str).collect();
        let said = place.run(&words);
        assert_eq!((said.status, said.err.as_str()), (0, ""));
        for (index, length) in lengths.iter().enumerate() {
            let number = (index + 1).to_string();
            place
                .run(&["get", "t.img", &number, "-o", "back", "--force"])
                .is_good(&format!("got back: {}\n", bytes(*length)));
            assert_eq!(place.read("back"), place.read(&format!("{length}.glyphs")));
        }
    }
}

fn bytes(length: usize) -> String {
    format!("{length} byte{}", if length == 1 { "" } else { "s" })
}

#[test]
fn put_and_list_tell_where_files_are() {
    let place = Place::with_image(40, &[]);
    place
        .run(&["list", "t.img"])
        .is_good("t.img holds no files\n");
    place.write("thai.glyphs", [1; 3000]);
    place.write("ogham", [2; 512]);
    place
        .run(&["put", "t.img", "thai.glyphs"])
        .is_good("put thai.glyphs as file 1: 3000 bytes in 7 blocks at place 0\n");
    place
        .run(&["put", "t.img", "ogham"])
        .is_good("put ogham as file 2: 512 bytes in 2 blocks at place 8\n");
    place.run(&["list", "t.img"]).is_good(
        "\
number  name             bytes  blocks  position
     1  thai.glyphs       3000       7         0
     2  ogham              512       2         8
",
    );
    assert_eq!(place.names(), ["ogham", "t.img", "thai.glyphs"]);
}

#[test]
fn get_writes_under_the_files_own_name_or_to_standard_output() {
    let place = Place::with_image(40, &[]);
    place.write("runes", "ᚠᚢᚦ");
    place.run(&["put", "t.img", "runes"]);
    place.run(&["get", "t.img", "1"]).is_bad(
        1,
        "runes is there already and stays as it is; choose another name, or replace it with --force",
    );
    place.write("runes", "other");
    place
        .run(&["get", "t.img", "1", "--force"])
        .is_good("got runes: 9 bytes\n");
    assert_eq!(place.read("runes"), "ᚠᚢᚦ".as_bytes());
    let said = place.run(&["get", "t.img", "1", "-o", "-"]);
    assert_eq!((said.status, said.out.as_str()), (0, "ᚠᚢᚦ"));
    assert_eq!(said.err, "got file 1 on standard output: 9 bytes\n");
}

#[test]
fn a_full_tape_keeps_nothing_half_written() {
    let place = Place::with_image(8, &["--early-warning", "0"]);
    place.write("small", [1; 600]);
    place.write("large", [2; 2000]);
    place.run(&["put", "t.img", "small"]);
    let before = place.read("t.img");
    for words in [
        &["put", "t.img", "large"][..],
        &["put", "t.img", "small", "large"],
    ] {
        let room = 8 - 4 * (words.len() - 2);
        place.run(words).is_bad(
            1,
            &format!(
                "t.img is full: large needs 6 elements and there is room for {room}; nothing was written. Put less, or \
                 use a larger cartridge (tapecard new --blocks N)"
            ),
        );
        assert_eq!(place.read("t.img"), before);
    }
    assert_eq!(place.names(), ["large", "small", "t.img"]);
    place
        .run(&["put", "t.img", "small"])
        .is_good("put small as file 2: 600 bytes in 3 blocks at place 4\n");
}

#[test]
fn past_the_early_warning_files_are_put_with_a_word() {
    let place = Place::with_image(8, &["--early-warning", "5"]);
    place.write("f", [1; 600]);
    let said = place.run(&["put", "t.img", "f"]);
    assert_eq!(said.status, 0);
    assert_eq!(
        said.out,
        "put f as file 1: 600 bytes in 3 blocks at place 0\n"
    );
    assert_eq!(
        said.err,
        "tapecard: t.img is past its early warning: little room is left\n"
    );
}

/// The end of data shows EOM on such a tape (02, A3): the commands go on as on any other.
#[test]
fn files_past_the_early_warning_are_listed_got_and_shown() {
    let place = Place::with_image(16, &["--early-warning", "13"]);
    place.write("f", [1; 600]);
    place.write("g", [2; 600]);
    assert_eq!(place.run(&["put", "t.img", "f", "g"]).status, 0);
    // A WRITE behind file 2: file 3 has no filemark, so that it ends with the data.
    let open_end = b"11 03 00 00 00 00 00 00 00 00 00 00\n0a01 00 00 01 00 00 00 00 00 00 00\n";
    place.run_with(&["packet", "t.img", "--data", "g"], open_end);
    place.run(&["list", "t.img"]).is_good(
        "\
number  name      bytes  blocks  position
     1  f           600       3         0
     2  g           600       3         4
     3  -             -       1         8  no filemark
",
    );
    for (number, length) in [("2", 600), ("3", 512)] {
        let said = place.run(&["get", "t.img", number, "-o", "back", "--force"]);
        let got = format!("got back: {length} bytes\n");
        assert_eq!((said.status, said.out), (0, got), "{}", said.err);
        assert_eq!(place.read("back"), place.read("g")[..length]);
    }
    place.run(&["info", "t.img"]).has_lines(&[
        "  early warning  in the last 13 elements, from place 3",
        "  recorded       9 elements, 7 blank",
        "  of these       7 data blocks, 2 filemarks, 0 unreadable",
        "  [###|###|#.......]",
    ]);
    place.run(&["put", "t.img", "f"]).has_lines(&[
        "closed file 3, which had no filemark",
        "put f as file 4: 600 bytes in 3 blocks at place 10",
    ]);
}

#[test]
fn a_protected_cartridge_is_not_written() {
    let place = Place::with_image(8, &["--protect"]);
    place.write("f", "x");
    let before = place.read("t.img");
    place.run(&["put", "t.img", "f"]).is_bad(
        1,
        "t.img is write protected; nothing was written. Use a cartridge without protection",
    );
    assert_eq!(place.read("t.img"), before);
}

#[test]
fn files_that_cannot_be_put() {
    let place = Place::with_image(8, &[]);
    let before = place.read("t.img");
    place.run(&["put", "t.img", "none"]).is_bad(
        1,
        "none could not be read: there is no such file or directory; nothing was written",
    );
    std::fs::create_dir(place.path("sub")).unwrap();
    for (name, sentence) in [
        ("sub", "sub could not be read: it is a directory"),
        ("sub/..", "sub/.. has no file name of 1 to 255 bytes"),
    ] {
        place
            .run(&["put", "t.img", name])
            .is_bad(1, &format!("{sentence}; nothing was written"));
    }
    assert_eq!(place.read("t.img"), before);
}

#[test]
fn numbers_that_name_no_file() {
    let place = Place::with_image(8, &[]);
    place.write("f", "x");
    place.run(&["put", "t.img", "f"]);
    place.run(&["get", "t.img", "2"]).is_bad(
        1,
        "there is no file 2: t.img holds 1 file; tapecard list shows them",
    );
    for word in ["0", "one", "4294967296", "1.5"] {
        place.run(&["get", "t.img", word]).is_bad(
            2,
            &format!(
                "{word} is no file number: files are numbered from 1; see tapecard get --help"
            ),
        );
    }
}

#[test]
fn an_unreadable_block_is_named_and_nothing_is_written() {
    let place = Place::with_image(8, &[]);
    place.write("f", [5; 1500]);
    place.run(&["put", "t.img", "f"]);
    let mut image = place.read("t.img");
    image[32 + 2] = 77;
    place.write("t.img", image);
    place.run(&["get", "t.img", "1", "-o", "back"]).is_bad(
        1,
        "file 1: the block at place 2 is unreadable, so the file was not written. Take another copy of the image, or what is \
         left of it with --salvage",
    );
    assert_eq!(place.names(), ["f", "t.img"]);
}

/// A tape written by hand: a file without label, one that was cut short, one without filemark.
#[test]
fn files_that_put_did_not_write() {
    let place = Place::with_image(16, &[]);
    place.write("raw", [b'r'; 1024]);
    let script = b"0a01 00 00 02 00 00 00 00 00 00 00\n10 00 00 00 01 00 00 00 00 00 00 00\n";
    place.run_with(&["packet", "t.img", "--data", "raw"], script);
    place.write("f", [5; 1500]);
    place.run(&["put", "t.img", "f"]);
    // A WRITE at place 5 ends the data there: file 2 loses its last blocks and its filemark.
    let cut = b"2b 00 00 00 00 00 05 00 00 00 00 00\n0a01 00 00 01 00 00 00 00 00 00 00\n";
    place.run_with(&["packet", "t.img", "--data", "raw"], cut);
    place.run(&["list", "t.img"]).is_good(
        "\
number  name      bytes  blocks  position
     1  -             -       2         0  no label
     2  f          1500       3         3  cut short
",
    );
    place.run(&["get", "t.img", "1"]).is_bad(
        1,
        "file 1 has no name to write it under; say where with -o FILE",
    );
    let said = place.run(&["get", "t.img", "1", "-o", "back"]);
    assert_eq!(
        (said.status, said.out.as_str()),
        (0, "got back: 1024 bytes\n")
    );
    assert_eq!(place.read("back"), [b'r'; 1024]);
    place.run(&["get", "t.img", "2"]).is_bad(
        1,
        "file 2: its label tells of 3 blocks and there are 2: it was cut short, so the file was not written. Take another \
         copy of the image, or what is left of it with --salvage",
    );
    place.run(&["put", "t.img", "f"]).is_good(
        "closed file 2, which had no filemark\nput f as file 3: 1500 bytes in 4 blocks at place 7\n",
    );
}

/// A label may come from anywhere: its name leads out of no directory and steers no terminal.
#[test]
fn a_label_with_an_evil_name() {
    let place = Place::with_image(8, &[]);
    let mut label = b"TAPEFILE\0\0\0\0\0\0\0\0\0\x0A../ev\x1b[2Jl".to_vec();
    label[17] = 10;
    label.resize(512, 0);
    place.write("label", &label);
    let script = b"0a01 00 00 01 00 00 00 00 00 00 00\n10 00 00 00 01 00 00 00 00 00 00 00\n";
    place.run_with(&["packet", "t.img", "--data", "label"], script);
    let said = place.run(&["list", "t.img"]);
    assert!(said.out.contains("../ev\\u{1b}[2J"), "{}", said.out);
    place.run(&["get", "t.img", "1"]).is_bad(
        1,
        "file 1 has no name to write it under; say where with -o FILE",
    );
}

/// A link to an image stays a link, and the image behind it is replaced.
#[test]
fn an_image_behind_a_link() {
    let place = Place::with_image(8, &[]);
    std::os::unix::fs::symlink("t.img", place.path("link")).unwrap();
    place.write("f", "x");
    assert_eq!(place.run(&["put", "link", "f"]).status, 0);
    assert!(place.path("link").is_symlink());
    assert!(place.run(&["list", "t.img"]).out.contains(" f "));
}
