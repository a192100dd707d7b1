//! Names of every kind: long ones, wide ones, and ones that would deceive the eye.

use crate::common::Place;

#[test]
fn names_are_told_unmistakably_and_in_columns() {
    let place = Place::with_image(40, &[]);
    let names = [
        "plain",
        "two\nlines",
        "gpj.\u{202e}exe",
        "字体",
        "ที่",
        "end ",
        "back\\slash",
    ];
    for name in names {
        place.write(name, "x");
    }
    let words = [&["put", "t.img"][..], &names].concat();
    assert_eq!(place.run(&words).status, 0);
    place.run(&["list", "t.img"]).is_good(
        "\
number  name                 bytes  blocks  position
     1  plain                    1       2         0
     2  two\\nlines               1       2         3
     3  gpj.\\u{202e}exe          1       2         6
     4  字体                     1       2         9
     5  ที่                        1       2        12
     6  end\\x20                  1       2        15
     7  back\\\\slash              1       2        18
",
    );
}

#[test]
fn a_name_that_is_no_text() {
    use std::ffi::OsStr;
    use std::os::unix::ffi::OsStrExt;
    let place = Place::with_image(40, &[]);
    let path = place
        .path("t.img")
        .with_file_name(OsStr::from_bytes(b"\xffglyphs"));
    std::fs::write(path, "x").unwrap();
    let said = place.shell("$TAPECARD put t.img *glyphs");
    said.is_good("put \\xffglyphs as file 1: 1 byte in 2 blocks at place 0\n");
}

#[test]
fn the_longest_names() {
    let place = Place::new();
    for length in [246, 247, 255] {
        let image = "i".repeat(length);
        let file = "f".repeat(length);
        place.run(&["new", &image, "--blocks", "40"]);
        place.write(&file, "glyphs");
        let said = place.run(&["put", &image, &file]);
        assert_eq!((said.status, said.err.as_str()), (0, ""), "{length}");
        let got = place.run(&["get", &image, "1", "--force"]);
        assert_eq!((got.status, got.err.as_str()), (0, ""), "{length}");
        assert_eq!(place.read(&file), b"glyphs");
    }
    assert_eq!(place.names().len(), 6);
}

/// A label may hold the word for standard output.
#[test]
fn a_file_whose_name_is_a_dash() {
    let place = Place::with_image(8, &[]);
    place.write("-", "glyphs");
    assert_eq!(place.run(&["put", "t.img", "./-"]).status, 0);
    std::fs::remove_file(place.path("-")).unwrap();
    place
        .run(&["get", "t.img", "1"])
        .is_good("got ./-: 6 bytes\n");
    assert_eq!(place.read("-"), b"glyphs");
}
