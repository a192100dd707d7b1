//! `labels`: where each file lies, for a label printer (02, A4), and that `list` tells the same places.

use crate::common::Place;

/// A cartridge `t.img` of 512-byte blocks whose table of kinds is this, so many elements of it recorded.
fn tape(kinds: &[u8], recorded: u32) -> Place {
    let place = Place::with_image(kinds.len() as u32, &["--early-warning", "0"]);
    let mut image = place.read("t.img");
    image[8..12].copy_from_slice(&recorded.to_be_bytes());
    image[32..][..kinds.len()].copy_from_slice(kinds);
    place.write("t.img", image);
    place
}

/// A tape that is recorded to its end.
fn full_tape(kinds: &[u8]) -> Place {
    tape(kinds, kinds.len() as u32)
}

/// `labels` tells these places, numbers and lengths in columns of 5, 6 and 6 characters, two spaces between, and as values.
#[track_caller]
fn tells(place: &Place, files: &[[usize; 3]]) {
    let mut columns = String::from("place  number  length\n");
    let mut values = String::from("place,number,length\r\n");
    for [at, number, length] in files {
        columns.push_str(&format!("{at:5}{number:8}{length:8}\n"));
        values.push_str(&format!("{at},{number},{length}\r\n"));
    }
    place.run(&["labels", "t.img"]).is_good(&columns);
    place.run(&["labels", "t.img", "--csv"]).is_good(&values);
}

#[track_caller]
fn holds_no_files(place: &Place) {
    place
        .run(&["labels", "t.img"])
        .is_good("t.img holds no files\n");
    place
        .run(&["labels", "t.img", "--csv"])
        .is_good("place,number,length\r\n");
}

#[test]
fn a_tape_with_nothing_on_it() {
    holds_no_files(&Place::with_image(8, &[]));
}

/// A label and six blocks, a label and one block, a label alone: each with its filemark behind it.
#[test]
fn files_that_put_wrote() {
    let place = Place::with_image(40, &[]);
    place.write("thai.glyphs", [1; 3000]);
    place.write("ogham", [2; 512]);
    place.write("runes", "");
    place.run(&["put", "t.img", "thai.glyphs"]);
    place.run(&["labels", "t.img"]).is_good(
        "\
place  number  length
    0       1       7
",
    );
    place.run(&["put", "t.img", "ogham", "runes", "ogham"]);
    let before = place.read("t.img");
    place.run(&["labels", "t.img"]).is_good(
        "\
place  number  length
    0       1       7
    8       2       2
   11       3       1
   13       4       2
",
    );
    place
        .run(&["labels", "--csv", "t.img"])
        .is_good("place,number,length\r\n0,1,7\r\n8,2,2\r\n11,3,1\r\n13,4,2\r\n");
    assert_eq!(place.read("t.img"), before);
    assert_eq!(place.names(), ["ogham", "runes", "t.img", "thai.glyphs"]);
}

/// Without a label in it a file is told as any other.
#[test]
fn files_in_plain_blocks() {
    let place = Place::with_image(40, &[]);
    place.write("f", [1; 1500]);
    place.run(&["put", "t.img", "f", "f", "--raw"]);
    tells(&place, &[[0, 1, 3], [4, 2, 3]]);
}

#[test]
fn empty_files() {
    let place = tape(&[2, 2, 1, 2, 2, 1, 1, 2, 0, 0], 8);
    tells(
        &place,
        &[[0, 1, 0], [1, 2, 0], [2, 3, 1], [4, 4, 0], [5, 5, 2]],
    );
    place.run(&["list", "t.img"]).is_good(
        "\
number  name      bytes  blocks  position
     1  -             -       0         0  no label
     2  -             -       0         1  no label
     3  -             -       1         2  no label
     4  -             -       0         4  no label
     5  -             -       2         5  no label
",
    );
}

#[test]
fn a_last_file_without_a_filemark() {
    tells(&tape(&[1, 1, 1, 0], 3), &[[0, 1, 3]]);
    let place = tape(&[1, 2, 1, 1, 0, 0], 4);
    tells(&place, &[[0, 1, 1], [2, 2, 2]]);
    place.run(&["list", "t.img"]).is_good(
        "\
number  name      bytes  blocks  position
     1  -             -       1         0  no label
     2  -             -       2         2  no filemark
",
    );
}

#[test]
fn a_tape_that_is_full() {
    tells(&full_tape(&[1, 1, 2, 1]), &[[0, 1, 2], [3, 2, 1]]);
    tells(&full_tape(&[1, 1, 1, 2]), &[[0, 1, 3]]);
    tells(&full_tape(&[1]), &[[0, 1, 1]]);
    tells(&full_tape(&[2]), &[[0, 1, 0]]);
}

#[test]
fn a_tape_full_of_filemarks() {
    let place = full_tape(&[2; 5]);
    tells(
        &place,
        &[[0, 1, 0], [1, 2, 0], [2, 3, 0], [3, 4, 0], [4, 5, 0]],
    );
    let last = "     5  -             -       0         4  no label";
    place.run(&["list", "t.img"]).has_lines(&[last]);
    let longest = full_tape(&[2; 65_535]);
    let said = longest.run(&["labels", "t.img"]);
    assert_eq!(said.out.lines().count(), 65_536);
    said.has_lines(&["  256     257       0", "65534   65535       0"]);
    let said = longest.run(&["labels", "t.img", "--csv"]);
    assert!(said.out.ends_with("65533,65534,0\r\n65534,65535,0\r\n"));
}

/// Kinds at U and above mean nothing, a filemark's too.
#[test]
fn filemarks_behind_the_end_of_data_are_none() {
    let kinds = [1, 2, 1, 2, 2, 2];
    tells(&tape(&kinds, 3), &[[0, 1, 1], [2, 2, 1]]);
    tells(&tape(&kinds, 2), &[[0, 1, 1]]);
    tells(&tape(&kinds, 1), &[[0, 1, 1]]);
    holds_no_files(&tape(&kinds, 0));
}

/// They are elements as any others; kind 3 and 255 are unreadable blocks, not filemarks.
#[test]
fn marked_and_unreadable_blocks_count() {
    let place = full_tape(&[4, 1, 0, 2, 9, 2, 3, 4, 255, 2]);
    tells(&place, &[[0, 1, 3], [4, 2, 1], [6, 3, 3]]);
    place.run(&["list", "t.img"]).is_good(
        "\
number  name      bytes  blocks  position
     1  -             -       3         0  no label; 1 marked block
     2  -             -       1         4  no label
     3  -             -       3         6  no label; 1 marked block
",
    );
}

/// A protected cartridge of 1,024-byte blocks that warns all along: kinds at byte 40, blocks at byte 50, and seven bytes behind them.
#[test]
fn an_image_with_another_layout() {
    let mut image = vec![0; 50 + 6 * 1024 + 7];
    image[..24].copy_from_slice(&[
        0, 32, 4, 0, 0, 0, 0, 6, 0, 0, 0, 5, 0, 0, 0, 40, 0, 0, 0, 50, 1, 0x81, 0, 6,
    ]);
    image[32..40].fill(2);
    image[40..46].copy_from_slice(&[1, 1, 2, 2, 1, 2]);
    let place = Place::new();
    place.write("t.img", image);
    tells(&place, &[[0, 1, 2], [3, 2, 0], [4, 3, 1]]);
}

/// Files of 0, 1 and 2 blocks in turn, 8,001 of them: three of them take six elements.
fn long_tape() -> Place {
    full_tape(&[2, 1, 2, 1, 1, 2].repeat(2667))
}

#[test]
fn several_thousand_files() {
    let place = long_tape();
    let file = |n: usize| [6 * (n / 3) + [0, 1, 3][n % 3], n + 1, n % 3];
    assert_eq!(file(8000), [15_999, 8001, 2]);
    let files: Vec<[usize; 3]> = (0..8001).map(file).collect();
    tells(&place, &files);
    let list = place.run(&["list", "t.img"]);
    assert_eq!(list.out.lines().count(), 8002);
    list.has_lines(&[
        "     1  -             -       0         0  no label",
        "  2500  -             -       0      4998  no label",
        "  8001  -             -       2     15999  no label",
    ]);
    place.run(&["get", "t.img", "8002"]).is_bad(
        1,
        "there is no file 8002: t.img holds 8001 files; tapecard list shows them",
    );
}

/// What `get` takes under a number are the blocks from the place on, so many as the length says.
#[test]
fn the_numbers_are_those_of_get() {
    let place = tape(&[1, 1, 2, 2, 1, 4, 1, 2, 1, 0], 9);
    let mut image = place.read("t.img");
    let blocks_at = 32 + 10;
    for (element, block) in image[blocks_at..].chunks_exact_mut(512).enumerate() {
        block.fill(element as u8);
    }
    place.write("t.img", &image);
    let files = [[0, 1, 2], [3, 2, 0], [4, 3, 3], [8, 4, 1]];
    tells(&place, &files);
    for [at, number, length] in files {
        let number = number.to_string();
        let said = place.run(&["get", "t.img", &number, "--raw", "-o", "-"]);
        assert_eq!(said.status, 0, "{}", said.err);
        assert_eq!(said.bytes, image[blocks_at + at * 512..][..length * 512]);
    }
}

/// The list is longer than what a pipe holds, so the command is at work when its reader goes away.
#[test]
fn a_reader_that_has_seen_enough_is_no_failure() {
    let place = long_tape();
    for (words, first) in [
        (&["labels", "t.img"][..], "place  number  length\n"),
        (&["labels", "t.img", "--csv"], "place,number,length\r\n"),
    ] {
        let mut labels = place.start(words);
        labels.hear(first);
        labels.close_output();
        let said = labels.end();
        assert_eq!((said.status, said.err.as_str()), (0, ""));
    }
}
