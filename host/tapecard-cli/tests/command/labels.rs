//! The label of a file and its checksum, plain blocks without one, and what is left of a damaged file.

use crate::common::Place;

const BLOCKS_AT: usize = 32 + 16;
const NOT_WRITTEN: &str = "so the file was not written. Take another copy of the image, or what is left of it with --salvage";
const WRITTEN: &str = "What could be read was written, with zeros for the blocks that could not";

/// A cartridge of 16 blocks with one file `f` of 1,500 bytes in blocks 1 to 3.
fn place() -> Place {
    let place = Place::with_image(16, &["--early-warning", "0"]);
    let bytes: Vec<u8> = (0..1500).map(|n| (n / 6) as u8).collect();
    place.write("f", bytes);
    assert_eq!(place.run(&["put", "t.img", "f"]).status, 0);
    place
}

/// Changes a byte of the image.
fn patch(place: &Place, at: usize, byte: u8) {
    let mut image = place.read("t.img");
    image[at] = byte;
    place.write("t.img", image);
}

/// Without `--salvage` nothing is written; with it these bytes are, and both say why.
#[track_caller]
fn is_salvaged(place: &Place, why: &str, expected: &[u8]) {
    place
        .run(&["get", "t.img", "1", "-o", "back"])
        .is_bad(1, &format!("file 1: {why}, {NOT_WRITTEN}"));
    assert!(!place.path("back").exists());
    let said = place.run(&["get", "t.img", "1", "-o", "back", "--salvage"]);
    let got = format!("got back: {} bytes\n", expected.len());
    assert_eq!((said.status, said.out), (1, got));
    assert_eq!(
        said.err,
        format!("tapecard: file 1 is damaged: {why}. {WRITTEN}\n")
    );
    assert_eq!(place.read("back"), expected);
}

#[test]
fn the_label_has_its_layout() {
    let place = Place::with_image(8, &[]);
    place.write("digits", "123456789");
    place.run(&["put", "t.img", "digits"]);
    let block = &place.read("t.img")[32 + 8..][..512];
    assert_eq!(
        block[..28],
        *b"TAPEFIL2\0\0\0\0\0\0\0\x09\0\x06\xCB\xF4\x39\x26digits"
    );
    assert!(block[28..].iter().all(|b| *b == 0));
}

#[test]
fn a_byte_that_changed_is_found() {
    let place = place();
    patch(&place, BLOCKS_AT + 2 * 512 + 7, 0xFF);
    let said = place.run(&["get", "t.img", "1", "-o", "back"]);
    assert_eq!((said.status, said.out.as_str()), (1, ""));
    let start = "tapecard: file 1: its bytes are not those that were put: their checksum is ";
    assert!(said.err.starts_with(start), "{}", said.err);
    assert!(
        said.err.ends_with(&format!("{NOT_WRITTEN}\n")),
        "{}",
        said.err
    );
    assert_eq!(place.names(), ["f", "t.img"]);
    let said = place.run(&["get", "t.img", "1", "-o", "back", "--salvage"]);
    assert_eq!(
        (said.status, said.out.as_str()),
        (1, "got back: 1500 bytes\n")
    );
    let mut expected = place.read("f");
    expected[512 + 7] = 0xFF;
    assert_eq!(place.read("back"), expected);
}

/// A label that was written before labels had a checksum.
#[test]
fn an_old_label_is_read() {
    let place = place();
    let mut image = place.read("t.img");
    let label = &mut image[BLOCKS_AT..][..512];
    label.fill(0);
    label[..19].copy_from_slice(b"TAPEFILE\0\0\0\0\0\0\x05\xDC\0\x01f");
    place.write("t.img", image);
    place
        .run(&["get", "t.img", "1", "-o", "back"])
        .is_good("got back: 1500 bytes\n");
    assert_eq!(place.read("back"), place.read("f"));
}

#[test]
fn plain_blocks_without_a_label() {
    let place = place();
    place.run(&["put", "t.img", "f", "--raw"]).is_good(
        "put f as file 2: 1500 bytes in 3 blocks at place 5, raw, padded with 36 zero bytes\n",
    );
    place
        .run(&["get", "t.img", "2", "--raw", "-o", "raw"])
        .is_good("got raw: 1536 bytes\n");
    let padded = [place.read("f"), vec![0; 36]].concat();
    assert_eq!(place.read("raw"), padded);
    place
        .run(&["get", "t.img", "1", "--raw", "-o", "labelled"])
        .is_good("got labelled: 2048 bytes\n");
    let labelled = place.read("labelled");
    assert!(labelled.starts_with(b"TAPEFIL2") && labelled.ends_with(&padded));
    place.write("two", [1; 1024]);
    place
        .run(&["put", "t.img", "two", "--raw"])
        .is_good("put two as file 3: 1024 bytes in 2 blocks at place 9, raw\n");
}

#[test]
fn what_can_be_read_of_a_damaged_file_is_salvaged() {
    let place = place();
    patch(&place, 32 + 2, 99);
    let mut expected = place.read("f");
    expected[512..1024].fill(0);
    is_salvaged(&place, "the block at place 2 is unreadable", &expected);
}

#[test]
fn plain_blocks_are_salvaged_too() {
    let place = place();
    patch(&place, 32, 99);
    let said = place.run(&["get", "t.img", "1", "--raw", "--salvage", "-o", "back"]);
    assert_eq!(
        (said.status, said.out.as_str()),
        (1, "got back: 2048 bytes\n")
    );
    let start = "tapecard: file 1 is damaged: the block at place 0 is unreadable. ";
    assert!(said.err.starts_with(start), "{}", said.err);
    let expected = [vec![0; 512], place.read("f"), vec![0; 36]].concat();
    assert_eq!(place.read("back"), expected);
}

#[test]
fn a_whole_file_is_salvaged_with_status_0() {
    place()
        .run(&["get", "t.img", "1", "-o", "back", "--salvage"])
        .is_good("got back: 1500 bytes\n");
}

#[test]
fn a_file_that_was_cut_short_is_salvaged() {
    let place = place();
    patch(&place, 11, 3);
    let why = "its label tells of 3 blocks and there are 2: it was cut short";
    is_salvaged(&place, why, &place.read("f")[..1024]);
}

/// The filemark behind the file was overwritten: more blocks than the label tells of.
#[test]
fn a_file_that_is_longer_than_its_label_says() {
    let place = place();
    assert_eq!(place.run(&["put", "t.img", "f", "--raw"]).status, 0);
    patch(&place, 32 + 4, 1);
    place.run(&["list", "t.img"]).is_good(
        "\
number  name      bytes  blocks  position
     1  f          1500       8         0  longer than its label says
",
    );
    let why =
        "its label tells of 3 blocks and there are 7: more was written behind it (--raw takes all)";
    is_salvaged(&place, why, &place.read("f"));
}
