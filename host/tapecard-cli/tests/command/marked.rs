//! Marked blocks, which come with images of real tapes (02, A6): where each command shows them, and that their bytes are data.

use crate::common::Place;

const BLOCKS_AT: usize = 32 + 16;

/// A cartridge of 16 elements with the files `f` of 1,500 bytes (a label and three blocks) and `g` of 600 (a label and two).
fn place() -> Place {
    let place = Place::with_image(16, &["--early-warning", "0"]);
    let bytes: Vec<u8> = (0..1500).map(|n| (n / 6) as u8).collect();
    place.write("f", bytes);
    place.write("g", [7; 600]);
    assert_eq!(place.run(&["put", "t.img", "f", "g"]).status, 0);
    place
}

/// Gives elements another kind, as an image of a real tape has it.
fn set_kinds(place: &Place, kinds: &[(usize, u8)]) {
    let mut image = place.read("t.img");
    for (element, kind) in kinds {
        image[32 + element] = *kind;
    }
    place.write("t.img", image);
}

#[test]
fn info_counts_them_and_shows_where_they_are() {
    let place = place();
    let before = place.run(&["info", "t.img"]);
    before.has_lines(&["  of these       7 data blocks, 2 filemarks, 0 unreadable"]);
    assert!(!before.out.contains("marked"), "{}", before.out);
    set_kinds(&place, &[(0, 4), (3, 4), (7, 9)]);
    place.run(&["info", "t.img"]).is_good(
        "\
t.img
  block size     512 bytes
  capacity       16 elements
  write protect  no
  medium type    0
  early warning  none
  layout         kinds at byte 32, blocks at byte 48
  recorded       9 elements, 7 blank
  of these       6 data blocks (2 marked), 2 filemarks, 1 unreadable
  devices        stream only: floppy needs every element recorded

  [*##*|##!|.......]
   ^ position 0
            ^ end of data, 9

  # data   | filemark   ! unreadable   . blank
  * marked: data with a deleted address mark
  one cell for each element
",
    );
}

/// Kinds at U and above mean nothing, 4 too.
#[test]
fn behind_the_end_of_data_nothing_is_marked() {
    let place = place();
    set_kinds(&place, &[(9, 4), (15, 4)]);
    let said = place.run(&["info", "t.img"]);
    said.has_lines(&[
        "  of these       7 data blocks, 2 filemarks, 0 unreadable",
        "  [####|###|.......]",
    ]);
    assert!(!said.out.contains("marked"), "{}", said.out);
}

/// One marked block among a thousand is seen, and every line has room on a terminal.
#[test]
fn a_long_tape_shows_the_cell_of_a_marked_block() {
    let place = Place::new();
    let full = ["new", "t.img", "--full", "--blocks", "65535"];
    assert_eq!(place.run(&full).status, 0);
    set_kinds(&place, &[(2000, 4)]);
    let said = place.run(&["info", "t.img"]);
    let strip = format!("  [#*{}]", "#".repeat(62));
    said.has_lines(&[
        "  of these       65535 data blocks (1 marked), 0 filemarks, 0 unreadable",
        "  devices        stream and floppy: every element is recorded",
        &strip,
        "  # data   | filemarks   + data and filemarks   ! some unreadable   . blank",
        "  * some marked: data with a deleted address mark",
        "  one cell for about 1024 elements",
    ]);
    for line in said.out.lines() {
        assert!(line.chars().count() <= 80, "{line}");
    }
}

#[test]
fn list_tells_of_each_file_how_many_blocks_are_marked() {
    let place = place();
    set_kinds(&place, &[(1, 4), (3, 4), (5, 4)]);
    place.run(&["list", "t.img"]).is_good(
        "\
number  name      bytes  blocks  position
     1  f          1500       4         0  2 marked blocks
     2  g           600       3         5  1 marked block
",
    );
}

/// Beside other remarks, and also behind a block that cannot be read.
#[test]
fn list_joins_its_remarks() {
    let place = place();
    set_kinds(&place, &[(2, 9), (3, 4), (4, 1), (6, 4), (8, 1)]);
    place.run(&["list", "t.img"]).is_good(
        "\
number  name      bytes  blocks  position
     1  f          1500       9         0  longer than its label says; 2 marked blocks
",
    );
}

#[test]
fn get_reads_through_them_and_says_how_many() {
    let place = place();
    set_kinds(&place, &[(1, 4), (3, 4), (6, 4)]);
    place
        .run(&["get", "t.img", "1", "-o", "back"])
        .is_good("got back: 1500 bytes, 2 of its blocks marked\n");
    assert_eq!(place.read("back"), place.read("f"));
    let said = place.run(&["get", "t.img", "2", "-o", "-"]);
    assert_eq!((said.status, &said.bytes), (0, &place.read("g")));
    assert_eq!(
        said.err,
        "got file 2 on standard output: 600 bytes, 1 of its blocks marked\n"
    );
}

/// It is counted as `list` counts it.
#[test]
fn a_label_in_a_marked_block_is_a_label() {
    let place = place();
    set_kinds(&place, &[(0, 4)]);
    place.run(&["list", "t.img"]).has_lines(&[
        "     1  f          1500       4         0  1 marked block",
        "     2  g           600       3         5",
    ]);
    let bytes = place.read("f");
    place.write("f", "");
    place
        .run(&["get", "t.img", "1", "--force"])
        .is_good("got f: 1500 bytes, 1 of its blocks marked\n");
    assert_eq!(place.read("f"), bytes);
    place
        .run(&["get", "t.img", "1", "--raw", "-o", "raw"])
        .is_good("got raw: 2048 bytes, 1 of its blocks marked\n");
    let image = place.read("t.img");
    assert_eq!(place.read("raw"), image[BLOCKS_AT..][..4 * 512]);
}

#[test]
fn salvage_counts_those_that_could_be_read() {
    let place = place();
    set_kinds(&place, &[(1, 4), (2, 9), (3, 4)]);
    let said = place.run(&["get", "t.img", "1", "--salvage", "-o", "back"]);
    assert_eq!(
        (said.status, said.out.as_str()),
        (1, "got back: 1500 bytes, 2 of its blocks marked\n")
    );
    let start = "tapecard: file 1 is damaged: the block at place 2 is unreadable. ";
    assert!(said.err.starts_with(start), "{}", said.err);
    let mut expected = place.read("f");
    expected[512..1024].fill(0);
    assert_eq!(place.read("back"), expected);
}

/// Files are put behind marked blocks as behind any others, and none of theirs is marked.
#[test]
fn put_stores_plain_blocks() {
    let place = place();
    set_kinds(&place, &[(0, 4), (9, 4), (10, 4), (11, 4), (12, 4)]);
    place
        .run(&["put", "t.img", "g"])
        .is_good("put g as file 3: 600 bytes in 3 blocks at place 9\n");
    assert_eq!(place.read("t.img")[32 + 8..][..5], [2, 1, 1, 1, 2]);
    place
        .run(&["get", "t.img", "3", "-o", "back"])
        .is_good("got back: 600 bytes\n");
}

/// 02, A6: "a READ's answer also says how many of the blocks copied were marked." "WRITE still stores kind 1."
#[test]
fn packet_tells_of_marked_blocks_on_both_devices() {
    let script = "\
08 01 00 00 04 00 00 00 00 00 00 00  # READ
2b 00 00 00 00 00 00 00 00 00 00 00  # LOCATE
0a 01 00 00 01 00 00 00 00 00 00 00  # WRITE
08 01 00 00 01 00 00 00 00 00 00 00  # READ
";
    for device in ["stream", "floppy"] {
        let place = Place::with_image(4, &["--full"]);
        set_kinds(&place, &[(0, 4), (1, 4), (3, 4)]);
        place.write("d", [7; 512]);
        let words = ["packet", "t.img", "--device", device, "--data", "d"];
        let said = place.run_with(&words, script.as_bytes());
        let blocks = |line: &&str| line.starts_with("  blocks ");
        let told: Vec<&str> = said.out.lines().filter(blocks).collect();
        let after_write = match device {
            "stream" => "  blocks    0",
            _ => "  blocks    1, 1 marked",
        };
        assert_eq!(
            told,
            [
                "  blocks    4, 3 marked",
                "  blocks    0",
                "  blocks    1",
                after_write
            ],
            "{}",
            said.out
        );
        assert_eq!(place.read("t.img")[32..36], [1, 4, 1, 4]);
    }
}

/// The READ that an unreadable block stops tells of those before it.
#[test]
fn packet_tells_of_marked_blocks_before_a_stop() {
    let place = Place::with_image(4, &["--full"]);
    set_kinds(&place, &[(1, 4), (2, 9), (3, 4)]);
    let packet = "08 01 00 00 04 00 00 00 00 00 00 00";
    let bytes: Vec<&str> = packet.split(' ').collect();
    for (device, sense) in [
        (
            "stream",
            "MEDIUM ERROR: unreadable block (3/11/00), residue 2",
        ),
        (
            "floppy",
            "MEDIUM ERROR: unreadable block (3/11/00), residue 1, the block in error left out",
        ),
    ] {
        let words = ["packet", "t.img", "--device", device];
        let said = place.run(&[&words[..], &bytes].concat());
        assert_eq!((said.status, said.err.as_str()), (3, ""));
        said.has_lines(&["  blocks    2, 1 marked", &format!("  sense     {sense}")]);
    }
}
