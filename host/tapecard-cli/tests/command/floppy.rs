//! The floppy device: `new --full`, `info` and `packet --device floppy`.

use crate::common::{Dice, Place, Said};
use crate::packets::random_script;

const READY: &str = "00 00 00 00 00 00 00 00 00 00 00 00";
const FLOPPY: [&str; 4] = ["packet", "t.img", "--device", "floppy"];
const RECORD: [&str; 6] = ["packet", "t.img", "--device", "floppy", "--record", "r"];
const ELSE: &str = "name another file, or remove it to start afresh";

/// A full cartridge of four blocks, each with its letter: `aaa..`, `bbb..`, `ccc..`, `ddd..`.
fn lettered() -> Place {
    let place = Place::with_image(4, &["--full"]);
    let mut image = place.read("t.img");
    for (letter, block) in (b'a'..).zip(image[36..].chunks_mut(512)) {
        block.fill(letter);
    }
    place.write("t.img", image);
    place
}

/// Sends a line of packets or other words each.
fn script(place: &Place, words: &[&str], lines: &[&str]) -> Said {
    place.run_with(words, lines.join("\n").as_bytes())
}

/// Sends one packet on the command line.
fn one(place: &Place, words: &[&str], packet: &str) -> Said {
    let bytes: Vec<&str> = packet.split(' ').collect();
    place.run(&[words, &bytes].concat())
}

#[test]
fn a_full_image_has_every_element_recorded() {
    let place = Place::new();
    place
        .run(&[
            "new",
            "t.img",
            "--full",
            "--blocks",
            "4",
            "--block-size",
            "512",
            "--protect",
        ])
        .is_good(
            "made t.img: 4 elements of 512 bytes, 2084 bytes in all, every element recorded, write protected\n",
        );
    let mut expected = vec![
        0, 32, 2, 0, 0, 0, 0, 4, 0, 0, 0, 4, 0, 0, 0, 32, 0, 0, 0, 36, 1,
    ];
    expected.resize(32, 0);
    expected.extend([1; 4]);
    expected.resize(2084, 0);
    assert_eq!(place.read("t.img"), expected);
}

#[test]
fn the_largest_full_image_serves_both_devices() {
    let place = Place::new();
    assert_eq!(place.run(&["new", "t.img", "--full"]).status, 0);
    let largest = ["new", "t.img", "--full", "--blocks", "65535", "--force"];
    assert_eq!(place.run(&largest).status, 0);
    for device in ["stream", "floppy"] {
        let said = one(&place, &["packet", "t.img", "--device", device], READY);
        assert_eq!((said.status, said.err.as_str()), (0, ""));
    }
}

#[test]
fn a_full_image_is_asked_for_rightly() {
    let place = Place::new();
    place
        .run(&["new", "t.img", "--full", "--early-warning", "3"])
        .is_bad(
            2,
            "--early-warning would do nothing: --full is for the floppy device, which gives none; see tapecard new --help",
        );
    place
        .run(&["new", "t.img", "--full=4"])
        .is_bad(2, "--full takes no value; see tapecard new --help");
    assert!(place.names().is_empty());
    place.write("t.img", "dear");
    place.run(&["new", "t.img", "--full"]).is_bad(
        1,
        "t.img is there already and stays as it is; choose another name, or replace it with --force",
    );
    assert_eq!(place.read("t.img"), b"dear");
}

#[test]
fn info_tells_which_devices_take_an_image() {
    let place = Place::with_image(4, &[]);
    let devices = |words: &str| {
        let line = format!("  devices        {words}");
        place.run(&["info", "t.img"]).has_lines(&[&line]);
    };
    devices("stream only: floppy needs every element recorded");
    let mut image = place.read("t.img");
    image[11] = 4;
    image[32..36].copy_from_slice(&[1, 0, 1, 1]);
    place.write("t.img", &image);
    devices("stream and floppy: every element is recorded");
    image[33] = 2;
    place.write("t.img", image);
    devices("stream and floppy, to which a filemark is an unreadable block");
}

#[test]
fn a_block_is_rewritten_in_place() {
    let place = lettered();
    let before = place.read("t.img");
    place.write("d", [b'X'; 512]);
    let said = script(
        &place,
        &[&FLOPPY[..], &["--data", "d", "--out", "o"]].concat(),
        &[
            "2b 00 00 00 00 00 01 00 00 00 00 00",
            "0a 01 00 00 01 00 00 00 00 00 00 00",
            "2b 00 00 00 00 00 00 00 00 00 00 00",
            "08 01 00 00 04 00 00 00 00 00 00 00",
        ],
    );
    assert_eq!((said.status, said.err.as_str()), (0, ""), "{}", said.out);
    said.has_lines(&[
        "2B 00 00 00 00 00 01 00 00 00 00 00  LOCATE block 1",
        "0A 01 00 00 01 00 00 00 00 00 00 00  WRITE 1 block",
        "  blocks    1",
        "  position  2",
        "  tape      4 blocks: BSEG 1, SEGTRK 4, TRKS 1",
        "08 01 00 00 04 00 00 00 00 00 00 00  READ 4 blocks",
        "  status    0 GOOD",
        "  bytes     2048",
    ]);
    let mut expected = before;
    expected[36 + 512..36 + 1024].fill(b'X');
    assert_eq!(place.read("t.img"), expected);
    assert_eq!(place.read("o"), expected[36..]);
}

#[test]
fn an_answer_in_words_and_bytes() {
    let place = lettered();
    let mut image = place.read("t.img");
    image[33] = 2;
    place.write("t.img", image);
    let said = one(&place, &FLOPPY, "08 01 00 00 04 00 00 00 00 00 00 00");
    assert_eq!((said.status, said.err.as_str()), (3, ""));
    let (answer, data) = said.out.split_once("  data ").expect("a block");
    assert_eq!(
        answer,
        "\
08 01 00 00 04 00 00 00 00 00 00 00  READ 4 blocks
  status    2 CHECK CONDITION
  blocks    1
  bytes     512
  position  2
  tape      4 blocks: BSEG 1, SEGTRK 4, TRKS 1
  sense     MEDIUM ERROR: unreadable block (3/11/00), residue 2, the block in error left out
            F0 00 03 00 00 00 02 0C 00 00 00 00 11 00 00 00 00 00 00 00
",
    );
    assert!(data.contains("aaaaaaaaaaaaaaaa"), "{data}");
}

#[test]
fn a_record_of_32_bytes_is_kept_between_runs() {
    let place = lettered();
    let attention = one(&place, &RECORD, "2b 00 00 00 00 00 03 00 00 00 00 00");
    attention.has_lines(&["  sense     UNIT ATTENTION: power on or reset (6/29/00)"]);
    assert_eq!(place.read("r").len(), 32);
    let located = one(&place, &RECORD, "2b 00 00 00 00 00 03 00 00 00 00 00");
    located.has_lines(&["  status    0 GOOD", "  position  3"]);
    let read = one(&place, &RECORD, "08 01 00 00 02 00 00 00 00 00 00 00");
    read.has_lines(&[
        "  blocks    1",
        "  position  4",
        "  sense     BLANK CHECK: end of data (8/00/05), residue 1",
    ]);
    let cold = [&RECORD[..], &["--cold"]].concat();
    one(&place, &cold, READY).is_bad(
        2,
        "--cold is for a drive just switched on, and --record names one that is on already; see tapecard packet --help",
    );
    let cold = [&FLOPPY[..], &["--cold"]].concat();
    one(&place, &cold, READY).has_lines(&["  status    2 CHECK CONDITION"]);
}

#[test]
fn commands_of_the_stream_device_alone() {
    let place = lettered();
    for opcode in ["01", "11", "34"] {
        let packet = format!("{opcode} 00 00 00 01 00 00 00 00 00 00 00");
        one(&place, &FLOPPY, &packet).has_lines(&[
            &format!("{packet}  unknown command {opcode}h"),
            "  sense     ILLEGAL REQUEST: unknown command (5/20/00)",
        ]);
    }
    let before = place.read("t.img");
    let flush = "10 00 00 00 02 00 00 00 00 00 00 00";
    one(&place, &FLOPPY, flush).has_lines(&[
        &format!("{flush}  WRITE FILEMARK (flush)"),
        "  status    0 GOOD",
        "  blocks    0",
        "  position  0",
    ]);
    assert_eq!(place.read("t.img"), before);
}

/// The tape parameters are set by a list, told, refused where they make the tape too long, and set back by a change.
#[test]
fn the_tape_parameters() {
    let place = lettered();
    let mut lists = [[0; 28]; 2];
    lists[0][12..22].copy_from_slice(&[0x2B, 0x0E, 44, 0, 0, 1, 0, 1, 0, 3]);
    lists[1][12..22].copy_from_slice(&[0x2B, 0x0E, 44, 0, 0, 2, 0, 1, 0, 3]);
    place.write("d", lists.concat());
    let select = "15 00 00 00 1c 00 00 00 00 00 00 00";
    let beyond = "2b 00 00 00 00 00 03 00 00 00 00 00";
    let said = script(
        &place,
        &[&FLOPPY[..], &["--data", "d"]].concat(),
        &[select, beyond, select, "change"],
    );
    assert_eq!(said.status, 3, "{}", said.err);
    said.has_lines(&[
        "  bytes     28",
        "  tape      3 blocks: BSEG 1, SEGTRK 1, TRKS 3",
        "2B 00 00 00 00 00 03 00 00 00 00 00  LOCATE block 3",
        "  sense     ILLEGAL REQUEST: invalid field in packet (5/24/00)",
        "  bytes     0",
        "  tape      3 blocks: BSEG 1, SEGTRK 1, TRKS 3",
        "  sense     ILLEGAL REQUEST: invalid field in parameter list (5/26/00)",
        "the cartridge was changed: position 0, tape parameters set back, attention pending",
    ]);
}

/// A list may make the product 0; the record is the device's all the same.
#[test]
fn a_tape_of_no_blocks() {
    let place = lettered();
    let mut list = [0; 28];
    list[12..14].copy_from_slice(&[0x2B, 0x0E]);
    place.write("d", list);
    let words = [&RECORD[..], &["--data", "d"]].concat();
    let select = "15 00 00 00 1c 00 00 00 00 00 00 00";
    let said = script(&place, &words, &[READY, select]);
    said.has_lines(&["  tape      0 blocks: BSEG 0, SEGTRK 0, TRKS 0"]);
    one(&place, &RECORD, "2b 00 00 00 00 00 00 00 00 00 00 00")
        .has_lines(&["  sense     ILLEGAL REQUEST: invalid field in packet (5/24/00)"]);
    one(&place, &RECORD, "08 01 00 00 01 00 00 00 00 00 00 00")
        .has_lines(&["  sense     BLANK CHECK: end of data (8/00/05), residue 1"]);
    one(&place, &RECORD, "1b 00 00 00 01 00 00 00 00 00 00 00")
        .has_lines(&["  tape      4 blocks: BSEG 1, SEGTRK 4, TRKS 1"]);
}

#[test]
fn returned_bytes_are_the_floppy_devices() {
    let place = lettered();
    one(&place, &FLOPPY, "12 00 00 00 24 00 00 00 00 00 00 00").has_lines(&[
        "  data      1F 80 02 02 1F 00 00 00 54 59 50 45 48 41 55 53  ........TYPEHAUS",
    ]);
    one(&place, &FLOPPY, "1a 00 2b 00 ff 00 00 00 00 00 00 00").has_lines(&[
        "  bytes     28",
        "  data      1B 00 00 00 00 00 00 00 00 00 00 00 2B 0E 00 00  ............+...",
        "            00 01 00 04 00 01 00 00 00 00 00 00              ............",
    ]);
}

#[test]
fn an_image_that_is_not_full_is_not_taken() {
    let place = Place::with_image(4, &[]);
    one(&place, &RECORD, READY).is_bad(
        1,
        "the floppy device needs every element recorded, and t.img has 0 of 4 (refusal 2: image breaks a header rule, or U \
         is below C); nothing was sent. tapecard new --full makes such an image",
    );
    place.write("t.img", [0; 40]);
    one(&place, &RECORD, READY).is_bad(
        1,
        "t.img is no whole cartridge image (refusal 2: image breaks a header rule, or U is below C). The file has 40 bytes: \
         it may have been cut short, or be something else. Take another copy, or make a fresh image with tapecard new",
    );
    assert_eq!(place.names(), ["t.img"]);
}

#[test]
fn devices_that_there_are_not() {
    let place = lettered();
    for (words, sentence) in [
        (
            &["--device", "disk"][..],
            "--device is stream or floppy, not disk",
        ),
        (
            &["--device=Floppy"],
            "--device is stream or floppy, not Floppy",
        ),
        (&["--device"], "--device needs a value"),
        (
            &["--device", "stream", "--device", "floppy"],
            "--device is given twice",
        ),
    ] {
        let said = place.run(&[&["packet", "t.img"], words].concat());
        said.is_bad(2, &format!("{sentence}; see tapecard packet --help"));
    }
    for command in [&["info", "t.img"][..], &["new", "n.img"]] {
        let said = place.run(&[command, &["--device", "floppy"]].concat());
        let name = command[0];
        said.is_bad(
            2,
            &format!("there is no option --device; see tapecard {name} --help"),
        );
    }
}

#[test]
fn a_record_of_another_length() {
    let place = lettered();
    let stream = "of the stream device (tapecard packet --device stream)";
    one(&place, &["packet", "t.img", "--record", "r"], READY);
    let before = place.read("r");
    one(&place, &RECORD, READY).is_bad(
        1,
        &format!(
            "r has 16 bytes and a record of the floppy device has 32: it may be one {stream}; {ELSE}"
        ),
    );
    for command in ["pulse", "recover"] {
        place.run(&[command, "--record", "r"]).is_bad(
            1,
            &format!(
                "r has 16 bytes and a record of the pulse drive has 32: it may be one {stream}; {ELSE}"
            ),
        );
    }
    assert_eq!(place.read("r"), before);
    place.write("r", [0; 33]);
    one(&place, &RECORD, READY).is_bad(
        1,
        &format!("r has 33 bytes and a record of the floppy device has 32; {ELSE}"),
    );
}

/// Records of the floppy device and of the pulse drive have one length; neither is written over the other.
#[test]
fn a_record_of_the_other_drive_with_32_bytes() {
    let place = lettered();
    let unload = "1b 00 00 00 00 00 00 00 00 00 00 00";
    for packet in [READY, unload] {
        one(&place, &RECORD, packet);
        let before = place.read("r");
        for command in ["pulse", "recover"] {
            place.run(&[command, "--record", "r"]).is_bad(
                1,
                &format!(
                    "r holds a record of the floppy device (tapecard packet --device floppy), not of the pulse drive; {ELSE}"
                ),
            );
        }
        assert_eq!(place.read("r"), before);
    }
    for (name, lines) in [
        ("p0", ""),
        ("p1", "7\n2 2\n"),
        ("p2", "27\n"),
        ("p3", "insert segments=9 tracks=3 place=4\n"),
    ] {
        place.run_with(&["pulse", "--record", name], lines.as_bytes());
        let before = place.read(name);
        let words = [&FLOPPY[..], &["--record", name]].concat();
        one(&place, &words, READY).is_bad(
            1,
            &format!(
                "{name} holds a record of the pulse drive (tapecard pulse), not of the floppy device; {ELSE}"
            ),
        );
        assert_eq!(place.read(name), before);
    }
}

#[test]
fn refusals_have_their_advice() {
    let place = lettered();
    let cut = one(&place, &FLOPPY, "00 00 00 00 00 00 00 00 00 00 00");
    assert_eq!(cut.status, 1);
    cut.has_lines(&[
        "  refused   1: packet is not 12 bytes",
        "  advice    write twelve bytes",
    ]);
    one(&place, &FLOPPY, "0a 01 ff ff 02 00 00 00 00 00 00 00").has_lines(&[
        "0A 01 FF FF 02 00 00 00 00 00 00 00  WRITE 2 blocks",
        "  refused   4: a lent data buffer is shorter than this transfer needs",
        "  advice    give 1024 bytes with --data FILE; 0 are left there",
    ]);
    let read = "08 01 ff ff 02 00 00 00 00 00 00 00";
    one(&place, &FLOPPY, read).has_lines(&["  bytes     1024"]);
    let little = [&FLOPPY[..], &["--room", "1023"]].concat();
    one(&place, &little, read).has_lines(&[
        "  advice    it needs up to 1024 bytes: give as much with --room, or leave it out",
    ]);
}

/// A record of a longer tape is not this one's, until a change of the cartridge is told.
#[test]
fn a_record_of_another_image() {
    let place = lettered();
    one(&place, &RECORD, READY);
    let mut record = place.read("r");
    record[21] = 5;
    place.write("r", record);
    one(&place, &RECORD, READY).has_lines(&[
        "  refused   3: packet record has P > U, a speed outside the five, a sense key above 15, BSEG*SEGTRK*TRKS > C, or P \
         above that product",
        "  advice    the record is not of this image: send the line `change`, or name",
        "            another --record",
    ]);
    let changed = script(&place, &RECORD, &["change", READY, READY]);
    assert_eq!((changed.status, changed.err.as_str()), (3, ""));
    changed.has_lines(&[
        "  tape      4 blocks: BSEG 1, SEGTRK 4, TRKS 1",
        "  status    0 GOOD",
    ]);
}

#[test]
fn a_protected_tape_keeps_its_blocks() {
    let place = Place::with_image(4, &["--full", "--protect"]);
    let before = place.read("t.img");
    place.write("d", [1; 512]);
    let words = [&FLOPPY[..], &["--data", "d"]].concat();
    let said = script(
        &place,
        &words,
        &[
            "0a 01 00 00 01 00 00 00 00 00 00 00",
            "10 00 00 00 00 00 00 00 00 00 00 00",
        ],
    );
    assert_eq!(said.status, 3);
    let protected = "  sense     DATA PROTECT: write protected (7/27/00)";
    said.has_lines(&[protected, protected]);
    assert_eq!(place.read("t.img"), before);
}

/// Damaged images, random records and packets: an answer or a refusal, never a crash, and never another count of elements.
#[test]
fn random_packets_over_damaged_images() {
    let place = lettered();
    let good = place.read("t.img");
    let mut dice = Dice(11);
    for _ in 0..20 {
        let mut image = good.clone();
        for _ in 0..dice.throw(4) {
            let at = dice.throw(4) as usize;
            image[32 + at] = dice.throw(6) as u8;
        }
        image.truncate(image.len() - (dice.throw(5) / 4) as usize);
        place.write("t.img", &image);
        place.write("r", dice.bytes(32));
        place.write("d", dice.bytes(1024));
        let more = ["--data", "d", "--out", "o", "--force"];
        let said = place.run_with(
            &[&RECORD[..], &more].concat(),
            random_script(&mut dice).as_bytes(),
        );
        assert!([0, 1, 3].contains(&said.status), "{}", said.err);
        assert_eq!(place.read("t.img")[..32], image[..32]);
    }
}
