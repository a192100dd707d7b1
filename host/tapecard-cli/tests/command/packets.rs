//! `packet`: single packets and scripts.

use crate::common::{Dice, Place};
use tapecard::bytes::opcode;

const READ_2: [&str; 12] = [
    "08", "01", "00", "00", "02", "00", "00", "00", "00", "00", "00", "00",
];

/// The cartridge of the plates: C 4, B 512, W 0, kinds 1 2 1, U 3.
fn plate() -> Place {
    let place = Place::with_image(4, &["--early-warning", "0"]);
    let mut image = place.read("t.img");
    image[11] = 3;
    image[32..35].copy_from_slice(&[1, 2, 1]);
    place.write("t.img", image);
    place
}

fn with<'a>(words: &[&'a str], bytes: &[&'a str]) -> Vec<&'a str> {
    [words, bytes].concat()
}

#[test]
fn two_reads_with_a_record_kept_between() {
    let place = plate();
    let words = with(
        &["packet", "t.img", "--record", "r", "--out", "o", "--force"],
        &READ_2,
    );
    let first = place.run(&words);
    first.has_lines(&[
        "  status    2 CHECK CONDITION",
        "  sense     UNIT ATTENTION: power on or reset (6/29/00)",
    ]);
    let second = place.run(&words);
    assert_eq!((second.status, second.err.as_str()), (3, ""));
    assert_eq!(
        second.out,
        "\
08 01 00 00 02 00 00 00 00 00 00 00  READ 2 blocks
  status    2 CHECK CONDITION
  blocks    1
  bytes     512
  position  2
  sense     NO SENSE: filemark detected (0/00/01), residue 1, filemark
            F0 00 80 00 00 00 01 0C 00 00 00 00 00 01 00 00 00 00 00 00
",
    );
    place.run(&words).has_lines(&[
        "  blocks    1",
        "  position  3",
        "  sense     BLANK CHECK: end of data (8/00/05), residue 1",
        "            F0 00 08 00 00 00 01 0C 00 00 00 00 00 05 00 00 00 00 00 00",
    ]);
    assert_eq!(place.read("r").len(), 16);
    assert_eq!(place.read("o").len(), 512);
}

/// What `packet` says of a tape of four elements with this early warning: three blocks are written, and behind them a READ, SPACE
/// over a block and over a filemark, and a LOCATE meet the end of data.
fn behind_three_blocks(warning: &str) -> String {
    let place = Place::with_image(4, &["--early-warning", warning]);
    place.write("d", [7; 3 * 512]);
    let script = "\
0a 01 00 00 03 00 00 00 00 00 00 00
08 01 00 00 01 00 00 00 00 00 00 00
11 00 00 00 01 00 00 00 00 00 00 00
11 01 00 00 01 00 00 00 00 00 00 00
2b 00 00 00 00 00 04 00 00 00 00 00
";
    let said = place.run_with(&["packet", "t.img", "--data", "d"], script.as_bytes());
    assert_eq!((said.status, said.err.as_str()), (3, ""), "{}", said.out);
    said.out
}

/// The lines that tell of the sense, in words and in bytes.
fn senses(said: &str) -> Vec<&str> {
    let told = |line: &&str| line.starts_with("  sense     ") || line.starts_with("            ");
    said.lines().filter(told).collect()
}

/// 02, A3: "So 8/00/05 on READ and SPACE carries EOM when U > C - W."; U is 3 here and C is 4.
#[test]
fn the_end_of_data_near_the_end_of_tape_is_told_in_words() {
    let warned = [
        "  sense     NO SENSE: early warning passed (0/00/02), residue 0, EOM",
        "            F0 00 40 00 00 00 00 0C 00 00 00 00 00 02 00 00 00 00 00 00",
    ];
    let near = [
        "  sense     BLANK CHECK: end of data (8/00/05), residue 1, EOM: near the end of tape",
        "            F0 00 48 00 00 00 01 0C 00 00 00 00 00 05 00 00 00 00 00 00",
    ];
    let written = [
        "  sense     NO SENSE: nothing to report (0/00/00)",
        "            70 00 00 00 00 00 00 0C 00 00 00 00 00 00 00 00 00 00 00 00",
    ];
    let at_the_border = [
        "  sense     BLANK CHECK: end of data (8/00/05), residue 1",
        "            F0 00 08 00 00 00 01 0C 00 00 00 00 00 05 00 00 00 00 00 00",
    ];
    let located = [
        "  sense     BLANK CHECK: end of data (8/00/05)",
        "            70 00 08 00 00 00 00 0C 00 00 00 00 00 05 00 00 00 00 00 00",
    ];
    for (warning, write, end) in [("2", warned, near), ("1", written, at_the_border)] {
        let said = behind_three_blocks(warning);
        assert_eq!(senses(&said), [write, end, end, end, located].concat());
    }
}

#[test]
fn without_a_record_the_attention_is_taken_unless_cold() {
    let place = plate();
    let ready = ["00"; 12];
    let warm = place.run(&with(&["packet", "t.img"], &ready));
    warm.has_lines(&["  status    0 GOOD"]);
    let cold = place.run(&with(&["packet", "t.img", "--cold"], &ready));
    cold.has_lines(&["  status    2 CHECK CONDITION"]);
}

#[test]
fn a_cut_packet_is_refused_and_nothing_changes() {
    let place = plate();
    place.run(&with(&["packet", "t.img", "--record", "r"], &["00"; 12]));
    let (image, record) = (place.read("t.img"), place.read("r"));
    for bytes in [&["0a"; 11][..], &["0a"; 13]] {
        let said = place.run(&with(&["packet", "t.img", "--record", "r"], bytes));
        assert_eq!(said.status, 1);
        assert_eq!(
            said.err,
            "tapecard: 1 of 1 packet refused; a refused packet changes nothing\n"
        );
        said.has_lines(&[
            "  refused   1: packet is not 12 bytes",
            "  nothing changed: record, image and data are as they were",
        ]);
        assert_eq!(
            (place.read("t.img"), place.read("r")),
            (image.clone(), record.clone())
        );
    }
}

#[test]
fn a_script_writes_and_reads_back() {
    let place = plate();
    place.write("d", [b'a'; 512]);
    let script = "\
01 0 0 0 0 0 0 0 0 0 0 0                # rewind
0a01 00 00 01 00 00 00 00 00 00 00      # U becomes 1

010000000000000000000000
08 01 00 00 01 00 00 00 00 00 00 00
change
00 00 00 00 00 00 00 00 00 00 00 00
quit
this line is not read";
    let said = place.run_with(
        &["packet", "t.img", "--data", "d", "--out", "o"],
        script.as_bytes(),
    );
    assert_eq!((said.status, said.err.as_str()), (3, ""), "{}", said.out);
    said.has_lines(&[
        "0A 01 00 00 01 00 00 00 00 00 00 00  WRITE 1 block",
        "  blocks    1",
        "08 01 00 00 01 00 00 00 00 00 00 00  READ 1 block",
        "  bytes     512",
        "the cartridge was changed: position 0, attention pending",
        "  sense     UNIT ATTENTION: cartridge changed (6/28/00)",
    ]);
    assert_eq!(place.read("o"), [b'a'; 512]);
    assert_eq!(place.read("t.img")[8..12], [0, 0, 0, 1]);
}

#[test]
fn returned_bytes_are_shown() {
    let inquiry = ["12", "0", "0", "0", "24", "0", "0", "0", "0", "0", "0", "0"];
    plate()
        .run(&with(&["packet", "t.img"], &inquiry))
        .has_lines(&[
            "12 00 00 00 24 00 00 00 00 00 00 00  INQUIRY",
            "  data      01 80 02 02 1F 00 00 00 54 59 50 45 48 41 55 53  ........TYPEHAUS",
            "            54 41 50 45 20 43 41 52 44 20 20 20 20 20 20 20  TAPE CARD",
            "            30 31 30 30                                      0100",
        ]);
}

/// 02, A2: "The fresh record's speed becomes 250 instead of 0. Callers that relied on 0 set it themselves by 15h".
#[test]
fn the_speed_of_a_drive_just_switched_on() {
    let sense = "1a 00 2a 00 20 00 00 00 00 00 00 00";
    let select = "15 00 00 00 20 00 00 00 00 00 00 00";
    let ready = "00 00 00 00 00 00 00 00 00 00 00 00";
    let place = plate();
    let mut list = [0; 32];
    list[12..14].copy_from_slice(&[0x2A, 0x12]);
    place.write("d", list);
    let full = place.run(&["new", "f.img", "--full", "--blocks", "4"]);
    assert_eq!(full.status, 0, "{}", full.err);
    for (image, device) in [("t.img", "stream"), ("f.img", "floppy")] {
        let words = ["packet", image, "--device", device, "--data", "d"];
        let script = [sense, select, "change", ready, sense].join("\n");
        let said = place.run_with(&words, script.as_bytes());
        assert_eq!((said.status, said.err.as_str()), (3, ""), "{}", said.out);
        said.has_lines(&[
            "1A 00 2A 00 20 00 00 00 00 00 00 00  MODE SENSE",
            "  speed     250",
            "15 00 00 00 20 00 00 00 00 00 00 00  MODE SELECT",
            "  speed     0 (automatic)",
            "1A 00 2A 00 20 00 00 00 00 00 00 00  MODE SENSE",
            "  speed     0 (automatic)",
        ]);
        let told = said.out.matches("  speed ").count();
        assert_eq!(told, 3, "only MODE SELECT and MODE SENSE tell it");
    }
}

#[test]
fn bad_hex_ends_a_script_and_what_was_answered_is_kept() {
    let place = plate();
    place.run(&["packet", "t.img", "08", "0G"]).is_bad(
        1,
        "\"0G\" is no hexadecimal byte: write each byte as two digits, as in 08 01 00 00 02",
    );
    assert_eq!(place.names(), ["t.img"]);
    place.write("d", [1; 512]);
    let script = b"0a01 00 00 01 00 00 00 00 00 00 00\n1 2 xyz\n";
    assert_eq!(
        place
            .run(&with(&["packet", "t.img", "--record", "r"], &["00"; 12]))
            .status,
        3
    );
    let said = place.run_with(&["packet", "t.img", "--data", "d", "--record", "r"], script);
    assert_eq!(said.status, 1);
    assert_eq!(
        said.err,
        "tapecard: line 2: \"xyz\" is no hexadecimal byte: write each byte as two digits, as in 08 01 00 00 02; \
         the script ends here, and what the lines before it did is kept\n"
    );
    said.has_lines(&["  blocks    1", "  position  1"]);
    assert_eq!(place.read("t.img")[8..12], [0, 0, 0, 1]);
    assert_eq!(place.names(), ["d", "r", "t.img"]);
}

#[test]
fn every_refusal_of_a_packet_has_its_advice() {
    let place = plate();
    let write = [
        "0a", "01", "00", "00", "01", "00", "00", "00", "00", "00", "00", "00",
    ];
    place.run(&with(&["packet", "t.img"], &write)).has_lines(&[
        "  refused   4: a lent data buffer is shorter than this transfer needs",
        "  advice    give 512 bytes with --data FILE; 0 are left there",
    ]);
    let little = place.run(&with(&["packet", "t.img", "--room", "1023"], &READ_2));
    little.has_lines(&[
        "  refused   4: a lent data buffer is shorter than this transfer needs",
        "  advice    it needs up to 1024 bytes: give as much with --room, or leave it out",
    ]);
    let whole_tape = [
        "08", "01", "ff", "ff", "ff", "00", "00", "00", "00", "00", "00", "00",
    ];
    let much = place.run(&with(&["packet", "t.img"], &whole_tape));
    much.has_lines(&[
        "  refused   4: a lent data buffer is shorter than this transfer needs",
        "  advice    ask for fewer blocks: no tape has more than 65535,",
        "            and no room of 8589934080 bytes is lent",
    ]);

    place.write("r", [0, 0, 0, 4, 1, 0, 0, 0, 0, 0, 0, 0, 0, 0, 0, 0]);
    place.run(&with(&["packet", "t.img", "--record", "r"], &READ_2)).has_lines(&[
        "  refused   3: packet record has P > U, a speed outside the five, or a sense key above 15",
        "  advice    the record is not of this image: send the line `change`, or name",
        "            another --record",
    ]);
    place.write("t.img", [0; 40]);
    place.run(&with(&["packet", "t.img"], &READ_2)).has_lines(&[
        "  refused   2: image breaks a header rule",
        "  advice    take another copy of the image, or make one with tapecard new",
    ]);
}

#[test]
fn a_record_of_another_length() {
    let place = plate();
    place.write("r", [0; 32]);
    place.run(&with(&["packet", "t.img", "--record", "r"], &READ_2)).is_bad(
        1,
        "r has 32 bytes and a record of the stream device has 16: it may be one of the floppy device (tapecard packet \
         --device floppy) or of the pulse drive (tapecard pulse); name another file, or remove it to start afresh",
    );
}

#[test]
fn missing_data_sends_nothing() {
    let place = plate();
    place
        .run(&["packet", "t.img", "--data", "none", "0a", "01"])
        .is_bad(
            1,
            "the data none could not be read: there is no such file or directory; nothing was sent",
        );
}

#[test]
fn what_is_no_script_does_not_fill_the_memory() {
    let place = plate();
    place
        .run_with(&["packet", "t.img"], &[b'a'; 2 * 1024 * 1024])
        .is_bad(
            1,
            "a line of standard input is longer than 1048576 bytes: that is no script; what the lines before it did is \
             kept",
        );
}

/// Packets of all commands, most of them with a count that a tape may have.
pub fn random_script(dice: &mut Dice) -> String {
    let opcodes = [&opcode::ALL[..], &[0x99]].concat();
    let mut script = String::from("change\n");
    for _ in 0..20 {
        let mut packet = dice.bytes(12);
        packet[0] = opcodes[dice.throw(opcodes.len() as u64) as usize];
        packet[2..4].fill(0);
        for byte in packet {
            script.push_str(&format!("{byte:02x} "));
        }
        script.push('\n');
    }
    script
}

/// Damaged images and random packets: an answer or a refusal, never a crash.
#[test]
fn random_packets_over_damaged_images() {
    let place = plate();
    let good = place.read("t.img");
    let mut dice = Dice(7);
    for _ in 0..20 {
        let mut image = good.clone();
        for _ in 0..dice.throw(3) {
            let at = dice.throw(40) as usize;
            image[at] = dice.throw(256) as u8;
        }
        image.truncate(image.len() - dice.throw(2) as usize * dice.throw(2000) as usize);
        place.write("t.img", image);
        place.write("r", dice.bytes(16));
        place.write("d", dice.bytes(1024));
        let script = random_script(&mut dice);
        let said = place.run_with(
            &[
                "packet", "t.img", "--record", "r", "--data", "d", "--out", "o", "--force",
            ],
            script.as_bytes(),
        );
        assert!([0, 1, 3].contains(&said.status), "{}", said.err);
        for words in [
            &["info", "t.img"][..],
            &["list", "t.img"],
            &["get", "t.img", "1", "-o", "g", "--force"],
        ] {
            let said = place.run(words);
            assert!(said.status <= 1, "{words:?} {}", said.err);
        }
    }
}
