//! SIMH tape files that do not go onto a cartridge: which item is in the way, what was found, and what can be done. Nothing changes.

use crate::common::Place;
use crate::reels::{END, MARK, record, unreadable};

const CUT: &str =
    "The file was cut or damaged on its way, or is no SIMH tape file: take another copy";
const TAKES: &str =
    "A cartridge takes records of 512 or of 1024 bytes, all alike: have the tape written in such";

fn word(value: u32) -> Vec<u8> {
    value.to_le_bytes().to_vec()
}

/// The file of these items is refused into `t.img`, or where `options` are given into `made.img`, and all stays as it was.
#[track_caller]
fn refused(place: &Place, items: &[Vec<u8>], options: Option<&str>, number: u8, why: &str) {
    place.write("f.tap", items.concat());
    place.write("r", [9; 16]);
    let names = place.names();
    let before = place.read("t.img");
    let image = options.map_or("t.img", |_| "made.img");
    let mut words = vec!["import", "f.tap", image, "--record", "r"];
    words.extend(options.unwrap_or_default().split_whitespace());
    let sentence = format!("f.tap was not imported (refusal {number}): {why}");
    place.run(&words).is_bad(1, &sentence);
    assert_eq!(place.read("t.img"), before);
    assert_eq!(place.read("r"), [9; 16]);
    assert_eq!(place.names(), names);
}

/// A cartridge of four 512-byte blocks with two filemarks on it.
fn place() -> Place {
    let place = Place::with_image(4, &[]);
    place.run_with(
        &["packet", "t.img"],
        b"10 00 00 00 02 00 00 00 00 00 00 00\n",
    );
    assert_eq!(place.read("t.img")[8..12], [0, 0, 0, 2]);
    place
}

#[test]
fn a_length_that_is_cut() {
    let place = place();
    for (left, told) in [(1, "1 is"), (2, "2 are"), (3, "3 are")] {
        let why = format!(
            "item 1, at offset 0, is cut: of the four bytes of a length {told} there; nothing was changed. {CUT}"
        );
        refused(&place, &[vec![0; left]], None, 11, &why);
    }
    let items = [record(&[1; 512]), MARK.to_vec(), vec![0, 2]];
    let why = "item 3, at offset 524, is cut: of the four bytes of a length 2 are there; nothing was changed. The file was cut or \
               damaged on its way, or written over a longer one: take another copy, or import its first 524 bytes (head -c 524) \
               for the 2 items before it";
    refused(&place, &items, None, 11, why);
}

#[test]
fn a_record_that_is_cut() {
    let place = place();
    let of = |items: &[Vec<u8>], length: usize| vec![items.concat()[..length].to_vec()];
    let why = |what: &str, left: u32| {
        format!(
            "item 1, at offset 0, is cut: {what} with its lengths, and {left} are left; nothing was changed. {CUT}"
        )
    };
    for left in [4, 5, 515, 516, 519] {
        let items = of(&[record(&[1; 512])], left);
        let why = why("a record of 512 bytes takes 520", left as u32);
        refused(&place, &items, None, 11, &why);
        refused(&place, &items, Some(""), 11, &why);
    }
    let items = of(&[unreadable(&[1; 1024])], 1031);
    refused(
        &place,
        &items,
        None,
        11,
        &why("an unreadable record of 1024 bytes takes 1032", 1031),
    );
    let items = of(&[record(&[1; 1])], 9);
    refused(
        &place,
        &items,
        None,
        11,
        &why("a record of 1 byte takes 10", 9),
    );
    let items = [record(&[1; 512]), of(&[record(&[2; 512])], 100).concat()];
    let why = "item 2, at offset 520, is cut: a record of 512 bytes takes 520 with its lengths, and 100 are left; nothing was \
               changed. The file was cut or damaged on its way, or written over a longer one: take another copy, or import its \
               first 520 bytes (head -c 520) for the item before it";
    refused(&place, &items, None, 11, why);
}

#[test]
fn lengths_that_disagree() {
    let place = place();
    for second in [513, 0, 512 + 0x8000_0000, 0xFFFF_FFFF] {
        let items = [word(512), vec![1; 512], word(second)];
        let why = format!(
            "item 1, at offset 0, has two lengths: 00000200h before its bytes, and {second:08X}h at offset 516 behind them; \
             nothing was changed. {CUT}"
        );
        refused(&place, &items, None, 11, &why);
    }
    let items = [record(&[1; 512]), word(80), vec![1; 80], word(81)];
    let why = "item 2, at offset 520, has two lengths: 00000050h before its bytes, and 00000051h at offset 604 behind them; nothing \
               was changed. The file was cut or damaged on its way, or written over a longer one: take another copy, or import its \
               first 520 bytes (head -c 520) for the item before it";
    refused(&place, &items, None, 11, why);
}

/// SIMH's word for what was erased; the card takes it for a record of 2 GiB that is cut.
#[test]
fn an_erase_gap() {
    let items = [MARK.to_vec(), word(0xFFFF_FFFE), record(&[1; 512])];
    let why = "item 2, at offset 4, is an erase gap of SIMH (FFFFFFFEh), no record and no tape mark; nothing was changed. Copy the \
               tape within SIMH to one without gaps, and import that";
    refused(&place(), &items, None, 11, why);
}

#[test]
fn a_file_that_is_something_else() {
    let place = place();
    let why = format!(
        "item 1, at offset 0, is cut: a record of 1701669204 bytes takes 1701669212 with its lengths, and 22 are left; nothing was \
         changed. {CUT}"
    );
    refused(
        &place,
        &[b"Time flies like text.\n".to_vec()],
        None,
        11,
        &why,
    );
}

#[test]
fn records_that_are_no_blocks() {
    let place = place();
    for (item, told) in [
        (record(&[1; 80]), "a record of 80 bytes"),
        (record(&[1; 81]), "a record of 81 bytes"),
        (record(&[1]), "a record of 1 byte"),
        (record(&[1; 2048]), "a record of 2048 bytes"),
        (unreadable(&[1; 80]), "an unreadable record of 80 bytes"),
        (unreadable(&[]), "an unreadable record of 0 bytes"),
    ] {
        let items = [MARK.to_vec(), item.clone()];
        let why = |has: &str| {
            format!("item 2, at offset 4, is {told}, and {has}; nothing was changed. {TAKES}")
        };
        refused(&place, &items, None, 12, &why("t.img has blocks of 512"));
        refused(
            &place,
            &items,
            Some(""),
            12,
            &why("made.img would have blocks of 1024"),
        );
        let items = [record(&[1; 512]), item];
        let why = format!(
            "item 2, at offset 520, is {told}, and made.img would have blocks of 512; nothing was changed. {TAKES}"
        );
        refused(&place, &items, Some(""), 12, &why);
    }
}

#[test]
fn records_of_the_other_block_size() {
    let place = place();
    let items = [MARK.to_vec(), record(&[1; 1024])];
    let why = "item 2, at offset 4, is a record of 1024 bytes, and t.img has blocks of 512; nothing was changed. Name an image that \
               is not there yet: it is made with blocks of 1024";
    refused(&place, &items, None, 12, why);
    let why = "item 2, at offset 4, is a record of 1024 bytes, and made.img would have blocks of 512; nothing was changed. Leave \
               --block-size out, or give --block-size 1024";
    refused(&place, &items, Some("--block-size 512"), 12, why);
    let items = [record(&[1; 512]), unreadable(&[1; 1024])];
    let why = |has: &str| {
        format!(
            "item 2, at offset 520, is an unreadable record of 1024 bytes, and {has} blocks of 512; nothing was changed. The \
             records before it have 512, and a cartridge takes records of one size alone: have the tape written in such"
        )
    };
    refused(&place, &items, None, 12, &why("t.img has"));
    refused(&place, &items, Some(""), 12, &why("made.img would have"));
}

#[test]
fn more_elements_than_the_cartridge_has() {
    let place = place();
    let five = [MARK.repeat(4), record(&[1; 512]), END.to_vec()];
    let why = "item 5, at offset 16, is one more than the 4 elements of t.img; nothing was changed. The file has 5: name an image \
               that is not there yet, and it is made with as many";
    refused(&place, &five, None, 13, why);
    let why = "item 2, at offset 4, is one more than the 1 element of made.img; nothing was changed. Leave --blocks out, or give \
               --blocks 5";
    refused(&place, &five, Some("--blocks 1"), 13, why);
    let why = |cartridge: &str| {
        format!(
            "item {cartridge}; nothing was changed. The file has 65536 and no cartridge holds more than 65535: have the tape \
             written as several"
        )
    };
    let longest = [MARK.repeat(65_536)];
    let of_made = why("65536, at offset 262140, is one more than the 65535 elements of made.img");
    refused(&place, &longest, Some(""), 13, &of_made);
    let of_found = why("5, at offset 16, is one more than the 4 elements of t.img");
    refused(&place, &longest, None, 13, &of_found);
}

/// The first item that is in the way is told, and of one item 11 before 12 before 13.
#[test]
fn the_first_in_the_order_of_the_file() {
    let place = place();
    let four = MARK.repeat(4);
    let cut = record(&[1; 80])[..50].to_vec();
    for (items, number, item) in [
        (
            vec![four.clone(), cut.clone()],
            11,
            "item 5, at offset 16, is cut: ",
        ),
        (
            vec![four.clone(), record(&[1; 80])],
            12,
            "item 5, at offset 16, is a record of 80",
        ),
        (
            vec![four, MARK.to_vec(), cut.clone()],
            13,
            "item 5, at offset 16, is one more",
        ),
        (
            vec![record(&[1; 80]), cut],
            12,
            "item 1, at offset 0, is a record of 80",
        ),
    ] {
        place.write("f.tap", items.concat());
        let said = place.run(&["import", "f.tap", "t.img"]);
        let start = format!("tapecard: f.tap was not imported (refusal {number}): {item}");
        assert!(said.err.starts_with(&start), "{}", said.err);
        assert_eq!((said.status, said.out.as_str()), (1, ""));
    }
    assert_eq!(place.read("t.img")[8..12], [0, 0, 0, 2]);
}

/// What can be done about a file that is broken is done: the part before it is imported.
#[test]
fn the_part_before_a_broken_item() {
    let place = place();
    let items = [record(&[1; 512]), MARK.to_vec(), vec![7; 3]];
    place.write("f.tap", items.concat());
    assert_eq!(place.run(&["import", "f.tap", "t.img"]).status, 1);
    place.write("part.tap", &place.read("f.tap")[..524]);
    place.run(&["import", "part.tap", "t.img"]).is_good(
        "imported part.tap into t.img: 2 elements (1 data block, 1 filemark, 0 unreadable), in place of 2\n",
    );
}
