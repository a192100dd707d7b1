//! Exit statuses: they say what became of the work and of the data.

use crate::common::Place;

const READY: &[u8] = b"00 00 00 00 00 00 00 00 00 00 00 00\n";
const BEYOND: &[u8] = b"08 01 00 00 02 00 00 00 00 00 00 00\n";
const CUT: &[u8] = b"00 00 00 00 00 00 00 00 00 00 00\n";

/// A cartridge with one file `f` of 300,000 bytes, more than a pipe holds.
fn place() -> Place {
    let place = Place::with_image(2000, &["--early-warning", "0"]);
    place.write("f", vec![b'g'; 300_000]);
    assert_eq!(place.run(&["put", "t.img", "f"]).status, 0);
    place
}

#[test]
fn a_packet_ends_as_the_drive_answered() {
    let place = Place::with_image(8, &[]);
    for (script, usual, any_answer) in [
        (&[READY][..], 0, 0),
        (&[BEYOND], 3, 0),
        (&[BEYOND, READY], 3, 0),
        (&[CUT], 1, 1),
        (&[BEYOND, CUT], 1, 1),
    ] {
        let script = script.concat();
        let said = place.run_with(&["packet", "t.img"], &script);
        assert_eq!(said.status, usual);
        assert_eq!(said.err.is_empty(), usual != 1, "{}", said.err);
        let said = place.run_with(&["packet", "t.img", "--any-answer"], &script);
        assert_eq!(said.status, any_answer);
    }
    let cold = [&["packet", "t.img", "--cold"][..], &["00"; 12]].concat();
    assert_eq!(place.run(&cold).status, 3);
}

#[test]
fn a_file_that_did_not_go_out_whole_is_a_failure() {
    let place = place();
    let mut get = place.start(&["get", "t.img", "1", "-o", "-"]);
    get.hear("gggg");
    get.close_output();
    get.end().is_bad(
        1,
        "standard output could not be written: its reader has closed it; file 1 did not go out whole",
    );
    place.shell("$TAPECARD get t.img 1 -o - >/dev/full").is_bad(
        1,
        "standard output could not be written: the disk is full; file 1 did not go out whole",
    );
}

#[test]
fn work_that_is_done_stays_done_where_nobody_is_told() {
    let place = place();
    let full = "standard output took no more: No space left on device (os error 28)";
    for (line, done) in [
        ("put t.img f", "all files are on t.img"),
        ("get t.img 1 -o back", "the file is written"),
        ("new n.img", "the image is made"),
        ("export t.img t.tap", "the file is written"),
        ("import t.tap i.img", "the elements are on i.img"),
        ("recover", "the trains were sent and the record is kept"),
    ] {
        place
            .shell(&format!("$TAPECARD {line} >/dev/full"))
            .is_bad(0, &format!("{full}; {done}"));
    }
    let list = place.run(&["list", "t.img"]).out;
    assert!(list.contains("     2  f "), "{list}");
    assert_eq!(
        place.names(),
        ["back", "f", "i.img", "n.img", "t.img", "t.tap"]
    );
}

#[test]
fn what_was_asked_for_and_cannot_be_shown_is_a_failure() {
    let place = place();
    let full = "standard output took no more: No space left on device (os error 28)";
    for line in [
        "list t.img",
        "labels t.img",
        "labels t.img --csv",
        "info t.img",
        "--help",
    ] {
        place
            .shell(&format!("$TAPECARD {line} >/dev/full"))
            .is_bad(1, full);
    }
    place.write("script", READY);
    place
        .shell("$TAPECARD packet t.img <script >/dev/full")
        .is_bad(1, &format!("{full}; what was sent so far is kept"));
}

#[test]
fn a_reader_that_has_seen_enough_of_a_list_is_no_failure() {
    let place = place();
    for words in [&["list", "t.img"][..], &["info", "t.img"], &["--help"]] {
        let mut list = place.start(words);
        list.close_output();
        let said = list.end();
        assert_eq!((said.status, said.err.as_str()), (0, ""));
    }
}

#[test]
fn a_record_that_is_not_there_brings_no_drive_back() {
    let place = Place::new();
    place.run(&["recover", "--record", "typo"]).is_bad(
        1,
        "the record typo is not there, so there is no drive to bring back; name the file that tapecard pulse keeps",
    );
    assert!(place.names().is_empty());
}

#[test]
fn bytes_on_standard_output_have_it_for_themselves() {
    let place = place();
    let inquiry = b"12 00 00 00 24 00 00 00 00 00 00 00\n";
    let said = place.run_with(&["packet", "t.img", "--out", "-"], inquiry);
    assert_eq!(said.status, 0);
    assert_eq!(
        (said.bytes.len(), &said.bytes[8..16]),
        (36, &b"TYPEHAUS"[..])
    );
    assert!(
        said.err.contains("INQUIRY\n  status    0 GOOD\n"),
        "{}",
        said.err
    );
    let said = place.run(&["get", "t.img", "1", "-o", "-"]);
    assert_eq!((said.status, said.bytes.len()), (0, 300_000));
    assert_eq!(said.err, "got file 1 on standard output: 300000 bytes\n");
    assert_eq!(place.names(), ["f", "t.img"]);
}
