//! The locked door (02, A8): what `packet` says of it, on both devices, and that it stays with the record.

use crate::common::{Place, Said};

const LOCK: &str = "1e 00 00 00 01 00 00 00 00 00 00 00";
const UNLOCK: &str = "1e 00 00 00 00 00 00 00 00 00 00 00";
const LOAD: &str = "1b 00 00 00 01 00 00 00 00 00 00 00";
const UNLOAD: &str = "1b 00 00 00 00 00 00 00 00 00 00 00";
const LOCATE_2: &str = "2b 00 00 00 00 00 02 00 00 00 00 00";
const READY: &str = "00 00 00 00 00 00 00 00 00 00 00 00";
const PAGE_2A: &str = "1a 00 2a 00 20 00 00 00 00 00 00 00";

/// What is said of an unload that the lock stopped, behind its position and, on the floppy device, its tape.
const STOPPED: [&str; 5] = [
    "  door      locked",
    "  sense     ILLEGAL REQUEST: medium removal prevented (5/53/02)",
    "            70 00 05 00 00 00 00 0C 00 00 00 00 53 02 00 00 00 00 00 00",
    "  advice    the door is locked, so nothing was unloaded; to unlock it send 1Eh",
    "            with bit 0 of byte 4 clear: 1E 00 00 00 00 00 00 00 00 00 00 00",
];

/// A cartridge of four blocks that both devices take.
fn place() -> Place {
    Place::with_image(4, &["--full"])
}

/// Sends a line of packets or other words each, with more options.
fn script(place: &Place, device: &str, more: &[&str], lines: &[&str]) -> Said {
    let words = ["packet", "t.img", "--device", device];
    place.run_with(&[&words[..], more].concat(), lines.join("\n").as_bytes())
}

/// The lines that tell of the door, the position, and what a sense or an advice says.
fn told<'a>(said: &'a Said, headings: &[&str]) -> Vec<&'a str> {
    let wanted = |line: &&str| {
        let heading = line.get(2..12).unwrap_or("").trim_end();
        headings.contains(&heading)
    };
    said.out.lines().filter(wanted).collect()
}

#[test]
fn an_unload_is_stopped_until_the_door_is_unlocked() {
    let place = place();
    let image = place.read("t.img");
    for device in ["stream", "floppy"] {
        let lines = [LOCATE_2, LOCK, UNLOAD, UNLOCK, UNLOAD, READY];
        let said = script(&place, device, &[], &lines);
        assert_eq!((said.status, said.err.as_str()), (3, ""), "{}", said.out);
        said.has_lines(&[
            "1E 00 00 00 01 00 00 00 00 00 00 00  PREVENT/ALLOW MEDIUM REMOVAL (lock)",
            "  status    0 GOOD",
            "  door      locked",
            "  sense     NO SENSE: nothing to report (0/00/00)",
            "1B 00 00 00 00 00 00 00 00 00 00 00  LOAD/UNLOAD (unload)",
            "  status    2 CHECK CONDITION",
        ]);
        said.has_lines(&STOPPED);
        said.has_lines(&[
            "1E 00 00 00 00 00 00 00 00 00 00 00  PREVENT/ALLOW MEDIUM REMOVAL (unlock)",
            "  status    0 GOOD",
            "  door      unlocked",
            "1B 00 00 00 00 00 00 00 00 00 00 00  LOAD/UNLOAD (unload)",
            "  status    0 GOOD",
            "  sense     NOT READY: no cartridge loaded (2/3A/00)",
        ]);
        let places = ["2", "2", "2", "2", "0", "0"].map(|p| format!("  position  {p}"));
        assert_eq!(told(&said, &["position"]), places);
        assert_eq!(place.read("t.img"), image);
    }
}

/// The whole answer, so that no line stands elsewhere.
#[test]
fn a_stopped_unload_in_words_and_bytes() {
    let place = place();
    for (device, tape) in [
        ("stream", &[][..]),
        (
            "floppy",
            &["  tape      4 blocks: BSEG 1, SEGTRK 4, TRKS 1"],
        ),
    ] {
        let said = script(&place, device, &[], &[LOCK, UNLOAD]);
        let answer = [
            "1B 00 00 00 00 00 00 00 00 00 00 00  LOAD/UNLOAD (unload)",
            "  status    2 CHECK CONDITION",
            "  blocks    0",
            "  bytes     0",
            "  position  0",
        ];
        let expected = [&answer[..], tape, &STOPPED].concat();
        let lines: Vec<&str> = said.out.lines().collect();
        assert_eq!(lines[lines.len() - expected.len()..], expected);
        for line in lines {
            assert!(line.chars().count() <= 80, "{line}");
        }
    }
}

/// Whatever a packet asks for, its answer says that the door is locked; where it is open, only 1Eh's does.
#[test]
fn every_answer_of_a_locked_drive_says_so() {
    let place = place();
    for device in ["stream", "floppy"] {
        let lines = [
            READY, LOCK, READY, PAGE_2A, LOCATE_2, UNLOCK, READY, PAGE_2A,
        ];
        let said = script(&place, device, &[], &lines);
        assert_eq!((said.status, said.err.as_str()), (0, ""), "{}", said.out);
        let locked = "  door      locked";
        let doors = [locked, locked, locked, locked, "  door      unlocked"];
        assert_eq!(told(&said, &["door"]), doors);
        let (mode, blocks) = match device {
            "stream" => ("00", "40 00 FA 00 80 00 00  .........@......"),
            _ => ("02", "01 00 FA 00 80 00 00  ................"),
        };
        let page = |door| format!("            {mode} 00 {door} 00 01 F4 00 00 00 {blocks}");
        said.has_lines(&[&page("0B"), &page("09")]);
    }
}

#[test]
fn the_lock_stays_with_the_record() {
    let place = place();
    let kept = ["--record", "r", "--any-answer"];
    for device in ["stream", "floppy"] {
        let run = |lines: &[&str]| {
            let said = script(&place, device, &kept, lines);
            assert_eq!((said.status, said.err.as_str()), (0, ""), "{}", said.out);
            (said, place.read("r")[4])
        };
        assert_eq!(run(&[READY, LOCK]).1, 3);
        let (stopped, byte_4) = run(&[UNLOAD]);
        stopped.has_lines(&STOPPED);
        assert_eq!(byte_4, 3);
        assert_eq!(run(&[UNLOCK]).1, 1);
        assert_eq!(run(&[UNLOAD]).1, 0);
        let fresh = script(&place, device, &[], &[UNLOAD]);
        assert_eq!(fresh.status, 0, "a run without a record begins unlocked");
        std::fs::remove_file(place.path("r")).expect("the record");
    }
}

/// Reserved bits beside it are not looked at and are gone afterwards.
#[test]
fn a_record_with_every_reserved_bit() {
    let place = place();
    for (before, door, after) in [(0xFD, &[][..], 1), (0xFE, &["  door      locked"], 2)] {
        place.write("r", [0, 0, 0, 0, before, 0, 0, 250, 0, 0, 0, 0, 0, 0, 0, 0]);
        let said = script(&place, "stream", &["--record", "r"], &[PAGE_2A]);
        assert_eq!(told(&said, &["door"]), door);
        assert_eq!(place.read("r")[4], after);
    }
}

/// "kept through a cartridge change".
#[test]
fn a_change_keeps_the_lock_and_says_so() {
    let place = place();
    for (device, tape) in [("stream", ""), ("floppy", ", tape parameters set back")] {
        let changed = format!("the cartridge was changed: position 0{tape}, attention pending");
        let said = script(
            &place,
            device,
            &[],
            &["change", READY, LOCK, "change", UNLOAD, UNLOAD],
        );
        assert_eq!(said.status, 3, "{}", said.err);
        said.has_lines(&[
            &changed,
            &format!("{changed}, still locked"),
            "  door      locked",
            "  sense     UNIT ATTENTION: cartridge changed (6/28/00)",
            "  door      locked",
            "  sense     ILLEGAL REQUEST: medium removal prevented (5/53/02)",
        ]);
    }
}

/// "1Eh has no not-ready check", and the lock stops an unload there too.
#[test]
fn a_drive_that_is_not_loaded() {
    let place = place();
    for device in ["stream", "floppy"] {
        let said = script(&place, device, &[], &[UNLOAD, LOCK, UNLOAD, LOAD, READY]);
        assert_eq!((said.status, said.err.as_str()), (3, ""));
        said.has_lines(&STOPPED);
        let locked = "  door      locked";
        assert_eq!(told(&said, &["door"]), [locked; 4]);
        let statuses = ["0 GOOD", "0 GOOD", "2 CHECK CONDITION", "0 GOOD", "0 GOOD"];
        assert_eq!(
            told(&said, &["status"]),
            statuses.map(|s| format!("  status    {s}"))
        );
    }
}

/// An attention ends it as any other packet, and the answer says that nothing was locked.
#[test]
fn an_attention_leaves_the_door_as_it_was() {
    let place = place();
    for device in ["stream", "floppy"] {
        let said = script(&place, device, &["--cold"], &[LOCK, LOCK]);
        said.has_lines(&[
            "  door      unlocked",
            "  sense     UNIT ATTENTION: power on or reset (6/29/00)",
            "  door      locked",
            "  sense     NO SENSE: nothing to report (0/00/00)",
        ]);
    }
}

/// The pulse drive's record has as many bytes; with byte 4 as a lock leaves it, loaded or not, it does not take this one.
#[test]
fn a_locked_record_of_the_floppy_device_is_its_own() {
    let place = place();
    place.write("list", {
        let mut list = [0; 28];
        list[12..14].copy_from_slice(&[0x2B, 0x0E]);
        list
    });
    let no_blocks = "15 00 00 00 1c 00 00 00 00 00 00 00";
    for (lines, byte_4) in [
        (&[READY, LOCK][..], 3),
        (&[READY, UNLOAD, LOCK], 2),
        (&[READY, no_blocks, LOCK], 3),
        (&[READY, no_blocks, UNLOAD, LOCK], 2),
    ] {
        let kept = ["--record", "r", "--data", "list", "--any-answer"];
        assert_eq!(script(&place, "floppy", &kept, lines).status, 0);
        let record = place.read("r");
        assert_eq!(record[4], byte_4);
        for command in ["pulse", "recover"] {
            let said = place.run_with(&[command, "--record", "r"], b"6\n");
            assert_eq!(
                (said.status, place.read("r")),
                (1, record.clone()),
                "{command}"
            );
        }
        assert_eq!(script(&place, "floppy", &kept, &[UNLOCK]).status, 0);
        std::fs::remove_file(place.path("r")).expect("the record");
    }
}

#[test]
fn it_takes_no_data_and_is_in_the_help() {
    let place = place();
    place.write("d", [1; 512]);
    let bytes: Vec<&str> = LOCK.split(' ').collect();
    let words = ["packet", "t.img", "--data", "d"];
    place.run(&[&words[..], &bytes].concat()).is_bad(
        2,
        "--data is for WRITE and MODE SELECT; this packet takes no bytes; \
         see tapecard packet --help",
    );
    let help = place.run(&["packet", "--help"]);
    help.has_lines(&[
        "PREVENT/ALLOW MEDIUM REMOVAL (1E, byte 4 bit 0) locks the door or unlocks it.",
    ]);
}
