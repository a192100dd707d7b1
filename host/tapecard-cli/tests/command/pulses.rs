//! `pulse` and `recover`: sessions with the pulse drive.

use crate::common::{Dice, Place};

const INSERT: &str = "insert segments=207 tracks=28 place=40 burst format=2 type=2\n";

#[test]
fn a_fresh_drive_tells_its_power_on() {
    Place::new().run_with(&["pulse"], b"7\n2 x17\n").is_good(
        "\
drive    no cartridge; error 26, power on reset occurred, by no command
7        level 1  report error code
         report open: send 2 x17
         the error is cleared
2 x17    levels 0 1 0 1 1 0 0 0 0 0 0 0 0 0 0 0 1  report next bit
         error 26, power on reset occurred, by no command
",
    );
}

#[test]
fn the_bits_of_every_report_are_explained() {
    let session = format!("{INSERT}wait 207\nask 6\nask 7\nask 8\nask 9\nask 32\nask 33\n");
    let said = Place::new().run_with(
        &["pulse", "--vendor", "0x8002", "--rom", "129"],
        session.as_bytes(),
    );
    assert_eq!((said.status, said.err.as_str()), (0, ""));
    said.has_lines(&[
        "waited 40 ticks",
        "ask 6    levels 1 1 1 0 1 1 1 0 1  report drive status",
        "         ready: yes",
        "         error held: yes",
        "         new cartridge: yes",
        "         at beginning of tape: yes",
        "ask 7    levels 0 1 0 1 1 0 0 0 0 0 0 0 0 0 0 0 1  report error code",
        "         error 26, power on reset occurred, by no command",
        "         the new-cartridge mark is cleared",
        "ask 8    levels 0 0 0 0 1 0 1 1 1  report drive configuration",
        "         rate 2: 500 Kbps",
        "         extra length tape: yes",
        "ask 9    levels 1 0 0 0 0 0 0 1 1  report ROM version",
        "         ROM version 1, beta",
        "         vendor ID 32770 (8002h)",
        "         tape format 2: QIC-80",
        "         tape type 2: 307.5 ft. 550 Oe (XL)",
        "         wide tape: no",
    ]);
}

#[test]
fn a_skip_with_its_arguments_moves_the_tape() {
    let session = format!("{INSERT}wait 207\nask 6\nask 7\n35 14 3 2\ntick 5\n10\n26 9\nstate\n");
    let said = Place::new().run_with(&["pulse"], session.as_bytes());
    said.has_lines(&[
        "35       level 1  skip segments extended forward",
        "         35, skip segments extended forward, waits for 3 arguments",
        "14       level 1  argument 1 of 35, value 12",
        "2        level 1  argument 3 of 35, value 0",
        "         moving from 0 to 28 of 207, 28 ticks left",
        "tick x5",
        "         moving from 5 to 28 of 207, 23 ticks left; track 0; referenced; no error",
        "10       level 1  logical forward",
        "         now held: error 1, command received while drive not ready, by command 10, logical forward",
        "         still at 5 of 207",
        "26       level 1  skip segments forward",
        "         not obeyed: an error is held; ask 7 tells and clears it",
        "         cartridge  207 segments and 28 tracks, format 2 (QIC-80), type 2 (307.5 ft. 550 Oe (XL)), reference burst",
        "         tape       still at 5 of 207",
        "         arguments  none waited for",
    ]);
}

#[test]
fn an_ignored_train_in_a_report_repeats_the_last_level() {
    let said = Place::new().run_with(&["pulse"], b"7\n2 x2\n36\n2 x2\n2 x14\n");
    said.has_lines(&[
        "36       level 1  no command of this drive",
        "         ignored: the next 2 repeats the last level",
        "2 x2     levels 1 0  report next bit",
        "         the last level once more",
        "2 x14    levels 1 1 0 0 0 0 0 0 0 0 0 0 0 1  report next bit",
        "         error 26, power on reset occurred, by no command",
    ]);
}

#[test]
fn refused_calls_are_told_and_the_session_goes_on() {
    let session = format!("0\nremove\ninsert segments=0 tracks=1\n{INSERT}{INSERT}state\n");
    let said = Place::new().run_with(&["pulse"], session.as_bytes());
    assert_eq!(said.status, 1);
    assert_eq!(
        said.err,
        "tapecard: 4 calls refused; a refused call changes nothing\n"
    );
    said.has_lines(&[
        "0        refused, 5: a train of 0 pulses, train 1 of the line; nothing of the line was sent. Give it 1 to 65535 pulses, \
         or leave it out",
        "remove   refused, 7: insertion with a cartridge in, or removal with none; nothing changed",
        "insert   refused, 6: cartridge description outside its ranges; nothing changed",
        "insert   refused, 7: insertion with a cartridge in, or removal with none; nothing changed",
        "         tape       loading from 40 to 0 of 207, 40 ticks left",
    ]);
}

/// Lines that no session takes, and what is said of each.
const BAD_LINES: [(&str, &str); 8] = [
    ("dance", "\"dance\" is no line of a pulse session"),
    (
        "train 70000",
        "\"70000\" is no train: a train has up to 65535 pulses",
    ),
    ("2 x0", "\"0\" is no number of times from 1 to 65535"),
    (
        "tick soon",
        "\"soon\" is no number of times from 1 to 65535",
    ),
    ("wait", "say how long to wait at most, as in wait 4095"),
    (
        "insert tracks=2",
        "say at least segments and tracks, as in insert segments=207 tracks=28 place=40 burst",
    ),
    (
        "insert segments=9 tracks=2 colour=red",
        "\"colour=red\" describes no cartridge",
    ),
    (
        "insert segments=9 tracks=256",
        "\"tracks=256\" has no number that fits",
    ),
];

#[test]
fn bad_lines_end_a_script_and_what_was_answered_is_kept() {
    let place = Place::new();
    for (line, sentence) in BAD_LINES {
        let said = place.run_with(
            &["pulse", "--record", "r"],
            format!("6\n{line}\n").as_bytes(),
        );
        assert_eq!(said.status, 1);
        said.has_lines(&["6        level 1  report drive status"]);
        assert_eq!(place.read("r")[17], 9, "the report is open");
        std::fs::remove_file(place.path("r")).unwrap();
        assert_eq!(
            said.err,
            format!(
                "tapecard: line 2: {sentence}; type help for what there is; the script ends here, and what the lines \
                 before it did is kept\n"
            )
        );
    }
    let said = place.run_with(&["pulse"], b"ask 10\n");
    assert_eq!(
        said.err,
        "tapecard: line 1: 10 asks for no report: say 6, 7, 8, 9, 32 or 33; the script ends here, and what the lines \
         before it did is kept\n"
    );
}

#[test]
fn the_record_is_kept_between_runs() {
    let place = Place::new();
    let pulse = ["pulse", "--record", "r"];
    assert_eq!(
        place
            .run_with(&pulse, format!("{INSERT}tick 3\n").as_bytes())
            .status,
        0
    );
    assert_eq!(place.read("r").len(), 32);
    place.run_with(&pulse, b"quit\nnever read").is_good(
        "drive    loading from 37 to 0 of 207, 37 ticks left; track 0; new cartridge; error 26, power on reset occurred, \
         by no command\n",
    );
    place.write("r", [0; 31]);
    place.run(&pulse).is_bad(
        1,
        "r has 31 bytes and a record of the pulse drive has 32; name another file, or remove it to start afresh",
    );
}

#[test]
fn a_lost_drive_is_brought_back() {
    let place = Place::new();
    let lost =
        format!("{INSERT}wait 207\nask 6\nask 7\n26 7 4\nwait 99\n14\ntick 10\n10\n7\n2 x5\n");
    assert_eq!(
        place
            .run_with(&["pulse", "--record", "r"], lost.as_bytes())
            .status,
        0
    );
    let said = place.run(&["recover", "--record", "r"]);
    assert_eq!((said.status, said.err.as_str()), (0, ""));
    let held = "error 1, command received while drive not ready, by command 10, logical forward";
    said.has_lines(&[
        &format!("before      loading from 27 to 0 of 207, 27 ticks left; track 0; referenced; report open, 12 items left; {held}"),
        &format!("207 ticks   still at 0 of 207; track 0; referenced; report open, 12 items left; {held}"),
        "trains  pulses  level  meaning",
        "    12       2      1  final 1: the report is closed",
        " 13-18       2      1  no report is open: nothing happens",
        "    19       6      1  report drive status: acknowledged",
        "    20       2      1  ready: yes",
        "    28       2      1  final 1: the report is closed",
        "    29       7      1  report error code: acknowledged",
        "    30       2      1  error number, bit 0: 1",
        "    39       2      1  its command, bit 1: 1",
        "    41       2      1  its command, bit 3: 1",
        "    46       2      1  final 1: the report is closed",
        &format!("held        {held}"),
        "after       still at 0 of 207; track 0; referenced; no error",
        "the drive is back: ready, no error, no new-cartridge mark, no open report",
    ]);
    place
        .run(&["pulse", "--record", "r"])
        .is_good("drive    still at 0 of 207; track 0; referenced; no error\n");
}

#[test]
fn recovery_without_a_record_shows_a_drive_just_switched_on() {
    let said = Place::new().run(&["recover"]);
    assert_eq!((said.status, said.err.as_str()), (0, ""));
    said.has_lines(&[
        "0 ticks     no cartridge; error 26, power on reset occurred, by no command",
        "held        error 26, power on reset occurred, by no command",
        "after       no cartridge; no error",
    ]);
}

#[test]
fn a_record_that_breaks_the_rules() {
    let place = Place::new();
    place.write("r", [0xFF; 32]);
    let said = place.run(&["recover", "--record", "r"]);
    assert_eq!(said.status, 1);
    assert_eq!(
        said.err,
        "tapecard: the record is none that this drive can have (refusal 8: pulse record breaks the record rules); name \
         another with --record, or remove the file to start from power-on\n"
    );
    assert_eq!(place.read("r"), [0xFF; 32]);
    let said = place.run_with(&["pulse", "--record", "r"], b"6\nwait 9\nask 6\n");
    said.has_lines(&[
        "6        refused, 8: pulse record breaks the record rules; nothing of the line was sent. Name another record with \
         --record, or remove the file to start from power-on",
        "wait     refused, 8: pulse record breaks the record rules; nothing changed",
    ]);
}

/// Random lines, records and trains: an answer, a refusal or a sentence, never a crash.
#[test]
fn random_sessions() {
    let place = Place::new();
    let mut dice = Dice(3);
    for round in 0..24 {
        let mut session = String::from(if round % 2 == 0 { INSERT } else { "" });
        for _ in 0..80 {
            let line = match dice.throw(8) {
                0 => format!("tick {}\n", dice.throw(60) + 1),
                1 => format!("2 x{}\n", dice.throw(20) + 1),
                2 => "wait 300\n".into(),
                3 => "state\n".into(),
                _ => format!("{}\n", dice.throw(40)),
            };
            session.push_str(&line);
        }
        place.write("r", dice.bytes(32));
        let record = if round % 3 == 0 { "r" } else { "kept" };
        let said = place.run_with(&["pulse", "--record", record], session.as_bytes());
        assert!(said.status <= 1, "{}", said.err);
        let said = place.run(&["recover", "--record", record]);
        assert!(
            record == "r" || said.status == 0,
            "{}{}",
            said.out,
            said.err
        );
        let noise = dice.bytes(200);
        assert!(place.run_with(&["pulse"], &noise).status <= 1);
    }
}
