//! Runs that are interrupted or killed: nothing that was answered is lost, and nothing is left lying about.

use std::thread;
use std::time::Duration;

use crate::common::{Place, Running, Said};

const WRITE: &[u8] = b"0a01 00 00 01 00 00 00 00 00 00 00\n";
const PART: &str = ".tapecard-";

/// A packet session that has answered a WRITE.
fn written(place: &Place) -> Running {
    place.write("d", [7; 512]);
    let mut session = place.start(&["packet", "t.img", "--data", "d"]);
    session.send(WRITE);
    session.hear("position  1\n");
    session
}

fn parts(place: &Place) -> Vec<String> {
    let names = place.names();
    names.into_iter().filter(|n| n.contains(".part")).collect()
}

#[test]
fn what_a_packet_stored_is_kept_before_it_is_answered() {
    for (signal, number) in [("INT", 2), ("TERM", 15), ("HUP", 1), ("KILL", 9)] {
        let place = Place::with_image(8, &["--early-warning", "0"]);
        let session = written(&place);
        let said = session.end_by(signal);
        assert_eq!(said.status, -number, "{}", said.err);
        if number != 9 {
            assert_eq!(
                said.err,
                "tapecard: interrupted; what was done before is kept in t.img\n"
            );
        }
        assert_eq!(place.read("t.img")[8..12], [0, 0, 0, 1], "{signal}");
        assert_eq!(place.names(), ["d", "t.img"]);
    }
}

#[test]
fn what_a_pulse_line_changed_is_kept_before_it_is_answered() {
    for signal in ["INT", "KILL"] {
        let place = Place::new();
        let mut session = place.start(&["pulse", "--record", "r"]);
        session.send(b"insert segments=9 tracks=2 place=5\n");
        session.hear("loading from 5");
        assert!(session.end_by(signal).status < 0);
        place.run(&["pulse", "--record", "r"]).has_lines(&[
            "drive    loading from 5 to 0 of 9, 5 ticks left; track 0; new cartridge; error 26, power on reset occurred, \
             by no command",
        ]);
    }
}

#[test]
fn an_interrupt_that_changed_nothing_says_so() {
    let place = Place::with_image(8, &[]);
    let mut session = place.start(&["packet", "t.img"]);
    session.send(b"00 00 00 00 00 00 00 00 00 00 00 00\n");
    session.hear("NO SENSE");
    assert_eq!(
        session.end_by("INT").err,
        "tapecard: interrupted; nothing was changed\n"
    );
}

/// A signal that whoever started the run has set to be ignored stays ignored.
#[test]
fn nohup_is_honoured() {
    let ready = b"00 00 00 00 00 00 00 00 00 00 00 00\n";
    let place = Place::with_image(8, &[]);
    let mut session = place.start_shell("trap '' HUP; exec $TAPECARD packet t.img");
    session.send(ready);
    session.hear("NO SENSE");
    session.signal("HUP");
    thread::sleep(Duration::from_millis(300));
    session.send(ready);
    session.hear("NO SENSE");
    let said = session.end();
    assert_eq!((said.status, said.err.as_str()), (0, ""));
}

/// Standard error is a pipe that is full: the sentence cannot be said, and the run ends all the same.
#[test]
fn a_signal_ends_a_run_whose_words_nobody_reads() {
    let place = Place::with_image(8, &[]);
    let mut session = place.start(&["packet", "t.img", "--out", "-"]);
    session.send(&b"12 00 00 00 24 00 00 00 00 00 00 00\n".repeat(1000));
    session.hear("TYPEHAUS");
    let ended = session.ends_unread_by("TERM");
    session.end();
    assert!(ended);
}

/// Puts onto the largest cartridge, which takes a while, and ends that by a signal while the new image is being written.
fn ended_while_writing(place: &Place, signal: &str) -> Said {
    for _ in 0..20 {
        let put = place.start(&["put", "t.img", "f"]);
        for _ in 0..10_000 {
            if !parts(place).is_empty() {
                break;
            }
            thread::sleep(Duration::from_micros(200));
        }
        let said = put.end_by(signal);
        if said.status < 0 {
            return said;
        }
    }
    panic!("the command was never ended by {signal}");
}

fn large() -> Place {
    let place = Place::new();
    place.run(&["new", "t.img", "--blocks", "65535"]);
    place.write("f", "glyphs");
    place
}

#[test]
fn no_unfinished_file_stays_after_a_signal() {
    let place = large();
    for signal in ["INT", "TERM", "HUP"] {
        let said = ended_while_writing(&place, signal);
        assert_eq!(parts(&place), [""; 0], "{signal}");
        assert_eq!(said.err, "tapecard: interrupted; nothing was changed\n");
        assert_eq!(place.run(&["list", "t.img"]).status, 0);
    }
}

#[test]
fn a_part_that_a_killed_run_left_is_removed() {
    let place = large();
    for _ in 0..20 {
        ended_while_writing(&place, "KILL");
        if !parts(&place).is_empty() {
            break;
        }
    }
    let left = parts(&place);
    assert!(left.len() == 1 && left[0].starts_with(PART), "{left:?}");
    let said = place.run(&["put", "t.img", "f"]);
    assert_eq!((said.status, said.err.as_str()), (0, ""));
    assert_eq!(place.names(), ["f", "t.img"]);
}

/// Files that are named as an older build of the command named its parts are in nobody's way.
#[test]
fn a_file_with_the_number_of_this_process_is_in_nobodys_way() {
    let place = Place::with_image(8, &[]);
    place.write("f", "glyphs");
    let said = place.shell("echo dear > t.img.$$.part; exec $TAPECARD put t.img f");
    assert_eq!((said.status, said.err.as_str()), (0, ""));
    let left = parts(&place);
    assert_eq!(place.read(&left[0]), b"dear\n");
}
