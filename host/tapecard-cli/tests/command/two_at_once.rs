//! Two runs on one image, and other programs that change it meanwhile: nothing is lost.

use std::fs;
use std::thread;
use std::time::Duration;

use crate::common::{Place, Running};

const WRITE: &[u8] = b"0a01 00 00 01 00 00 00 00 00 00 00\n";
const WAITING: &str =
    "tapecard: t.img is in use by another run of tapecard; waiting up to 5 seconds for it\n";

/// A cartridge `t.img` and a block of data `d`.
fn place() -> Place {
    let place = Place::with_image(400, &["--early-warning", "0"]);
    place.write("d", [7; 512]);
    place
}

/// A session that has answered its first line, so that it holds the image.
fn session(place: &Place) -> Running {
    let mut session = place.start(&["packet", "t.img", "--data", "d"]);
    session.send(b"00 00 00 00 00 00 00 00 00 00 00 00\n");
    session.hear("sense     NO SENSE");
    session
}

#[test]
fn puts_at_once_are_all_kept() {
    let place = place();
    let names: Vec<String> = (0..8).map(|n| format!("glyphs-{n}")).collect();
    for name in &names {
        place.write(name, name.repeat(200));
    }
    let running: Vec<Running> = names
        .iter()
        .map(|name| place.start(&["put", "t.img", name]))
        .collect();
    for run in running {
        let said = run.end();
        assert_eq!(said.status, 0, "{}", said.err);
    }
    let list = place.run(&["list", "t.img"]).out;
    for name in &names {
        assert!(list.contains(name), "{name} is lost:\n{list}");
    }
}

#[test]
fn packets_at_once_are_all_kept() {
    let place = place();
    let script = b"11 03 00 00 00 00 00 00 00 00 00 00\n0a01 00 00 01 00 00 00 00 00 00 00\nquit\n";
    let mut running: Vec<Running> = (0..8)
        .map(|_| place.start(&["packet", "t.img", "--data", "d"]))
        .collect();
    for run in &mut running {
        run.send(script);
    }
    for run in running {
        let said = run.end();
        assert_eq!(said.status, 0, "{}", said.err);
    }
    assert_eq!(place.read("t.img")[8..12], [0, 0, 0, 8]);
}

#[test]
fn one_of_several_makes_a_file() {
    let place = Place::new();
    let running: Vec<Running> = (0..8)
        .map(|n| {
            place.start(&[
                "new",
                "n.img",
                "--blocks",
                "20000",
                "--medium",
                &n.to_string(),
            ])
        })
        .collect();
    let said: Vec<_> = running.into_iter().map(Running::end).collect();
    let made = said.iter().filter(|said| said.status == 0).count();
    assert_eq!(made, 1, "one made it, and it stays as that one made it");
    let refused = said.iter().filter(|said| said.status == 1);
    let kept =
        |err: &str| err.contains("there already") || err.contains("made a file of this name");
    assert!(refused.map(|said| &said.err).all(|err| kept(err)));
    assert_eq!(place.names(), ["n.img"]);
}

#[test]
fn an_image_in_use_is_waited_for() {
    let place = place();
    let mut session = session(&place);
    let mut put = place.start(&["put", "t.img", "d"]);
    put.hear_error(WAITING);
    session.send(WRITE);
    assert_eq!(session.end().status, 0);
    put.end().is_good(
        "closed file 1, which had no filemark\nput d as file 2: 512 bytes in 2 blocks at place 2\n",
    );
}

#[test]
fn an_image_that_stays_in_use_is_refused() {
    let place = place();
    let session = session(&place);
    let before = place.read("t.img");
    let put = place.start(&["put", "t.img", "d"]);
    let new = place.start(&["new", "t.img", "--force"]);
    for run in [put, new] {
        let said = run.end();
        let refused = "tapecard: t.img is still in use by another run of tapecard; nothing was changed. Try again when \
                       that has ended\n";
        assert_eq!(said.err, format!("{WAITING}{refused}"));
        assert_eq!((said.status, said.out.as_str()), (1, ""));
    }
    assert_eq!(place.read("t.img"), before);
    session.end();
}

/// Reading needs no lock: the file is whole at every time.
#[test]
fn an_image_in_use_can_be_read() {
    let place = place();
    let session = session(&place);
    for command in ["list", "labels"] {
        place
            .run(&[command, "t.img"])
            .is_good("t.img holds no files\n");
    }
    session.end();
}

#[test]
fn an_image_that_another_program_changed_is_not_replaced() {
    for replace in [false, true] {
        let place = place();
        let mut session = session(&place);
        let mut other = place.read("t.img");
        other[40] = 1;
        if replace {
            place.write("other", &other);
            fs::rename(place.path("other"), place.path("t.img")).unwrap();
        } else {
            thread::sleep(Duration::from_millis(20));
            place.write("t.img", &other);
        }
        session.send(WRITE);
        let said = session.end();
        assert_eq!(said.status, 1);
        assert_eq!(
            said.err,
            "tapecard: t.img could not be written: another program has changed or replaced it since it was read; what \
             was sent since the last answer is not kept\n"
        );
        assert!(!said.out.contains("WRITE"), "{}", said.out);
        assert_eq!(place.read("t.img"), other);
    }
}

#[test]
fn a_record_in_use_is_waited_for() {
    let place = Place::new();
    let words = ["pulse", "--record", "r"];
    assert_eq!(place.run_with(&words, b"tick\n").status, 0);
    let mut first = place.start(&words);
    first.hear("by no command");
    let mut second = place.start(&words);
    second.send(b"insert segments=9 tracks=2\n");
    second.hear_error(
        "tapecard: r is in use by another run of tapecard; waiting up to 5 seconds for it\n",
    );
    first.send(b"ask 7\n");
    assert_eq!(first.end().status, 0);
    let said = second.end();
    assert_eq!((said.status, said.err.as_str()), (0, ""));
    said.has_lines(&["drive    no cartridge; no error"]);
}
