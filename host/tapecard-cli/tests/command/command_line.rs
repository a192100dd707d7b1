//! The general command line: help, version, unknown words.

use crate::common::Place;

const COMMANDS: [&str; 11] = [
    "new", "info", "put", "get", "list", "labels", "export", "import", "packet", "pulse", "recover",
];

#[test]
fn the_general_help_names_every_command() {
    let place = Place::new();
    for words in [&["--help"][..], &["-h"], &["help"]] {
        let said = place.run(words);
        assert_eq!((said.status, said.err.as_str()), (0, ""));
        for command in COMMANDS {
            assert!(said.out.contains(&format!("\n  {command} ")), "{command}");
        }
    }
}

#[test]
fn every_command_has_its_help() {
    let place = Place::new();
    for command in COMMANDS {
        let usage = format!("usage: tapecard {command} ");
        let said = place.run(&[command, "--help"]);
        assert_eq!((said.status, said.err.as_str()), (0, ""));
        assert!(said.out.starts_with(&usage), "{}", said.out);
        assert_eq!(place.run(&["help", command]).out, said.out);
        assert_eq!(place.run(&[command, "some", "-h", "word"]).out, said.out);
    }
}

#[test]
fn every_line_of_help_fits_a_terminal() {
    let place = Place::new();
    let general = place.run(&["help"]).out;
    let helps = COMMANDS.map(|command| place.run(&[command, "--help"]).out);
    assert!(helps.iter().all(|help| help.lines().count() > 3));
    for line in general.lines().chain(helps.iter().flat_map(|h| h.lines())) {
        assert!(line.chars().count() <= 80, "{line}");
    }
}

#[test]
fn no_command() {
    let said = Place::new().run(&[]);
    assert_eq!(said.status, 2);
    assert_eq!(said.err, "tapecard: no command is given\n");
    assert!(said.out.contains("usage: tapecard COMMAND"));
}

#[test]
fn an_unknown_command() {
    Place::new().run(&["rewind"]).is_bad(
        2,
        "there is no command rewind: the commands are new, info, put, get, list, labels, export, import, packet, pulse, \
         recover; see tapecard --help",
    );
}

/// Command lines with a wrong word, and what is said of each.
const WRONG_WORDS: [(&[&str], &str); 24] = [
    (
        &["info", "--fast", "t"],
        "there is no option --fast; see tapecard info --help",
    ),
    (&["info"], "the image is missing; see tapecard info --help"),
    (
        &["info", "a", "b"],
        "b is one word too many; see tapecard info --help",
    ),
    (
        &["new"],
        "the name of the image is missing; see tapecard new --help",
    ),
    (&["put"], "the image is missing; see tapecard put --help"),
    (
        &["put", "t"],
        "the file to put is missing; see tapecard put --help",
    ),
    (
        &["get", "t"],
        "the number of the file is missing; see tapecard get --help",
    ),
    (
        &["get", "t", "1", "-o"],
        "-o needs a value; see tapecard get --help",
    ),
    (&["list"], "the image is missing; see tapecard list --help"),
    (
        &["labels", "--csv"],
        "the image is missing; see tapecard labels --help",
    ),
    (
        &["labels", "a", "b", "--csv"],
        "b is one word too many; see tapecard labels --help",
    ),
    (
        &["labels", "t", "--tsv"],
        "there is no option --tsv; see tapecard labels --help",
    ),
    (
        &["labels", "t", "--csv=yes"],
        "--csv takes no value; see tapecard labels --help",
    ),
    (
        &["labels", "t", "--csv", "--csv"],
        "--csv is given twice; see tapecard labels --help",
    ),
    (
        &["export"],
        "the image is missing; see tapecard export --help",
    ),
    (
        &["export", "t"],
        "the file to write is missing; see tapecard export --help",
    ),
    (
        &["export", "a", "b", "c"],
        "c is one word too many; see tapecard export --help",
    ),
    (
        &["export", "t", "f", "--blocks", "5"],
        "there is no option --blocks; see tapecard export --help",
    ),
    (
        &["import"],
        "the SIMH tape file is missing; see tapecard import --help",
    ),
    (
        &["import", "f"],
        "the image is missing; see tapecard import --help",
    ),
    (
        &["import", "a", "b", "c"],
        "c is one word too many; see tapecard import --help",
    ),
    (
        &["packet"],
        "the image is missing; see tapecard packet --help",
    ),
    (
        &["pulse", "6"],
        "6 is one word too many; see tapecard pulse --help",
    ),
    (
        &["recover", "now"],
        "now is one word too many; see tapecard recover --help",
    ),
];

#[test]
fn unknown_options_and_words_too_many_or_missing() {
    let place = Place::new();
    for (words, sentence) in WRONG_WORDS {
        place.run(words).is_bad(2, sentence);
    }
}

#[test]
fn the_version() {
    let place = Place::new();
    for word in ["--version", "-V", "version"] {
        let said = place.run(&[word]);
        assert!(said.out.starts_with("tapecard "), "{}", said.out);
        assert_eq!((said.status, said.err.as_str()), (0, ""));
        place
            .run(&[word, "now"])
            .is_bad(2, "now is one word too many; see tapecard --help");
    }
}

#[test]
fn help_of_help() {
    let place = Place::new();
    let general = place.run(&["help"]).out;
    for words in [
        &["help", "help"][..],
        &["help", "--help"],
        &["help", "version"],
    ] {
        place.run(words).is_good(&general);
    }
    place
        .run(&["help", "new", "info"])
        .is_bad(2, "info is one word too many; see tapecard --help");
}

/// Command lines with an option that would do nothing, and what is said of each.
const IDLE_OPTIONS: [(&str, &str); 17] = [
    (
        "packet t.img --record r16 --cold",
        "--cold is for a drive just switched on, and --record names one that is on already",
    ),
    ("pulse --record r32 --vendor 5", SWITCHED_ON),
    ("pulse --record r32 --rom 5", SWITCHED_ON),
    (
        "packet t.img --room 5",
        "--room goes with a packet on the command line",
    ),
    (
        "packet t.img --room 512 0a",
        "--room is for a packet that returns bytes; this one takes them from --data",
    ),
    (
        "packet t.img --data t 08",
        "--data is for WRITE and MODE SELECT; this packet takes no bytes",
    ),
    (
        "packet t.img --room many 08",
        "--room takes a number from 0 to 67108864, not many",
    ),
    ("packet t.img --force", NOTHING_TO_REPLACE),
    ("packet t.img --force --out -", NOTHING_TO_REPLACE),
    (
        "get t.img 1 --force -o -",
        "--force has nothing to replace with -o -",
    ),
    (
        "get t.img 1 --raw",
        "--raw looks at no name: say where to write with -o FILE",
    ),
    (
        "export t.img - --force",
        "--force has nothing to replace on standard output",
    ),
    (
        "import f t.img --blocks 9",
        "--blocks is for an image that is made, and t.img is there already",
    ),
    (
        "import f t.img --block-size 512",
        "--block-size is for an image that is made, and t.img is there already",
    ),
    (
        "import f t.img --early-warning 1",
        "--early-warning is for an image that is made, and t.img is there already",
    ),
    (
        "import f t.img --medium 1",
        "--medium is for an image that is made, and t.img is there already",
    ),
    (
        "import f t.img --protect",
        "--protect is for an image that is made, and t.img is there already",
    ),
];
const SWITCHED_ON: &str =
    "--vendor and --rom are for a drive switched on, and --record names one that is on already";
const NOTHING_TO_REPLACE: &str = "--force has nothing to replace without --out FILE";

/// An option that would do nothing is no option.
#[test]
fn options_that_go_with_nothing() {
    let place = Place::with_image(8, &[]);
    place.write("r16", [0, 0, 0, 0, 1, 0, 0, 0, 0, 0, 0, 0, 0, 0, 0, 0]);
    assert_eq!(place.run(&["pulse", "--record", "r32"]).status, 0);
    for (line, sentence) in IDLE_OPTIONS {
        let words: Vec<&str> = line.split(' ').collect();
        let see = format!("{sentence}; see tapecard {} --help", words[0]);
        place.run(&words).is_bad(2, &see);
    }
    assert_eq!(place.names(), ["r16", "r32", "t.img"]);
}

#[test]
fn a_missing_image_is_said_by_every_command() {
    let place = Place::new();
    for words in [
        &["info", "no.img"][..],
        &["list", "no.img"],
        &["labels", "no.img"],
        &["labels", "no.img", "--csv"],
        &["put", "no.img", "f"],
        &["get", "no.img", "1"],
        &["export", "no.img", "f.tap"],
        &["packet", "no.img", "00"],
    ] {
        place.run(words).is_bad(
            1,
            "the image no.img could not be read: there is no such file or directory; tapecard new makes one",
        );
    }
}
