//! A line of trains is one exchange (02, A5): it is sent by one call, whole or not at all. So is the recovery.

use crate::common::{Dice, Place, Said};

const INSERT: &str = "insert segments=207 tracks=28 place=40 burst format=2 type=2\n";
const PULSE: [&str; 3] = ["pulse", "--record", "r"];
const POWER_ON: &str = "drive    no cartridge; error 26, power on reset occurred, by no command\n";

/// A referenced drive at rest that holds no error.
fn at_rest() -> Place {
    let place = Place::new();
    let lines = format!("{INSERT}wait 207\nask 6\nask 7\n");
    assert_eq!(place.run_with(&PULSE, lines.as_bytes()).status, 0);
    place
}

/// The levels that a session showed, in their order.
fn levels(said: &Said) -> Vec<String> {
    let bits = |line: &str| {
        let (_, shown) = line.split_once(" level")?;
        let (bits, _) = shown.trim_start_matches('s').split_once("  ")?;
        Some(
            bits.split_whitespace()
                .map(String::from)
                .collect::<Vec<_>>(),
        )
    };
    said.out.lines().filter_map(bits).flatten().collect()
}

/// Lines with a 0, and which of their trains it is.
const WITH_A_0: [(&str, u32); 8] = [
    ("0", 1),
    ("0 6 2 x9", 1),
    ("6 0 2 x9", 2),
    ("35 14 0 3", 3),
    ("6 2 x9 0", 11),
    ("2 x18 0 x2", 19),
    ("1 10 0 0", 3),
    ("7 2 36 2 x16 0", 20),
];

#[test]
fn a_line_with_a_train_of_0_pulses_is_not_sent_at_all() {
    let place = at_rest();
    let before = place.read("r");
    for (line, number) in WITH_A_0 {
        for line_as_typed in [format!("{line}\n"), format!("train {line}\n")] {
            let said = place.run_with(&PULSE, line_as_typed.as_bytes());
            assert_eq!(place.read("r"), before, "{line_as_typed}");
            let refused = format!(
                "{line:<8} refused, 5: a train of 0 pulses, train {number} of the line; nothing of the line was sent. Give it \
                 1 to 65535 pulses, or leave it out\n"
            );
            let drive = "drive    still at 0 of 207; track 0; referenced; no error\n";
            assert_eq!(said.out, format!("{drive}{refused}"));
            assert_eq!(
                (said.status, said.err.as_str()),
                (
                    1,
                    "tapecard: 1 call refused; a refused call changes nothing\n"
                )
            );
        }
    }
}

/// A record that is not there yet is begun as a drive just switched on, which a refused line leaves.
#[test]
fn lines_around_a_refused_one_are_sent() {
    let (place, without) = (Place::new(), Place::new());
    let said = place.run_with(&PULSE, b"7\n2 x3 0 2\n2 x2\n0\n");
    assert_eq!(said.status, 1);
    assert_eq!(
        said.err,
        "tapecard: 2 calls refused; a refused call changes nothing\n"
    );
    assert_eq!(levels(&said), ["1", "0", "1"]);
    without.run_with(&PULSE, b"7\n2 x2\n");
    assert_eq!(place.read("r"), without.read("r"));
}

/// Some trains, each with how often it is sent.
fn some_trains(dice: &mut Dice) -> Vec<(u64, usize)> {
    let known = [1, 2, 2, 3, 6, 7, 8, 10, 12, 13, 14, 26, 27, 33, 35, 36, 300];
    let group = |dice: &mut Dice| match dice.throw(3) {
        0 => (2, dice.throw(20) as usize + 1),
        1 => (dice.throw(40) + 1, 1),
        _ => (known[dice.throw(17) as usize], dice.throw(3) as usize + 1),
    };
    (0..dice.throw(7) + 1).map(|_| group(dice)).collect()
}

#[test]
fn a_line_gives_what_its_trains_give_on_lines_of_their_own() {
    let mut dice = Dice(5);
    for round in 0..40 {
        let start = ["", INSERT][round % 2];
        let (mut together, mut singly) = (String::from(start), String::from(start));
        let mut sent = 0;
        for _ in 0..12 {
            for (pulses, times) in some_trains(&mut dice) {
                together.push_str(&format!("{pulses} x{times} "));
                singly.push_str(&format!("{pulses}\n").repeat(times));
                sent += times;
            }
            let ticks = format!("tick {}\n", dice.throw(30) + 1);
            together.push_str(&format!("\n{ticks}"));
            singly.push_str(&ticks);
        }
        let (line, lines) = (Place::new(), Place::new());
        let of_line = line.run_with(&PULSE, together.as_bytes());
        let of_lines = lines.run_with(&PULSE, singly.as_bytes());
        assert_eq!((of_line.status, of_lines.status), (0, 0), "{together}");
        assert_eq!(line.read("r"), lines.read("r"), "{together}");
        assert_eq!(levels(&of_line), levels(&of_lines), "{together}");
        assert_eq!(levels(&of_line).len(), sent, "{together}");
    }
}

#[test]
fn a_report_that_is_asked_for_is_the_same_as_by_hand() {
    for (report, twos) in [(6, 9), (7, 17), (8, 9), (9, 9), (32, 17), (33, 9)] {
        let (asked, by_hand, on_a_line) = (at_rest(), at_rest(), at_rest());
        let ask = asked.run_with(&PULSE, format!("5\nask {report}\n").as_bytes());
        let hand = by_hand.run_with(&PULSE, format!("5\n{report}\n2 x{twos}\n").as_bytes());
        let line = on_a_line.run_with(&PULSE, format!("5\n{report} 2 x{twos}\n").as_bytes());
        assert_eq!(asked.read("r"), by_hand.read("r"), "{report}");
        assert_eq!(asked.read("r"), on_a_line.read("r"), "{report}");
        // By hand the train that opens the report has a line with a level of its own, after that of the 5.
        let items = levels(&hand).split_off(2);
        assert_eq!(levels(&ask).split_off(1), items, "{report}");
        assert_eq!(items.len(), twos, "{report}");
        assert_eq!(hand.out, line.out, "{report}");
        let (_, told_by_hand) = hand.out.split_once("report next bit\n").unwrap();
        assert!(ask.out.contains(told_by_hand), "{}", ask.out);
    }
}

#[test]
fn what_a_line_of_trains_changed_is_kept_before_it_is_answered() {
    let place = at_rest();
    let mut session = place.start(&PULSE);
    session.send(b"6 2 x3\n");
    session.hear("2 x3     levels");
    assert!(session.end_by("KILL").status < 0);
    assert_eq!(place.read("r")[17], 6, "items left of the report");
}

/// The drive to bring back, and lines that the recovery shows of it.
const LOST: [(&str, &[&str]); 5] = [
    (
        "",
        &[
            "before      no cartridge; error 26, power on reset occurred, by no command",
            "0 ticks     no cartridge; error 26, power on reset occurred, by no command",
            "  1-18       2      1  no report is open: nothing happens",
            "    22       2      0  cartridge in: no",
            "    31       2      1  error number, bit 1: 1",
            "held        error 26, power on reset occurred, by no command",
            "after       no cartridge; no error",
        ],
    ),
    (
        "insert segments=207 tracks=28 place=40 burst\nwait 207\nask 6\nask 7\n5\n",
        &[
            "207 ticks   still at 0 of 207; track 0; referenced; error 6, undefined or reserved command code, by command 5",
            "  1-18       2      1  no report is open: nothing happens",
            "    21       2      1  error held: yes",
            "    31       2      1  error number, bit 1: 1",
            "    32       2      1  error number, bit 2: 1",
            "    38       2      1  its command, bit 0: 1",
            "    40       2      1  its command, bit 2: 1",
            "held        error 6, undefined or reserved command code, by command 5",
            "after       still at 0 of 207; track 0; referenced; no error",
        ],
    ),
    (
        "7\n2 x3 36\n",
        &[
            "before      no cartridge; report open, 14 items left; no error",
            "     1       2      0  the last level once more, owed by the open report",
            "   2-3       2      1  a bit of the report that was left open",
            "  4-14       2      0  a bit of the report that was left open",
            "    15       2      1  final 1: the report is closed",
            " 16-18       2      1  no report is open: nothing happens",
            "    29       7      1  report error code: acknowledged",
            "held        no error",
            "after       no cartridge; no error",
        ],
    ),
    (
        "insert segments=3 tracks=2 burst\nask 6\nask 7\n35 14\n",
        &[
            "before      still at 0 of 3; track 0; referenced; 35, skip segments extended forward, waits for 2 arguments; no error",
            "3 ticks     still at 0 of 3; track 0; referenced; no error",
            "  1-18       2      1  no report is open: nothing happens",
            "    20       2      1  ready: yes",
            "held        no error",
            "after       still at 0 of 3; track 0; referenced; no error",
        ],
    ),
    (
        "insert segments=207 tracks=28 burst\nask 6\nask 7\n10\ntick 5\n",
        &[
            "before      moving from 5 to 207 of 207, 202 ticks left; track 0; referenced; no error",
            "207 ticks   still at 207 of 207; track 0; referenced; no error",
            "    27       2      1  at end of tape: yes",
            "held        no error",
            "after       still at 207 of 207; track 0; referenced; no error",
        ],
    ),
];

/// The levels of the recovery's trains, where lines that are alike share one.
fn recovery_levels(said: &Said) -> Vec<String> {
    let row = |line: &str| {
        let words: Vec<&str> = line.split_whitespace().collect();
        let (numbers, level) = (words.first()?, words.get(2)?);
        let (first, last) = numbers.split_once('-').unwrap_or((numbers, numbers));
        let (first, last): (usize, usize) = (first.parse().ok()?, last.parse().ok()?);
        Some(vec![String::from(*level); last + 1 - first])
    };
    let (_, rows) = said.out.split_once("meaning\n").expect("rows");
    let (rows, _) = rows.split_once("\n\n").expect("an end of the rows");
    rows.lines().filter_map(row).flatten().collect()
}

#[test]
fn a_recovery_by_one_call_is_the_recovery_train_by_train() {
    for (lines, shown) in LOST {
        let (place, by_hand) = (Place::new(), Place::new());
        for place in [&place, &by_hand] {
            assert_eq!(place.run_with(&PULSE, lines.as_bytes()).status, 0);
        }
        let segments = u16::from_be_bytes([place.read("r")[2], place.read("r")[3]]);
        let said = place.run(&["recover", "--record", "r"]);
        assert_eq!((said.status, said.err.as_str()), (0, ""), "{lines}");
        said.has_lines(shown);
        said.has_lines(&[
            "the drive is back: ready, no error, no new-cartridge mark, no open report",
        ]);

        let twos = |count| "2\n".repeat(count);
        let mut trains = format!("{}6\n{}7\n{}", twos(18), twos(9), twos(17));
        if segments > 0 {
            trains = format!("tick {segments}\n{trains}");
        }
        let hand = by_hand.run_with(&PULSE, trains.as_bytes());
        assert_eq!(place.read("r"), by_hand.read("r"), "{lines}");
        assert_eq!(recovery_levels(&said), levels(&hand), "{}", said.out);
        assert_eq!(levels(&hand).len(), 46);
    }
}

/// 8 comes before 5.
#[test]
fn a_record_that_breaks_the_rules_takes_no_list() {
    let place = Place::new();
    place.write("r", [0xFF; 32]);
    for line in ["6", "6 2 x9", "6 0", "0"] {
        let said = place.run_with(&PULSE, format!("{line}\n").as_bytes());
        let refused = format!(
            "{line:<8} refused, 8: pulse record breaks the record rules; nothing of the line was sent. Name another record with \
             --record, or remove the file to start from power-on"
        );
        said.has_lines(&[&refused]);
        assert_eq!(said.status, 1, "{line}");
        assert_eq!(place.read("r"), [0xFF; 32], "{line}");
    }
    let said = place.run(&["recover", "--record", "r"]);
    assert!(
        said.err
            .contains("refusal 8: pulse record breaks the record rules")
    );
    assert_eq!((said.status, said.out.as_str()), (1, ""));
    assert_eq!(place.read("r"), [0xFF; 32]);
}

#[test]
fn a_line_of_a_million_trains() {
    let place = Place::new();
    let many = "2 x65535 ".repeat(16);
    let said = place.run_with(&PULSE, format!("7\n{many}\n").as_bytes());
    assert_eq!((said.status, said.err.as_str()), (0, ""));
    let ones = "1 ".repeat(64);
    let all_ones = format!("2 x65535 levels {ones}and 65471 more  report next bit\n");
    assert_eq!(said.out.matches(&all_ones).count(), 15, "all but the first");
    assert!(said.out.contains("2 x65535 levels 0 1 0 1 1 0 0 0 "));

    let before = place.read("r");
    let said = place.run_with(&PULSE, format!("7 {many}0\n").as_bytes());
    let refused = "7 2 x65535 2 x65535 2 x65535 2 x65535 2 x65535 2 x65535 2 x65535 and 10 more refused, 5: a train of 0 pulses, \
                   train 1048562 of the line; nothing of the line was sent. Give it 1 to 65535 pulses, or leave it out";
    said.has_lines(&[refused]);
    assert_eq!((said.status, place.read("r")), (1, before));
}

#[test]
fn a_line_of_more_trains_than_an_exchange_has() {
    let place = Place::new();
    let many = "2 x65535 ".repeat(17);
    let said = place.run_with(&PULSE, format!("7\n{many}\n").as_bytes());
    assert_eq!(said.status, 1);
    assert_eq!(
        said.err,
        "tapecard: line 2: the line has 1114095 trains and an exchange at most 1048576, so nothing of it is sent: put them \
         on several lines; the script ends here, and what the lines before it did is kept\n"
    );
    assert_eq!(
        said.out,
        format!(
            "{POWER_ON}7        level 1  report error code\n         report open: send 2 x17\n         the error is cleared\n"
        )
    );
    assert_eq!(place.read("r")[17], 17, "items left of the report");
}
