//! Recovery in one call: from every error and from everywhere in a report, with the error and its command spelled at places 28 to 45.

use compare::{TrainList, say};
use model::pulse::ERRORS;

use crate::common::*;

/// Eight bits, lowest first.
fn bits(byte: u8) -> [u8; 8] {
    std::array::from_fn(|bit| byte >> bit & 1)
}

/// Level 1 for the 7, eight bits of the error, eight of its command, and the final 1.
fn spelled(error: u8, command: u8) -> Vec<u8> {
    [&[1][..], &bits(error), &bits(command), &[1]].concat()
}

fn recovered(record: &[u8; 32]) -> (Vec<u8>, [u8; 32]) {
    let mut bench = new_bench();
    send(&mut bench, record, &TrainList::of(&recovery()));
    assert_eq!(bench.answer(), &[0, 1, 0, 0, 0, 0, 0, 0]);
    (bench.levels().to_vec(), *bench.record())
}

/// Each error and its command from three drives that hold it: at rest with a new cartridge, without one, and in a load.
#[test]
fn from_every_error() {
    let without = with(&SWITCHED_ON, &[(0, 8), (14, 0), (LEVEL_AT, 1)]);
    for error in ERRORS {
        for command in [0, 1, 13, 35, 255] {
            let held = |record: &[u8; 32]| with(record, &[(14, error), (15, command)]);
            let new = with(&READY, &[(0, READY[0] | 4)]);
            let loading = held(&with(&READY, &[(0, 1 + 4), (1, 2), (9, 4)]));
            // At rest error and new mark are read away; a load keeps both.
            for (before, after) in [
                (held(&new), READY),
                (held(&SWITCHED_ON), without),
                (loading, loading),
            ] {
                let (levels, left) = recovered(&before);
                assert_eq!(levels[28..], spelled(error, command), "error {error}");
                assert_eq!(left, after, "error {error}, command {command}");
            }
        }
    }
}

/// Eighteen 2s close a report with up to 17 items left, and one that owes a repeat too.
#[test]
fn from_everywhere_in_a_report() {
    let mut lists = 0;
    for left in 0..=17 {
        for owed in 0..=u8::from(left > 0) {
            for error in ERRORS {
                let lost = [
                    (0, READY[0] + 16 * owed),
                    (REPORT_LEFT_AT, left),
                    (14, error),
                    (15, 7),
                ];
                let (levels, after) = recovered(&with(&READY, &lost));
                assert_eq!(
                    levels[28..],
                    spelled(error, 7),
                    "{left} left, error {error}"
                );
                assert_eq!(after, READY);
                lists += 1;
            }
        }
    }
    say(&format!("recovery from a report: {lists} lists compared"));
}

/// Lost in the tape status report 11h, its first bit taken, with error 26: each level by hand.
#[test]
fn every_level_by_hand() {
    let lost = with(
        &READY,
        &[(0, 1 + 2 + 4), (14, 26), (REPORT_LEFT_AT, 8), (19, 0x08)],
    );
    let (levels, after) = recovered(&lost);
    assert_eq!(levels[..8], [0, 0, 0, 1, 0, 0, 0, 1], "the report's rest");
    assert_eq!(levels[8..18], [1; 10], "2s alone");
    assert_eq!(levels[18..28], [1, 1, 1, 1, 0, 1, 1, 1, 0, 1], "status");
    assert_eq!(levels[28..37], [1, 0, 1, 0, 1, 1, 0, 0, 0], "error 26");
    assert_eq!(levels[37..], [0, 0, 0, 0, 0, 0, 0, 0, 1], "command 0");
    assert_eq!(after, READY);
}

/// Seventeen 2s are one short of a report of 17 items that owes a repeat: the 6 is error 8, and the 7 tells it.
#[test]
fn one_train_short() {
    let lost = with(&READY, &[(0, READY[0] | 16), (REPORT_LEFT_AT, 17)]);
    let mut bench = new_bench();
    send(&mut bench, &lost, &TrainList::of(&recovery()[1..]));
    assert_eq!(bench.levels()[27..], spelled(8, 6));
    assert_eq!(bench.levels()[17], 0, "the report is closed, level 0");
}

/// Cut in two at every place, and sent as two lists: the same levels and the same drive.
#[test]
fn cut_at_every_place() {
    let lost = with(&SWITCHED_ON, &[(REPORT_LEFT_AT, 9), (19, 0xA5)]);
    let whole = recovered(&lost);
    let exchange = recovery();
    let mut bench = new_bench();
    for place in 0..=exchange.len() {
        let (first, second) = exchange.split_at(place);
        send(&mut bench, &lost, &TrainList::of(first));
        let mut levels = bench.levels().to_vec();
        let between = *bench.record();
        send(&mut bench, &between, &TrainList::of(second));
        levels.extend(bench.levels());
        assert_eq!((levels, *bench.record()), whole, "cut at {place}");
    }
}
