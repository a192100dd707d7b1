//! Lists that are sent: levels, record and answer worked out by hand, and the bytes beyond.

use compare::{PulseCall, TrainList, agree, say};

use crate::common::*;

/// "Power-on, 7: 0 1 0 1 1 0 0 0, eight 0, then 1."
#[test]
fn the_error_report_after_power_on() {
    let counts = [&[7][..], &[2; 17]].concat();
    let levels = [1, 0, 1, 0, 1, 1, 0, 0, 0, 0, 0, 0, 0, 0, 0, 0, 0, 1];
    let after = with(&SWITCHED_ON, &[(14, 0), (LEVEL_AT, 1)]);
    gives(&SWITCHED_ON, &TrainList::of(&counts), &levels, &after);
}

/// "Input 6 2 2 2: `6 1`, `2 1`, `2 1`, `2 0`"; of status 03h the five highest bits and the final 1 are left.
#[test]
fn a_report_that_is_left_open() {
    let list = TrainList::of(&[6, 2, 2, 2]);
    let after = with(&SWITCHED_ON, &[(0, 8), (REPORT_LEFT_AT, 6)]);
    gives(&SWITCHED_ON, &list, &[1, 1, 1, 0], &after);
}

/// Trains that name no level keep the one that stands, 0 or 1, and a 2 alone makes it 1.
#[test]
fn levels_of_a_held_level() {
    let low = with(&READY, &[(LEVEL_AT, 0)]);
    gives(&low, &TrainList::of(&[3, 40, 18]), &[0, 0, 0], &low);
    gives(&READY, &TrainList::of(&[3, 40, 18]), &[1, 1, 1], &READY);
    gives(&low, &TrainList::of(&[3, 2, 18]), &[0, 1, 1], &READY);
}

/// 5 segments on by 26 with arguments 7 and 2; 300 by 35 with 14, 4, 3 are held within the 10 of this tape.
#[test]
fn skips_with_their_arguments() {
    let moving = with(&READY, &[(1, 1), (11, 5)]);
    gives(&READY, &TrainList::of(&[26, 7, 2]), &[1, 1, 1], &moving);
    let moving = with(&READY, &[(1, 1), (11, 10)]);
    let list = TrainList::of(&[35, 14, 4, 3]);
    gives(&READY, &list, &[1, 1, 1, 1], &moving);
}

/// Track 3, rate 1 and a skip of 6 in one call; then the stop of a skip that another one begins.
#[test]
fn a_mixed_list() {
    let list = TrainList::of(&[13, 5, 27, 3, 26, 8, 2]);
    let after = with(&READY, &[(1, 1), (11, 6), (12, 3), (13, 1)]);
    gives(&READY, &list, &[1; 7], &after);
    let waiting = with(&after, &[(1, 0), (11, 0), (20, 25), (21, 1), (23, 4)]);
    gives(&after, &TrainList::of(&[25, 6]), &[1, 1], &waiting);
}

/// What one list leaves waiting or open the next one goes on with: 26 and its two arguments, ROM 17h and its bits.
#[test]
fn an_exchange_in_two_lists() {
    let waiting = with(&READY, &[(20, 26), (21, 1), (23, 5)]);
    gives(&READY, &TrainList::of(&[26, 7]), &[1, 1], &waiting);
    let moving = with(&READY, &[(1, 1), (11, 5)]);
    gives(&waiting, &TrainList::of(&[2]), &[1], &moving);
    let open = with(&READY, &[(REPORT_LEFT_AT, 6), (19, 2)]);
    gives(&READY, &TrainList::of(&[9, 2, 2, 2]), &[1, 1, 1, 1], &open);
    let list = TrainList::of(&[2; 6]);
    gives(&open, &list, &[0, 1, 0, 0, 0, 1], &READY);
}

/// Forward to 10: the status report finds the drive moving at place 0, and it is there after 11 trains.
#[test]
fn no_time_passes_within_a_list() {
    let counts = [&[12, 6][..], &[2; 9]].concat();
    let levels = [1, 1, 0, 0, 1, 0, 0, 1, 1, 0, 1];
    let moving = with(&READY, &[(1, 1), (11, 10)]);
    gives(&READY, &TrainList::of(&counts), &levels, &moving);
}

/// 4 is error 6, 12 is rejected, 7 tells error 6 with command 4, and 12 then goes.
#[test]
fn an_error_does_not_end_a_list() {
    let counts = [&[4, 12, 7][..], &[2; 17], &[12]].concat();
    let levels = [
        1, 1, 1, 0, 1, 1, 0, 0, 0, 0, 0, 0, 0, 1, 0, 0, 0, 0, 0, 1, 1,
    ];
    let moving = with(&READY, &[(1, 1), (11, 10)]);
    gives(&READY, &TrainList::of(&counts), &levels, &moving);
}

/// 256 is no 0 and 257 no reset: above 32 they are ignored, and in a report the next 2 repeats the level.
#[test]
fn counts_have_sixteen_bits() {
    gives(&READY, &TrainList::of(&[256]), &[1], &READY);
    gives(&READY, &TrainList::of(&[257, 256, 65_535]), &[1; 3], &READY);
    gives(
        &READY,
        &TrainList::of(&[512, 0x0102, 0x0201]),
        &[1; 3],
        &READY,
    );
    let owed = with(
        &READY,
        &[(0, READY[0] | 16), (REPORT_LEFT_AT, 8), (19, 0x0B)],
    );
    gives(&READY, &TrainList::of(&[9, 2, 65_535]), &[1; 3], &owed);
    // As an argument 258 is no nibble 0: it drops the list, and 24 is then looked at as a command, error 6.
    let unsupported = with(&READY, &[(14, 6), (15, 24)]);
    gives(
        &READY,
        &TrainList::of(&[26, 258, 24]),
        &[1; 3],
        &unsupported,
    );
}

/// A reset in the middle drops the report and goes on: error 27 with command 1 is told.
#[test]
fn a_reset_within_a_list() {
    let counts = [&[9, 2, 1, 7][..], &[2; 17]].concat();
    let levels = [
        1, 1, 1, 1, 1, 1, 0, 1, 1, 0, 0, 0, 1, 0, 0, 0, 0, 0, 0, 0, 1,
    ];
    let after = with(&READY, &[(0, 3)]);
    gives(&READY, &TrainList::of(&counts), &levels, &after);
}

/// "Bytes of the level buffer beyond the list stay.": one, many, and after lists of every length up to an exchange.
#[test]
fn bytes_beyond_stay() {
    for length in 0..=46 {
        for beyond in [1, 2, 7, 300] {
            let counts = &recovery()[..length];
            let mut bench = new_bench();
            send(
                &mut bench,
                &SWITCHED_ON,
                &TrainList::with_room(counts, length + beyond),
            );
            let (levels, stayed) = bench.levels().split_at(length);
            assert!(levels.iter().all(|&level| level <= 1));
            assert_eq!(stayed, &bench.levels_before()[length..]);
            assert!(stayed.iter().all(|&byte| byte > 1));
        }
    }
}

/// Every count alone, and each between two trains: what the same train does by itself.
#[test]
fn every_count_at_all() {
    let mut bench = new_bench();
    for count in 1..=u16::MAX {
        bench.begin(&READY);
        agree(bench.make(PulseCall::Train(count)));
        let (alone, level) = (*bench.record(), bench.answer()[1]);
        send(&mut bench, &READY, &TrainList::of(&[count]));
        assert_eq!((bench.record(), bench.levels()), (&alone, &[level][..]));
        send(&mut bench, &READY, &TrainList::of(&[9, count, 2]));
    }
    say(&format!("all counts: {} calls compared", bench.seen.calls));
}
