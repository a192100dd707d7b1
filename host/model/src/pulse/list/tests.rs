//! A list of trains, each case worked out by hand from the words of 02's A5.

use super::*;
use crate::pulse::{insert, power_on, train, wait};

/// What a level buffer holds before a call.
const UNWRITTEN: u8 = 0x99;

const LEVEL_AT: usize = 16;

fn switched_on() -> [u8; 32] {
    let mut record = [0xEE; 32];
    power_on(&mut record, 0, 0x17);
    record
}

/// A cartridge of 10 segments and 4 tracks with its burst, of format 1 and type 1, is loaded from place 7.
fn loaded() -> [u8; 32] {
    let mut record = switched_on();
    assert_eq!(insert(&mut record, &[0, 10, 4, 0, 7, 2, 1, 1])[0], 0);
    assert_eq!(wait(&mut record, 7), [0, 0, 0, 0, 0, 0, 0, 7]);
    record
}

/// The same after status and error were asked: no error, no new mark, level 1.
fn ready() -> [u8; 32] {
    let mut record = loaded();
    for pulses in recovery() {
        train(&mut record, pulses);
    }
    assert_eq!((record[14], record[LEVEL_AT]), (0, 1));
    record
}

/// "Recovery: eighteen 2s; 6, nine 2s; 7, seventeen 2s; 46 trains."
fn recovery() -> Vec<u16> {
    [&[2; 18][..], &[6], &[2; 9], &[7], &[2; 17]].concat()
}

/// The list is accepted, with two bytes of room beyond it that stay: the levels, the last of which the answer tells.
fn levels_of(record: &mut [u8; 32], counts: &[u16]) -> Vec<u8> {
    let mut levels = vec![UNWRITTEN; counts.len() + 2];
    let answer = trains(record, counts, &mut levels);
    assert_eq!(levels.split_off(counts.len()), [UNWRITTEN; 2]);
    let told = levels.last().copied().unwrap_or(record[LEVEL_AT]);
    assert_eq!(answer, [0, told, 0, 0, 0, 0, 0, 0]);
    levels
}

/// The list is refused with this number and changes nothing.
fn is_refused(record: &[u8; 32], counts: &[u16], room: usize, number: u8) {
    let mut after = *record;
    let mut levels = vec![UNWRITTEN; room];
    let answer = trains(&mut after, counts, &mut levels);
    assert_eq!(answer, [number, 0, 0, 0, 0, 0, 0, 0], "{counts:?} {room}");
    assert_eq!(&after, record, "{counts:?} {room}");
    assert_eq!(levels, vec![UNWRITTEN; room], "{counts:?}");
}

#[test]
fn plate_the_error_report_after_power_on_in_one_call() {
    let mut record = switched_on();
    let counts = [&[7][..], &[2; 17]].concat();
    let levels = levels_of(&mut record, &counts);
    assert_eq!(
        levels,
        [1, 0, 1, 0, 1, 1, 0, 0, 0, 0, 0, 0, 0, 0, 0, 0, 0, 1]
    );
    assert_eq!((record[14], record[17]), (0, 0));
}

/// Lost in the tape status report (11h, its first bit was taken): 0 0 0 1 0 0 0 and 1 close it, ten 2s are alone, then status and error 26.
#[test]
fn plate_recovery_in_one_call() {
    let mut record = loaded();
    train(&mut record, 33);
    assert_eq!(train(&mut record, 2)[1], 1);
    let levels = levels_of(&mut record, &recovery());
    assert_eq!(
        levels[..18],
        [0, 0, 0, 1, 0, 0, 0, 1, 1, 1, 1, 1, 1, 1, 1, 1, 1, 1]
    );
    assert_eq!(levels[18..28], [1, 1, 1, 1, 0, 1, 1, 1, 0, 1]);
    assert_eq!(levels[28..37], [1, 0, 1, 0, 1, 1, 0, 0, 0]);
    assert_eq!(levels[37..], [0, 0, 0, 0, 0, 0, 0, 0, 1]);
    assert_eq!((record[0], record[14], record[17]), (1 + 2 + 8, 0, 0));
}

#[test]
fn a_skip_with_its_arguments() {
    let mut record = ready();
    assert_eq!(levels_of(&mut record, &[26, 7, 2]), [1, 1, 1]);
    assert_eq!((record[1], &record[8..12]), (1, &[0, 0, 0, 5][..]));
}

/// What a list leaves open the next call goes on with, and a list goes on with what it finds.
#[test]
fn an_exchange_in_two_lists() {
    let mut record = ready();
    assert_eq!(levels_of(&mut record, &[9, 2, 2, 2]), [1, 1, 1, 1]);
    assert_eq!(record[17], 6);
    assert_eq!(levels_of(&mut record, &[2, 2, 2, 2]), [0, 1, 0, 0]);
    assert_eq!(levels_of(&mut record, &[2, 2, 26]), [0, 1, 1]);
    assert_eq!(record[20], 26);
    assert_eq!(levels_of(&mut record, &[7]), [1]);
    assert_eq!(levels_of(&mut record, &[2]), [1]);
    assert_eq!((record[1], record[11]), (1, 5));
}

/// Forward to 10: the status report finds the drive moving and still at place 0.
#[test]
fn no_time_passes_within_a_list() {
    let mut record = ready();
    let counts = [&[12, 6][..], &[2; 9]].concat();
    let levels = levels_of(&mut record, &counts);
    assert_eq!(levels, [1, 1, 0, 0, 1, 0, 0, 1, 1, 0, 1]);
    assert_eq!((record[1], &record[8..12]), (1, &[0, 0, 0, 10][..]));
}

/// 4 is error 6, 12 is then rejected, and 7 tells error 6 with command 4.
#[test]
fn an_error_does_not_end_the_list() {
    let mut record = ready();
    let counts = [&[4, 12, 7][..], &[2; 17]].concat();
    let levels = levels_of(&mut record, &counts);
    assert_eq!(levels[..3], [1, 1, 1]);
    assert_eq!(
        levels[3..],
        [0, 1, 1, 0, 0, 0, 0, 0, 0, 0, 1, 0, 0, 0, 0, 0, 1]
    );
    assert_eq!((record[1], record[14]), (0, 0));
}

/// 256 is no 0 and 257 no reset: above 32 they are ignored, as alone.
#[test]
fn counts_have_sixteen_bits() {
    let mut record = ready();
    let before = record;
    assert_eq!(levels_of(&mut record, &[256, 257, 65_535]), [1, 1, 1]);
    assert_eq!(record, before);
    train(&mut record, 26);
    assert_eq!(levels_of(&mut record, &[258]), [1]);
    assert_eq!(record, before, "an argument out of range, not nibble 0");
}

/// ROM 17h, asked behind 280 trains.
#[test]
fn a_list_of_300() {
    let mut record = switched_on();
    let counts = [&[2; 280][..], &[9], &[2; 19]].concat();
    let levels = levels_of(&mut record, &counts);
    assert_eq!(levels[..281], [1; 281]);
    assert_eq!(levels[281..290], [1, 1, 1, 0, 1, 0, 0, 0, 1]);
    assert_eq!(levels[290..], [1; 10]);
}

#[test]
fn an_empty_list_tells_the_level_as_it_stood() {
    for record in [switched_on(), ready()] {
        let mut after = record;
        assert_eq!(levels_of(&mut after, &[]), []);
        let level = after[LEVEL_AT];
        let answer = trains(&mut after, &[], &mut []);
        assert_eq!(answer, [0, level, 0, 0, 0, 0, 0, 0]);
        assert_eq!(after, record);
    }
    assert_ne!(switched_on()[LEVEL_AT], ready()[LEVEL_AT]);
}

#[test]
fn an_empty_list_writes_the_record_in_its_canonical_form() {
    let mut record = ready();
    let canonical = record;
    record[0] |= 0xE0;
    record[1] = 9;
    record[5] |= 0xF8;
    record[16] |= 0xFE;
    record[18] = 0xFF;
    record[21..24].fill(0xFF);
    record[27..].fill(0xFF);
    assert_eq!(levels_of(&mut record, &[]), []);
    assert_eq!(record, canonical);
}

/// "8, then 5 if any count is 0, then 4 if the level buffer is shorter than the list".
#[test]
fn refusals_in_their_order() {
    let good = ready();
    let mut broken = good;
    broken[14] = 99;
    for (counts, room, of_good) in [
        (&[6, 2, 2][..], 2, Some(4)),
        (&[6, 0, 2], 2, Some(5)),
        (&[6, 0, 2], 3, Some(5)),
        (&[6, 2, 2], 3, None),
        (&[], 0, None),
    ] {
        if let Some(number) = of_good {
            is_refused(&good, counts, room, number);
        }
        is_refused(&broken, counts, room, 8);
    }
}

#[test]
fn a_0_anywhere_is_refused() {
    for counts in [
        &[0][..],
        &[0, 6, 2],
        &[6, 0, 2],
        &[6, 2, 0],
        &[0, 0],
        &[1, 0],
    ] {
        is_refused(&ready(), counts, 5, 5);
        is_refused(&ready(), counts, 0, 5);
    }
}

#[test]
fn a_level_buffer_as_long_as_the_list_is_enough() {
    is_refused(&ready(), &[6, 2, 2, 2], 0, 4);
    is_refused(&ready(), &[6, 2, 2, 2], 3, 4);
    is_refused(&ready(), &[6], 0, 4);
    for (room, left) in [(4, [1, 1, 0, 1].to_vec()), (5, vec![1, 1, 0, 1, UNWRITTEN])] {
        let mut levels = vec![UNWRITTEN; room];
        assert_eq!(trains(&mut ready(), &[6, 2, 2, 2], &mut levels)[0], 0);
        assert_eq!(levels, left);
    }
}

/// Bytes that decoding leaves out stay where the list is refused.
#[test]
fn a_refused_list_writes_no_record() {
    let mut record = ready();
    record[27..].fill(0xFF);
    is_refused(&record, &[6, 0], 2, 5);
    is_refused(&record, &[6, 2], 1, 4);
}
