//! Lists of thousands of trains, past what a byte and what 16 bits count.

use compare::TrainList;

use crate::common::*;

/// 2s, which leave level 1, with reports of ROM 17h from these places on: 1, its bits 1 1 1 0 1 0 0 0, and 1.
fn reports_at(places: &[usize], length: usize) -> (Vec<u16>, Vec<u8>) {
    let (mut counts, mut levels) = (vec![2; length], vec![1; length]);
    for &place in places {
        counts[place] = 9;
        levels[place..place + 10].copy_from_slice(&[1, 1, 1, 1, 0, 1, 0, 0, 0, 1]);
    }
    (counts, levels)
}

#[test]
fn a_list_of_5000() {
    let (counts, levels) = reports_at(&[0, 246, 256, 1000, 4990], 5000);
    for room in [5000, 5001, 6000] {
        let list = TrainList::with_room(&counts, room);
        gives(&READY, &list, &levels, &READY);
    }
}

/// More than 65,535: with reports on both sides of where 16 bits end, and at the end.
#[test]
fn a_list_of_70000() {
    let (counts, levels) = reports_at(&[3, 32_763, 65_526, 65_540, 69_990], 70_000);
    gives(&READY, &TrainList::of(&counts), &levels, &READY);
    gives(
        &READY,
        &TrainList::with_room(&counts, 70_003),
        &levels,
        &READY,
    );
}

#[test]
fn lists_about_the_lengths_of_a_byte_and_of_two() {
    for length in [255, 256, 257, 511, 512, 65_535, 65_536, 65_537] {
        let (counts, levels) = reports_at(&[length - 10], length);
        gives(&READY, &TrainList::of(&counts), &levels, &READY);
        gives(
            &READY,
            &TrainList::with_room(&counts, length + 1),
            &levels,
            &READY,
        );
        is_refused(&READY, &TrainList::with_room(&counts, length - 1), 4);
        is_refused(&READY, &TrainList::with_room(&counts, 0), 4);
    }
}

/// One short, and rooms that would do if lengths were cut to 16 bits.
#[test]
fn a_long_list_with_too_little_room() {
    let counts = vec![2; 70_000];
    for room in [0, 1, 255, 4464, 65_535, 65_536, 69_999] {
        is_refused(&READY, &TrainList::with_room(&counts, room), 4);
    }
}

/// Nothing of what stands before it is sent, wherever the 0 is.
#[test]
fn a_zero_in_a_long_list() {
    for place in [0, 1, 255, 256, 4999, 65_535, 65_536, 69_998, 69_999] {
        let mut counts = vec![1; 70_000];
        counts[place] = 0;
        is_refused(&READY, &TrainList::of(&counts), 5);
        is_refused(&READY, &TrainList::with_room(&counts, place), 5);
        is_refused(&with(&READY, &[(13, 4)]), &TrainList::of(&counts), 8);
    }
}

/// 13 with a track, again and again: the last of thousands is the one that stays.
#[test]
fn the_last_train_counts() {
    for length in [256, 258, 4000, 66_000] {
        let mut counts = [13, 2].repeat(length / 2);
        counts[length - 1] = 5;
        let after = with(&READY, &[(12, 3)]);
        gives(&READY, &TrainList::of(&counts), &vec![1; length], &after);
    }
}
