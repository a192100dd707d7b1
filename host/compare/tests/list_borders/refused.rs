//! Lists that are refused: "8, then 5 if any count is 0, then 4 if the level buffer is shorter than the list; then nothing is sent."

use compare::{TrainList, say};

use crate::common::*;

/// Records that break a rule each: error, rate, place, motion, tracks, report, repeat, arguments, cartridge.
fn broken_records() -> [[u8; 32]; 9] {
    [
        with(&READY, &[(14, 3)]),
        with(&READY, &[(13, 4)]),
        with(&READY, &[(9, 11), (11, 11)]),
        with(&READY, &[(1, 1)]),
        with(&READY, &[(12, 4)]),
        with(&READY, &[(REPORT_LEFT_AT, 18)]),
        with(&READY, &[(0, READY[0] | 16)]),
        with(&READY, &[(20, 26), (21, 2)]),
        with(&SWITCHED_ON, &[(4, 1)]),
    ]
}

/// All lists of up to four counts out of 0, 1, 6 and 2.
fn small_lists() -> Vec<Vec<u16>> {
    let mut lists = vec![vec![]];
    let mut longest = lists.clone();
    for _ in 0..4 {
        let longer = |list: &Vec<u16>| [0, 1, 6, 2].map(|count| [&list[..], &[count]].concat());
        longest = longest.iter().flat_map(longer).collect();
        lists.extend(longest.iter().cloned());
    }
    lists
}

/// What a list is refused with, by the words alone; 0 where it is sent.
fn number_of(counts: &[u16], room: usize) -> u8 {
    match (counts.contains(&0), room < counts.len()) {
        (true, _) => 5,
        (false, true) => 4,
        (false, false) => 0,
    }
}

/// Each with every room from none to one more than it needs, from a drive in order and from broken ones.
#[test]
fn a_small_world_in_full() {
    let mut refused = [0; 9];
    for counts in small_lists() {
        for room in 0..=counts.len() + 1 {
            let list = TrainList::with_room(&counts, room);
            for broken in broken_records() {
                is_refused(&broken, &list, 8);
            }
            let number = number_of(&counts, room);
            if number != 0 {
                is_refused(&ready_with_surplus(), &list, number);
                is_refused(&SWITCHED_ON, &list, number);
            } else {
                let mut bench = new_bench();
                send(&mut bench, &READY, &list);
                assert_eq!(bench.answer()[0], 0, "{list:?}");
            }
            refused[usize::from(number)] += 1;
        }
    }
    let [sent, .., short, zero, _, _, _] = refused;
    say(&format!(
        "small lists: {sent} sent, {short} refused with 4 and {zero} with 5, and every one with 8"
    ));
    // Of n counts there are 4^n lists, 3^n of them without a 0: each of these has n rooms that are too small and 2 that are not.
    assert_eq!(sent, 2 * (1 + 3 + 9 + 27 + 81));
    assert_eq!(short, 3 + 2 * 9 + 3 * 27 + 4 * 81);
    // The 1, 7, 37 and 175 others have n + 2 rooms.
    assert_eq!(zero, 3 + 4 * 7 + 5 * 37 + 6 * 175);
}

/// A 0 at each place of an exchange, alone or with another at the end, whatever room there is: 5 comes before 4.
#[test]
fn a_zero_at_every_place() {
    for place in 0..46 {
        for others in [&[][..], &[45], &[0]] {
            let mut counts = recovery();
            counts[place] = 0;
            others.iter().for_each(|&other| counts[other] = 0);
            for room in [0, 1, place, 45, 46, 47, 100] {
                let list = TrainList::with_room(&counts, room);
                is_refused(&SWITCHED_ON, &list, 5);
                is_refused(&with(&SWITCHED_ON, &[(13, 9)]), &list, 8);
            }
        }
    }
}

/// At the length it is enough, one under it is not.
#[test]
fn every_room_for_an_exchange() {
    for room in 0..=48 {
        let list = TrainList::with_room(&recovery(), room);
        if room < 46 {
            is_refused(&SWITCHED_ON, &list, 4);
            continue;
        }
        let mut bench = new_bench();
        send(&mut bench, &SWITCHED_ON, &list);
        assert_eq!(bench.answer(), &[0, 1, 0, 0, 0, 0, 0, 0]);
        assert_eq!(bench.record()[14], 0, "error 26 was read");
    }
}

/// A reset and a report before the 0, and bytes that decoding leaves out: all as they were.
#[test]
fn what_stands_before_a_zero_is_not_sent() {
    for counts in [&[1, 7, 2, 0][..], &[1, 0], &[2, 12, 0, 18], &[0, 1]] {
        for record in [READY, SWITCHED_ON, ready_with_surplus()] {
            is_refused(&record, &TrainList::of(counts), 5);
        }
    }
}

/// The trains that a short buffer has room for are not sent.
#[test]
fn what_has_room_is_not_sent() {
    for record in [READY, SWITCHED_ON, ready_with_surplus()] {
        for room in 0..4 {
            let list = TrainList::with_room(&[1, 7, 2, 2], room);
            is_refused(&record, &list, 4);
        }
    }
}
