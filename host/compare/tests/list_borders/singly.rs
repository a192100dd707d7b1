//! "The result equals sending them singly.": the engine's lists beside the engine's single trains, from drives that calls can bring
//! about and from any that keep the rules.

use compare::{PulseCall, Random, TrainList, agree, list_sessions, pulse_sessions, say};
use tapecard::raw;

use crate::common::*;

/// Each train by a call of its own: the record, the levels and the last answer, where none is refused.
fn sent_singly(record: &[u8; 32], counts: &[u16]) -> ([u8; 32], Vec<u8>, [u8; 8]) {
    let (mut record, mut levels, mut answer) = (*record, Vec::new(), [0; 8]);
    for &count in counts {
        raw::pulse_train(&mut record, count, &mut answer);
        assert_eq!(answer[0], 0);
        levels.push(answer[1]);
    }
    (record, levels, answer)
}

/// The list by one call, with bytes beyond that stay.
fn sent_as_list(record: &[u8; 32], counts: &[u16]) -> ([u8; 32], Vec<u8>, [u8; 8]) {
    let (mut record, mut answer) = (*record, [0xEE; 8]);
    let mut levels = vec![0x77; counts.len() + 3];
    raw::pulse_trains(&mut record, counts, &mut levels, &mut answer);
    assert_eq!(levels.split_off(counts.len()), [0x77; 3]);
    (record, levels, answer)
}

/// Counts without a 0, at least one.
fn some_counts(random: &mut Random) -> Vec<u16> {
    let mut counts = list_sessions::any_list(random).counts;
    counts.retain(|&count| count != 0);
    counts.push(random.between(1, 40) as u16);
    counts
}

/// Drives as they are after a life of calls from power-on.
#[test]
fn from_reachable_drives() {
    let mut bench = new_bench();
    let mut random = Random::new(0xA5);
    let mut trains = 0;
    for _ in 0..3000 {
        agree(bench.make(PulseCall::PowerOn(random.number() as u16, random.byte())));
        let life = random.between(1, 60);
        agree(pulse_sessions::run_session(
            &mut bench,
            &mut random,
            life,
            false,
        ));
        let (record, counts) = (*bench.record(), some_counts(&mut random));
        assert_eq!(
            sent_as_list(&record, &counts),
            sent_singly(&record, &counts)
        );
        agree(bench.make(PulseCall::Trains(TrainList::of(&counts))));
        trains += counts.len();
    }
    say(&format!(
        "lists beside single trains: {trains} trains compared"
    ));
}

/// Records that keep the rules, reachable or not, in their canonical form or not.
#[test]
fn from_any_record_that_keeps_the_rules() {
    let mut random = Random::new(0xA55);
    for _ in 0..10_000 {
        let record = pulse_sessions::valid_record(&mut random);
        let counts = some_counts(&mut random);
        assert_eq!(
            sent_as_list(&record, &counts),
            sent_singly(&record, &counts)
        );
    }
}

/// Every list of two trains that a drive tells apart, from drives in every state that matters.
#[test]
fn every_pair_of_trains() {
    let drives = [
        READY,
        SWITCHED_ON,
        with(&READY, &[(1, 1), (11, 10)]),
        with(&READY, &[(1, 2), (9, 5)]),
        with(&READY, &[(14, 7), (15, 13)]),
        with(&READY, &[(0, READY[0] | 4)]),
        with(&READY, &[(REPORT_LEFT_AT, 2), (19, 1)]),
        with(&READY, &[(20, 26), (21, 1), (23, 3)]),
    ];
    let counts: Vec<u16> = (1..=50).chain([256, 257, 258, 65_535]).collect();
    for drive in drives {
        for &first in &counts {
            for &second in &counts {
                let pair = [first, second];
                assert_eq!(sent_as_list(&drive, &pair), sent_singly(&drive, &pair));
            }
        }
    }
}
