//! An import in the bytes of its image.

use compare::{agree, exchange_cases};
use tapecard::bytes::put_long;

use crate::common::*;

const OLD: [u8; 5] = [4, 7, 1, 2, 9];

/// "Import sets U to the elements read and leaves what it doesn't store": kinds, U and the records' blocks are other bytes, the block
/// under a mark and all that is above U stay, the header too.
#[test]
fn what_is_stored_and_what_stays() {
    for size in [512, 1024] {
        for (recorded, protected) in [(0, 0), (2, 1), (3, 0), (5, 1)] {
            let mut before = tape(size, &OLD, recorded, 5);
            before[20] = protected;
            let theirs = tape(size, &OLD, 0, 6);
            let of = |element| block(&theirs, size, 5, element);
            let file = [record_of(of(0), 0x80), MARK.to_vec(), record_of(of(2), 0)].concat();
            let mut expected = before.clone();
            put_long(&mut expected, RECORDED_AT, 3);
            expected[KINDS_AT..KINDS_AT + 5].copy_from_slice(&[0, 2, 1, 2, 9]);
            for element in [0, 2] {
                let at = KINDS_AT + 5 + element * usize::from(size);
                expected[at..at + usize::from(size)].copy_from_slice(of(element));
            }
            let mut bench = new_bench();
            bench.stream.begin(&RECORD, &before);
            assert_eq!(agree(bench.import(&file)), 0);
            assert!(bench.stream.image() == expected, "U {recorded}, B {size}");
            assert_eq!(bench.stream.record(), &CHANGED);
            assert_eq!(bench.stream.answer(), &answer(3, file.len()));
        }
    }
}

/// "image and record unchanged": also where elements before the wrong one could have been stored, and whatever the record holds.
#[test]
fn a_refused_file_leaves_everything() {
    let before = tape(512, &OLD, 2, 5);
    let block = record_of(&[0x44; 512], 0);
    for (behind, number) in [
        (vec![0], 11),
        (block[..519].to_vec(), 11),
        (record_of(&[1; 2], 0), 12),
        (vec![0; 5 * 4], 13),
    ] {
        let file = [&block[..], &behind].concat();
        for record in [RECORD, [0xFF; 16], exchange_cases::RECORD] {
            let mut bench = new_bench();
            bench.stream.begin(&record, &before);
            assert_eq!(agree(bench.import(&file)), number);
            assert_eq!(bench.stream.answer(), &exchange_cases::refusal(number));
            assert!(bench.stream.image() == before);
            assert_eq!(bench.stream.record(), &record);
        }
    }
}

/// The record as after a change of the cartridge, canonical: reserved bits go, the speed stays though no drive has it.
#[test]
fn the_record_is_as_after_a_change() {
    let changed = [0, 0, 0, 0, 3, 1, 0xFF, 0xFF, 0, 0, 0, 0, 0, 0, 0, 0];
    for (before, after) in [
        ([0xFF; 16], changed),
        ([0; 16], [0, 0, 0, 0, 1, 1, 0, 0, 0, 0, 0, 0, 0, 0, 0, 0]),
        (RECORD, CHANGED),
    ] {
        let mut bench = new_bench();
        bench.stream.begin(&before, &tape(512, &OLD, 2, 5));
        assert_eq!(agree(bench.import(&END)), 0);
        assert_eq!(bench.stream.record(), &after);
    }
}
