//! 9 and 10: lengths, every byte, other tapes, and the order among the other numbers.

use compare::{StreamBench, agree, say};
use tapecard::bytes::{long_at, opcode};

use crate::common::*;

/// "9, index buffer shorter than four times the capacity": one byte less is, 4*C is not, and neither is more with any bytes beyond.
#[test]
fn lengths_of_an_index() {
    let whole = long_index_of(6, &SMALL_PLACES);
    let mut bench = new_bench();
    for length in 0..=whole.len() {
        let number = if length < 24 { 9 } else { 0 };
        for packet in [over_filemarks(-1), counted(opcode::REQUEST_SENSE, 0, 0)] {
            set(&mut bench, &record(2), &small(), &whole[..length]);
            agree(bench.send(&packet, &[]));
            assert_eq!(bench.answer(), &refusal(number), "{length} bytes");
            assert_eq!(bench.index(), &whole[..length]);
        }
        set(&mut bench, &record(2), &small(), &whole[..length]);
        agree(bench.send(&counted(opcode::WRITE_FILEMARK, 0, 1), &[]));
        assert_eq!(bench.answer()[0], number, "{length} bytes");
        let after = long_index_of(6, &[1, 2]);
        let expected = if number == 9 { &whole } else { &after };
        assert_eq!(bench.index(), &expected[..length]);
    }
}

/// What is too short is not filled as far as it goes, neither by a packet nor by `make`.
#[test]
fn a_short_buffer_stays_as_it_was() {
    let mut bench = new_bench();
    for length in 0..24 {
        let lent = vec![0x77; length];
        set(&mut bench, &record(2), &small(), &lent);
        assert_eq!(agree(bench.make()), 9);
        assert_eq!((bench.answer(), bench.index()), (&refusal(9), &lent[..]));
        agree(bench.send(&counted(opcode::WRITE_FILEMARK, 0, 1), &[]));
        assert_eq!((bench.answer(), bench.index()), (&refusal(9), &lent[..]));
        assert_eq!((bench.record(), bench.image()), (&record(2), &small()[..]));
    }
}

/// A tape of one element: four bytes are enough, three are not.
#[test]
fn the_shortest_index() {
    for (kinds, places) in [(&[D], &[][..]), (&[F], &[0])] {
        let index = index_of(1, places);
        let mut bench = bench_with(&record(1), &tape(kinds, 1, 0), &index);
        agree(bench.send(&over_filemarks(0), &[]));
        leaves(&bench, &record_after(&record(1), 1, GOOD), &index);
        set(&mut bench, &record(1), &tape(kinds, 1, 0), &index[..3]);
        agree(bench.send(&over_filemarks(0), &[]));
        assert_eq!(bench.answer(), &refusal(9));
        let mut wrong = index.clone();
        wrong[3] ^= 1;
        set(&mut bench, &record(1), &tape(kinds, 1, 0), &wrong);
        agree(bench.send(&over_filemarks(0), &[]));
        assert_eq!(bench.answer(), &refusal(10));
    }
}

/// "10, index differs from a fresh one": whichever byte, whichever packet, known or not, 03h and 12h too, and whatever the drive
/// would have told instead. The attention stays pending, and the sense as it was.
#[test]
fn every_byte_wrong_under_every_packet() {
    let (image, good) = (small(), index_of(6, &SMALL_PLACES));
    let mut bench = new_bench();
    for opcode in 0..=255 {
        let packet = counted(opcode, 1, 1);
        for (at, value) in [(4, 1), (5, 1), (5, 2), (4, 0), (4, 2)] {
            let before = record_with(2, at, value);
            for wrong_at in 0..24 {
                let mut wrong = good.clone();
                wrong[wrong_at] ^= 1 << (wrong_at % 8);
                set(&mut bench, &before, &image, &wrong);
                agree(bench.send(&packet, &[0x33; 512]));
                assert_eq!(bench.answer(), &refusal(10), "{opcode:02X}h, {wrong_at}");
                assert_eq!((bench.record(), bench.index()), (&before, &wrong[..]));
                assert!(bench.image() == image, "{opcode:02X}h changed the image");
            }
        }
        set(&mut bench, &record(2), &small(), &good[..23]);
        agree(bench.send(&packet, &[0x33; 512]));
        assert_eq!(bench.answer(), &refusal(9), "{opcode:02X}h");
        assert_eq!((bench.record(), bench.index()), (&record(2), &good[..23]));
    }
    say(&format!(
        "every byte of an index wrong: {} calls compared",
        bench.seen.calls
    ));
}

/// The index of every tape of six, in its order and backwards: the right one is taken, all others are not.
#[test]
fn indexes_of_other_tapes() {
    let mut bench = new_bench();
    for other in tapes_of(6) {
        let places = filemarks(&other, 6);
        let mut backwards = places.clone();
        backwards.reverse();
        for entries in [places, backwards] {
            let number = if entries == SMALL_PLACES { 0 } else { 10 };
            set(&mut bench, &record(5), &small(), &index_of(6, &entries));
            agree(bench.send(&over_filemarks(-2), &[]));
            assert_eq!(bench.answer(), &refusal(number), "{entries:?}");
            let place = if number == 0 { 3 } else { 5 };
            assert_eq!(long_at(bench.record(), 0), place);
        }
    }
}

const ORDER: [u8; 6] = [1, 2, 3, 9, 10, 4];

/// "in that order after 3": whatever is wrong at once, the first of the six is given.
#[test]
fn the_order_of_the_numbers() {
    for wrong in 0..64 {
        let numbers: Vec<u8> = (0..6)
            .filter(|&at| wrong >> at & 1 == 1)
            .map(|at| ORDER[at])
            .collect();
        is_refused_with_the_first(&numbers);
    }
}

fn is_refused_with_the_first(wrong: &[u8]) {
    let is_wrong = |number: u8| usize::from(wrong.contains(&number));
    let (mut before, mut image) = (record(2), small());
    let mut index = index_of(6, &SMALL_PLACES);
    image[31] = is_wrong(2) as u8;
    before[8] += 13 * is_wrong(3) as u8;
    index[0] = is_wrong(10) as u8;
    index.truncate(24 - is_wrong(9));
    let mut bench = new_bench();
    for opcode in [opcode::READ, opcode::WRITE] {
        set(&mut bench, &before, &image, &index);
        let packet = counted(opcode, 1, 1);
        let room = vec![0x33; 512 - is_wrong(4)];
        agree(bench.send(&packet[..12 - is_wrong(1)], &room));
        let first = wrong.first().copied().unwrap_or(0);
        assert_eq!(bench.answer()[0], first, "{wrong:?}");
    }
    set(&mut bench, &before, &image, &index);
    let of_make = wrong.iter().find(|&number| [2, 9].contains(number));
    assert_eq!(agree(bench.make()), of_make.copied().unwrap_or(0));
}

/// A wrong index keeps the drive from telling of its attention; the right one lets it.
#[test]
fn the_attention_waits_for_the_right_index() {
    let index = index_of(6, &SMALL_PLACES);
    let pending = record_with(2, 5, 2);
    let mut bench = bench_with(&pending, &small(), &[0; 24]);
    agree(bench.send(&over_filemarks(1), &[]));
    assert_eq!(bench.answer(), &refusal(10));
    bench.set_index(&index);
    agree(bench.send(&over_filemarks(1), &[]));
    let told = ([6, 0x29, 0], 0, 0);
    leaves(&bench, &record_after(&pending, 2, told), &index);
    agree(bench.send(&over_filemarks(1), &[]));
    leaves(&bench, &record_after(&pending, 4, GOOD), &index);
}
