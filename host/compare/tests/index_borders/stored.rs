//! What packets make of the entries: stores at every place, stores that are not made, all other packets, sequences.

use compare::{IndexBench, StreamBench, agree, say};
use tapecard::bytes::triple;
use tapecard::bytes::{length, long_at, opcode, page, put_word, space};

use crate::common::*;

/// WRITE and WRITE FILEMARK of every length at every place of every tape of five elements.
#[test]
fn what_is_stored_is_indexed() {
    const C: usize = 5;
    let mut bench = new_bench();
    for (kinds, recorded, place) in places_of_tapes(C) {
        for count in 0..=C + 1 {
            store(&mut bench, opcode::WRITE, &kinds, (recorded, place, count));
            let filemarks = opcode::WRITE_FILEMARK;
            store(&mut bench, filemarks, &kinds, (recorded, place, count));
        }
    }
    say(&format!(
        "stores on every tape of {C}: {} calls compared",
        bench.seen.calls
    ));
}

/// The entries that are left: those below the old place, then those of the filemarks stored. The whole tape is past early warning,
/// which is no reason to leave the index as it was.
fn store(
    bench: &mut IndexBench,
    opcode: u8,
    kinds: &[u8],
    (recorded, place, count): (usize, usize, usize),
) {
    let capacity = kinds.len();
    let end = (place + count).min(capacity);
    let before = filemarks(kinds, recorded);
    let index = long_index_of(capacity, &before);
    set(
        bench,
        &record(place),
        &tape(kinds, recorded, capacity),
        &index,
    );
    let packet = counted(opcode, 1, count as i32);
    agree(bench.send(&packet, &vec![0x44; 512 * count]));
    let mut after = before;
    if end > place {
        after.retain(|&entry| entry < place);
    }
    if opcode == opcode::WRITE_FILEMARK {
        after.extend(place..end);
    }
    let context = format!("{opcode:02X}h of {count} at {place} of {kinds:?}, U {recorded}");
    let expected = long_index_of(capacity, &after);
    assert_eq!(bench.index(), expected, "{context}");
    let stored = long_at(bench.answer(), 4) as usize;
    assert_eq!(stored, end - place, "{context}");
}

/// The same in numbers that were worked out one by one, on the small tape: place, count, and the places that are left by WRITE and by
/// WRITE FILEMARK.
#[test]
fn stored_by_hand() {
    for (place, count, of_blocks, of_filemarks) in [
        (0, 1, &[][..], &[0][..]),
        (1, 1, &[], &[1]),
        (2, 1, &[1], &[1, 2]),
        (2, 3, &[1], &[1, 2, 3, 4]),
        (3, 1, &[1], &[1, 3]),
        (4, 1, &[1, 3], &[1, 3, 4]),
        (5, 1, &[1, 3, 4], &[1, 3, 4, 5]),
        (5, 2, &[1, 3, 4], &[1, 3, 4, 5]),
        (4, 9, &[1, 3], &[1, 3, 4, 5]),
        (3, 0, &[1, 3, 4], &[1, 3, 4]),
    ] {
        for (opcode, places) in [
            (opcode::WRITE, of_blocks),
            (opcode::WRITE_FILEMARK, of_filemarks),
        ] {
            let index = index_of(6, &SMALL_PLACES);
            let mut bench = bench_with(&record(place), &small(), &index);
            agree(bench.send(&counted(opcode, 1, count), &[0x44; 9 * 512]));
            let context = format!("{opcode:02X}h of {count} at {place}");
            assert_eq!(bench.index(), index_of(6, places), "{context}");
        }
    }
}

/// What stores nothing leaves the entries: protection, no cartridge, a pending attention, a short buffer.
#[test]
fn stores_that_are_not_made() {
    let index = index_of(6, &SMALL_PLACES);
    let mut protected = small();
    protected[20] = 1;
    for (image, before, sense) in [
        (&protected, record(2), triple::PROTECTED),
        (&small(), record_with(2, 4, 0), triple::NOT_LOADED),
        (&small(), record_with(2, 5, 1), triple::MEDIUM_CHANGED),
        (&small(), record_with(2, 5, 2), triple::RESET),
    ] {
        for opcode in [opcode::WRITE, opcode::WRITE_FILEMARK] {
            let mut bench = bench_with(&before, image, &index);
            agree(bench.send(&counted(opcode, 1, 1), &[0x33; 512]));
            leaves(&bench, &record_after(&before, 2, (sense, 0, 0)), &index);
            assert_eq!(bench.image(), image);
        }
    }
    let mut bench = bench_with(&record(2), &small(), &index);
    agree(bench.send(&counted(opcode::WRITE, 1, 1), &[0x33; 511]));
    assert_eq!((bench.answer(), bench.index()), (&refusal(4), &index[..]));
}

/// Every packet that stores nothing, right and wrong, leaves image and index: reads over filemarks, loads, unloads, speeds.
#[test]
fn all_other_packets_leave_the_index() {
    let index = long_index_of(6, &SMALL_PLACES);
    let mut bench = new_bench();
    let others = (0..=255).filter(|code| ![opcode::WRITE, opcode::WRITE_FILEMARK].contains(code));
    for packet in others.flat_map(variants) {
        for door in 0..4 {
            set(&mut bench, &record_with(2, 4, door), &small(), &index);
            agree(bench.send(&packet, &list()));
            assert_eq!(bench.answer()[0], 0);
            assert_eq!((bench.index(), bench.image()), (&index[..], &small()[..]));
        }
    }
}

/// Packets of this opcode with the fields that its command looks at.
fn variants(opcode: u8) -> impl Iterator<Item = [u8; 12]> {
    let bytes = (0..8).flat_map(|byte_1| [0, 1, 2, 5, 12, 32].map(|byte_4| (byte_1, byte_4)));
    bytes.map(move |(byte_1, byte_4)| {
        let mut packet = counted(opcode, byte_1, byte_4);
        if opcode == opcode::MODE_SENSE {
            packet[2] = page::CODE;
        }
        packet
    })
}

/// Room for 32 blocks that begins with a list that sets the speed.
fn list() -> Vec<u8> {
    let mut list = vec![0x33; 32 * 512];
    list[length::MODE_HEADER] = page::CODE;
    list[length::MODE_HEADER + 1] = page::LENGTH;
    put_word(&mut list, 26, 500);
    list
}

/// All sequences of four packets on a tape of three, each with the index that the one before it left.
#[test]
fn a_small_world_in_full() {
    const C: usize = 3;
    let packets = [
        counted(opcode::WRITE, 1, 1),
        counted(opcode::WRITE, 1, 2),
        counted(opcode::WRITE_FILEMARK, 0, 1),
        counted(opcode::WRITE_FILEMARK, 0, 2),
        over_filemarks(1),
        over_filemarks(-1),
        over_filemarks(-2),
        counted(opcode::SPACE, space::BLOCKS, -1),
        counted(opcode::REWIND, 0, 0),
    ];
    let image = tape(&[F, F, D], C, 0);
    let mut bench = new_bench();
    for sequence in 0..packets.len().pow(4) {
        set(&mut bench, &record(1), &image, &index_of(C, &[0, 1]));
        let mut left = sequence;
        for _ in 0..4 {
            agree(bench.send(&packets[left % packets.len()], &[0x44; 1024]));
            left /= packets.len();
            let recorded = long_at(bench.image(), 8) as usize;
            let places = filemarks(&bench.image()[KINDS_AT..][..C], recorded);
            assert_eq!(bench.index(), index_of(C, &places));
        }
    }
    say(&format!(
        "every sequence of four: {} calls compared",
        bench.seen.calls
    ));
}
