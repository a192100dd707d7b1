//! The largest tape, with filemarks here and there and with nothing else.

use compare::{StreamBench, agree};
use tapecard::bytes::{opcode, triple};

use crate::common::*;

const C: usize = 65_535;
/// At both ends, and where a place takes another byte.
const PLACES: [usize; 8] = [0, 255, 256, 257, 32_767, 32_768, 65_279, 65_534];

fn spread() -> Vec<u8> {
    let mut kinds = vec![D; C];
    for place in PLACES {
        kinds[place] = F;
    }
    tape(&kinds, C, 1)
}

#[test]
fn filemarks_here_and_there() {
    let index = index_of(C, &PLACES);
    let mut bench = bench_with(&record(0), &spread(), &vec![0x77; 4 * C]);
    assert_eq!(agree(bench.make()), 0);
    let answer = [0, 0, 0, 0, 0, 0, 0, 8, 0, 3, 0xFF, 0xFC, 0, 0, 0, 0];
    assert_eq!(bench.answer(), &answer);
    assert!(bench.index() == index);
    for (place, count, to, sense) in [
        (0, 2, 256, GOOD),
        (256, 1, 257, GOOD),
        (257, 3, 32_769, GOOD),
        (258, 5, C, (triple::END_OF_DATA, VALID + EOM, 1)),
        (C, -1, 65_534, GOOD),
        (65_534, -3, 32_767, GOOD),
        (65_280, -8, 0, (triple::BEGINNING, VALID + EOM, 1)),
        (1, -3, 0, (triple::BEGINNING, VALID + EOM, 2)),
    ] {
        bench.set_record(&record(place));
        agree(bench.send(&over_filemarks(count), &[]));
        leaves(&bench, &record_after(&record(place), to, sense), &index);
    }
    bench.set_record(&record(32_768));
    agree(bench.send(&counted(opcode::WRITE, 1, 1), &[0x44; 512]));
    assert!(bench.index() == index_of(C, &PLACES[..5]));
    agree(bench.send(&counted(opcode::WRITE_FILEMARK, 0, 1), &[]));
    let marked = index_of(C, &[&PLACES[..5], &[32_769]].concat());
    assert!(bench.index() == marked);
    let mut wrong = marked;
    wrong[4 * C - 1] = 0xFE;
    bench.set_index(&wrong);
    agree(bench.send(&over_filemarks(0), &[]));
    assert_eq!(bench.answer(), &refusal(10));
}

/// As many filemarks as a cartridge can hold: the index has no rest.
#[test]
fn nothing_but_filemarks() {
    let all: Vec<usize> = (0..C).collect();
    let index = index_of(C, &all);
    let mut bench = bench_with(&record(0), &tape(&[F; C], C, 0), &index);
    for (place, count, to, sense) in [
        (0, 65_535, C, GOOD),
        (C, -65_535, 0, GOOD),
        (32_768, 32_767, C, GOOD),
        (32_768, 32_768, C, (triple::END_OF_DATA, VALID, 1)),
        (32_768, -32_768, 0, GOOD),
        (32_768, -32_769, 0, (triple::BEGINNING, VALID + EOM, 1)),
    ] {
        bench.set_record(&record(place));
        agree(bench.send(&over_filemarks(count), &[]));
        leaves(&bench, &record_after(&record(place), to, sense), &index);
    }
    agree(bench.make());
    assert_eq!(bench.answer()[4..12], [0, 0, 0xFF, 0xFF, 0, 3, 0xFF, 0xFC]);
    bench.set_record(&record(C));
    agree(bench.send(&counted(opcode::WRITE_FILEMARK, 0, 1), &[]));
    let full = (triple::FULL, VALID + EOM, 1);
    leaves(&bench, &record_after(&record(C), C, full), &index);
    bench.set_index(&index[..4 * C - 1]);
    agree(bench.send(&over_filemarks(1), &[]));
    assert_eq!(bench.answer(), &refusal(9));
}
