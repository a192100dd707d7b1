//! Indexes that are made afresh.

use compare::{StreamBench, agree};
use tapecard::bytes::kind;

use crate::common::*;

/// Kinds, U, the places by hand; whatever the buffer held before, and whatever is beyond it.
#[test]
fn indexes_made_afresh() {
    for (kinds, recorded, places) in [
        (&[D][..], 0, &[][..]),
        (&[F], 0, &[]),
        (&[D], 1, &[]),
        (&[F], 1, &[0]),
        (&[F; 6], 0, &[]),
        (&[F; 6], 5, &[0, 1, 2, 3, 4]),
        (&[F; 6], 6, &[0, 1, 2, 3, 4, 5]),
        (&[D; 6], 6, &[]),
        (&[F, D, D, D, F, F], 5, &[0, 4]),
        (&[D, F, D, F, F, D], 6, &[1, 3, 4]),
        (&[0, 1, 3, 4, 5, 255], 6, &[]),
        (&[kind::MARKED, F, kind::MARKED, F], 3, &[1]),
    ] {
        for beyond in [&[][..], &BEYOND[..1], &BEYOND] {
            for before in [0x00, 0x5A, 0xFF] {
                is_made(kinds, recorded, places, &[before; 24], beyond);
            }
        }
    }
}

fn is_made(kinds: &[u8], recorded: usize, places: &[usize], before: &[u8], beyond: &[u8]) {
    let capacity = kinds.len();
    let unmade = [&before[..4 * capacity], beyond].concat();
    let mut bench = bench_with(&record(0), &tape(kinds, recorded, 0), &unmade);
    assert_eq!(agree(bench.make()), 0);
    let mut answer = [0; 16];
    answer[7] = places.len() as u8;
    answer[11] = 4 * capacity as u8;
    assert_eq!(bench.answer(), &answer);
    let expected = [&index_of(capacity, places), beyond].concat();
    assert_eq!(bench.index(), expected, "{kinds:?}, U {recorded}");
    assert_eq!(bench.record(), &record(0));
}

#[test]
fn an_index_in_its_bytes() {
    let unmade = [[0x77; 20], [0xEE; 20]].concat();
    let mut bench = bench_with(&record(0), &tape(&[D, F, F, D, D], 4, 0), &unmade);
    agree(bench.make());
    let answer = [0, 0, 0, 0, 0, 0, 0, 2, 0, 0, 0, 20, 0, 0, 0, 0];
    assert_eq!(bench.answer(), &answer);
    assert_eq!(bench.index()[..8], [0, 0, 0, 1, 0, 0, 0, 2]);
    assert_eq!(bench.index()[8..20], [0xFF; 12]);
    assert_eq!(bench.index()[20..], [0xEE; 20]);
    agree(bench.send(&over_filemarks(2), &[]));
    assert_eq!(bench.record(), &record_after(&record(0), 3, GOOD));
}
