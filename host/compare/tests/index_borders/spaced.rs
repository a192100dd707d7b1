//! SPACE over filemarks through the index: "the same answer, sense and position as without it".

use compare::{StreamBench, agree, say};
use tapecard::bytes::triple;

use crate::common::*;

/// Where SPACE over filemarks goes by the places alone, and what it tells: "ending beyond the last, on the beginning side when going
/// back", and 8/00/05 with EOM where the end of data is past early warning (A3).
fn spaced(places: &[usize], from: usize, (end, past): (usize, bool), count: i32) -> (usize, Sense) {
    let asked = count.unsigned_abs() as usize;
    let (behind, ahead): (Vec<usize>, Vec<usize>) = places.iter().partition(|&&p| p < from);
    let eom = if past { EOM } else { 0 };
    match count {
        0 => (from, GOOD),
        1.. if asked <= ahead.len() => (ahead[asked - 1] + 1, GOOD),
        1.. => {
            let residue = asked - ahead.len();
            (end, (triple::END_OF_DATA, VALID + eom, residue as u32))
        }
        _ if asked <= behind.len() => (behind[behind.len() - asked], GOOD),
        _ => {
            let residue = asked - behind.len();
            (0, (triple::BEGINNING, VALID + EOM, residue as u32))
        }
    }
}

/// Every count from -5 to 5, and the extreme ones, at every place of every tape of five, before early warning and past it.
#[test]
fn every_count_at_every_place() {
    const C: usize = 5;
    let counts: Vec<i32> = (-5..=5)
        .chain([8_388_607, -8_388_607, -8_388_608])
        .collect();
    let mut bench = new_bench();
    for (kinds, recorded, place) in places_of_tapes(C) {
        let places = filemarks(&kinds, recorded);
        let index = long_index_of(C, &places);
        // U = C - W is not past it, one element more is; a tape of no element never is.
        for (warning, past) in [
            (C - recorded, false),
            ((C - recorded + 1).min(C), recorded > 0),
        ] {
            let image = tape(&kinds, recorded, warning);
            for &count in &counts {
                set(&mut bench, &record(place), &image, &index);
                agree(bench.send(&over_filemarks(count), &[]));
                let (to, sense) = spaced(&places, place, (recorded, past), count);
                leaves(&bench, &record_after(&record(place), to, sense), &index);
            }
        }
    }
    say(&format!(
        "SPACE over filemarks on every tape of {C}: {} calls compared",
        bench.seen.calls
    ));
}

/// The same in numbers that were worked out one by one, on the small tape.
#[test]
fn spaced_by_hand() {
    let index = index_of(6, &SMALL_PLACES);
    let good = |place| (place, GOOD);
    let end = |residue| (5, (triple::END_OF_DATA, VALID, residue));
    let beginning = |residue| (0, (triple::BEGINNING, VALID + EOM, residue));
    for (place, count, (to, sense)) in [
        (0, 0, good(0)),
        (0, 1, good(2)),
        (0, 2, good(4)),
        (0, 3, good(5)),
        (0, 4, end(1)),
        (1, 1, good(2)),
        (1, 3, good(5)),
        (1, -1, beginning(1)),
        (2, 0, good(2)),
        (2, 1, good(4)),
        (2, -1, good(1)),
        (2, -2, beginning(1)),
        (3, 1, good(4)),
        (3, -1, good(1)),
        (4, 0, good(4)),
        (4, 1, good(5)),
        (4, 2, end(1)),
        (4, -1, good(3)),
        (4, -2, good(1)),
        (5, 1, end(1)),
        (5, -1, good(4)),
        (5, -3, good(1)),
        (5, -5, beginning(2)),
        (0, -1, beginning(1)),
        (0, 8_388_607, end(8_388_604)),
        (5, -8_388_608, beginning(8_388_605)),
    ] {
        let mut bench = bench_with(&record(place), &small(), &index);
        agree(bench.send(&over_filemarks(count), &[]));
        leaves(&bench, &record_after(&record(place), to, sense), &index);
    }
}

/// The end of data of the small tape (C 6, U 5): EOM from an early warning of 2 on.
#[test]
fn eom_by_hand() {
    let index = index_of(6, &SMALL_PLACES);
    for (warning, flags) in [(0, VALID), (1, VALID), (2, VALID + EOM), (6, VALID + EOM)] {
        let image = tape(&SMALL, 5, warning);
        let mut bench = bench_with(&record(3), &image, &index);
        agree(bench.send(&over_filemarks(3), &[]));
        let sense = (triple::END_OF_DATA, flags, 1);
        leaves(&bench, &record_after(&record(3), 5, sense), &index);
    }
}

/// An attention and a cartridge that is not loaded end it as they end any other packet.
#[test]
fn spacing_that_is_not_begun() {
    let index = index_of(6, &SMALL_PLACES);
    for (at, value, sense) in [
        (5, 1, triple::MEDIUM_CHANGED),
        (5, 2, triple::RESET),
        (4, 0, triple::NOT_LOADED),
        (4, 2, triple::NOT_LOADED),
    ] {
        let before = record_with(5, at, value);
        let mut bench = bench_with(&before, &small(), &index);
        agree(bench.send(&over_filemarks(-1), &[]));
        leaves(&bench, &record_after(&before, 5, (sense, 0, 0)), &index);
    }
}
