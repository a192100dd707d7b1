//! READ of 64 blocks: the engine beside the function of `purpose`, five rounds after a warm-up, the two by turns.

use std::hint::black_box;
use std::time::{Duration, Instant};

use tapecard::bytes::{kind, long_at};
use tapecard::raw;

use crate::purpose;
use crate::tape::{self, BLOCK_SIZE, BLOCKS, EARLY_WARNING_AT, KINDS, READ, ROOM};
use crate::timing::{Medians, ROUNDS, Turn, by_turns, tell_ratios};

const READS: usize = 5000;
const WARMING_READS: usize = 500;

type Call = fn(&mut [u8; 16], &mut [u8], &[u8], &mut [u8], &mut [u8; 16]);

pub fn measure() {
    let mut image = tape::image();
    let start = record_at_the_beginning(&mut image);
    check_alike(&start, &mut image);
    time_by_turns(WARMING_READS, &start, &mut image);
    println!("READ of {BLOCKS} blocks of {BLOCK_SIZE} bytes, the median of {READS} a round,");
    println!("the buffer cleared before each");
    println!("round   engine ns   Rust ns   engine MB/s   ratio");
    let mut ratios = Vec::new();
    for round in 1..=ROUNDS {
        let medians = time_by_turns(READS, &start, &mut image);
        show(round, &medians);
        ratios.push(medians.ratio());
    }
    tell_ratios(ratios);
}

fn show(round: usize, medians: &Medians) {
    let speed = ROOM as f64 * 1e3 / medians.measured;
    println!(
        "{round:>5} {:>11.0} {:>9.0} {speed:>13.0} {:>7.2}",
        medians.measured,
        medians.beside,
        medians.ratio()
    );
}

/// Reads with both.
fn time_by_turns(reads: usize, start: &[u8; 16], image: &mut [u8]) -> Medians {
    let mut data = vec![0; ROOM];
    by_turns(reads, |turn| {
        let call = match turn {
            Turn::Measured => raw::packet,
            Turn::Beside => by_purpose,
        };
        time_one(call, start, image, &mut data)
    })
}

/// One READ from the beginning of the tape; the clearing is not timed.
fn time_one(call: Call, start: &[u8; 16], image: &mut [u8], data: &mut [u8]) -> Duration {
    let mut record = *start;
    let mut answer = [0; 16];
    data.fill(0);
    black_box(&mut *data);
    let begun = Instant::now();
    call(
        black_box(&mut record),
        black_box(&mut *image),
        black_box(&READ),
        black_box(&mut *data),
        black_box(&mut answer),
    );
    let taken = begun.elapsed();
    black_box((&record, &answer, &*data));
    taken
}

fn by_purpose(
    record: &mut [u8; 16],
    image: &mut [u8],
    packet: &[u8],
    data: &mut [u8],
    answer: &mut [u8; 16],
) {
    purpose::packet(record, image, packet, data, answer);
}

pub fn record_at_the_beginning(image: &mut [u8]) -> [u8; 16] {
    let mut record = [0; 16];
    raw::fresh(&mut record);
    let mut answer = [0; 16];
    for _ in 0..2 {
        raw::packet(&mut record, image, &[0; 12], &mut [], &mut answer);
    }
    assert_eq!(answer, [0; 16], "the drive is ready");
    record
}

/// Both give the same record, answer and bytes, and these are the tape's. Both end the next READ alike too, at the end of data before
/// and past early warning, and both count the marked blocks of a tape that has some.
fn check_alike(start: &[u8; 16], image: &mut [u8]) {
    let (behind, _, data) = read_by_both(start, image);
    assert_eq!(data, image[image.len() - ROOM..], "the tape's bytes");
    for early_warning in [0, 1] {
        let mut cartridge = image.to_vec();
        cartridge[EARLY_WARNING_AT] = early_warning;
        read_by_both(&behind, &mut cartridge);
    }
    for marked in [0, 1, BLOCKS] {
        let mut cartridge = image.to_vec();
        cartridge[KINDS][..marked].fill(kind::MARKED);
        let (_, answer, copied) = read_by_both(start, &mut cartridge);
        assert_eq!(long_at(&answer, 12) as usize, marked, "marked blocks");
        assert_eq!(copied, data, "a mark changes no byte");
    }
}

/// The record, the answer and the bytes that a READ from this record gives.
fn read_by_both(start: &[u8; 16], image: &mut [u8]) -> ([u8; 16], [u8; 16], Vec<u8>) {
    let [engine, rust] = [raw::packet as Call, by_purpose].map(|call| {
        let (mut record, mut answer, mut data) = (*start, [0; 16], vec![0; ROOM]);
        call(&mut record, image, &READ, &mut data, &mut answer);
        (record, answer, data)
    });
    assert_eq!(engine, rust, "engine and Rust agree");
    engine
}
