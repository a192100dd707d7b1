//! The packet drive with a filemark index beside the plain one: a READ of 64 blocks, SPACE over all filemarks, and how long an index
//! takes that is checked and one that is made afresh. Every packet checks the whole index first (refusal 10), so a longer tape costs
//! more.

use std::hint::black_box;
use std::time::{Duration, Instant};

use tapecard::bytes::{kind, long_at, opcode, put_count, space};
use tapecard::index::ENTRY_LENGTH;
use tapecard::raw;

use crate::reading::record_at_the_beginning;
use crate::tape::{self, BLOCK_SIZE, BLOCKS, READ, ROOM};
use crate::timing::{Medians, ROUNDS, Turn, by_turns, median, tell_ratios};

/// Elements of the tapes, and how often each packet is sent in a round.
const TAPES: [(usize, usize); 2] = [(1000, 2000), (60_000, 200)];
/// Elements from one filemark to the next; the READ ends before the first.
const FILE: usize = 100;

/// The packet that does nothing but be checked.
const TEST_UNIT_READY: [u8; 12] = [opcode::TEST_UNIT_READY, 0, 0, 0, 0, 0, 0, 0, 0, 0, 0, 0];

/// A tape full of files with its index, at its beginning.
struct Tape {
    image: Vec<u8>,
    index: Vec<u8>,
    start: [u8; 16],
    data: Vec<u8>,
    filemarks: usize,
}

pub fn measure() {
    for (elements, times) in TAPES {
        let mut tape = Tape::of(elements);
        let filemarks = tape.filemarks;
        let behind_all = (filemarks * FILE) as u32;
        println!(
            "READ of {BLOCKS} blocks of {BLOCK_SIZE} bytes, a tape of {elements} elements with {filemarks} filemarks,"
        );
        println!("the median of {times} a round, the buffer cleared before each");
        compare(&mut tape, &READ, times, BLOCKS as u32);
        println!();
        println!("SPACE over the {filemarks} filemarks of this tape");
        compare(&mut tape, &over_filemarks(filemarks), times, behind_all);
        println!();
    }
    println!("the index alone, ns, best of {ROUNDS} rounds");
    println!("elements   checked   made afresh");
    for (elements, times) in TAPES {
        let mut tape = Tape::of(elements);
        let checked = best(times, || tape.send(Turn::Measured, &TEST_UNIT_READY).0);
        let made = best(times, || tape.make());
        println!("{elements:>8} {checked:>9.0} {made:>13.0}");
    }
}

impl Tape {
    fn of(elements: usize) -> Tape {
        let mut image = tape::image_of(elements);
        for element in (FILE - 1..elements).step_by(FILE) {
            image[tape::KINDS_AT + element] = kind::FILEMARK;
        }
        let mut index = vec![0; ENTRY_LENGTH * elements];
        let mut answer = [0; 16];
        raw::index_make(&image, &mut index, &mut answer);
        assert_eq!(answer[0], 0, "an index for every element");
        Tape {
            start: record_at_the_beginning(&mut image),
            filemarks: long_at(&answer, 4) as usize,
            data: vec![0; ROOM],
            image,
            index,
        }
    }

    /// One packet from the beginning of the tape: its time, the record and the answer. The clearing is not timed.
    fn send(&mut self, turn: Turn, packet: &[u8; 12]) -> (Duration, [u8; 16], [u8; 16]) {
        let (mut record, mut answer) = (self.start, [0; 16]);
        self.data.fill(0);
        black_box(&mut self.data);
        let (image, index) = (black_box(&mut self.image), black_box(&mut self.index));
        let begun = Instant::now();
        match turn {
            Turn::Measured => raw::index_packet(
                black_box(&mut record),
                image,
                index,
                black_box(packet),
                &mut self.data,
                &mut answer,
            ),
            Turn::Beside => raw::packet(
                black_box(&mut record),
                image,
                black_box(packet),
                &mut self.data,
                &mut answer,
            ),
        }
        let taken = begun.elapsed();
        black_box((&record, &answer, &self.data));
        (taken, record, answer)
    }

    /// The time of an index made afresh.
    fn make(&mut self) -> Duration {
        let (image, index) = (black_box(&self.image), black_box(&mut self.index));
        let mut answer = [0; 16];
        let begun = Instant::now();
        raw::index_make(image, index, &mut answer);
        let taken = begun.elapsed();
        black_box((&answer, &self.index));
        taken
    }
}

fn over_filemarks(count: usize) -> [u8; 12] {
    let mut packet = [0; 12];
    packet[..2].copy_from_slice(&[opcode::SPACE, space::FILEMARKS]);
    put_count(&mut packet, 2, count as u32);
    packet
}

/// Both end at this place with the same record and answer; then the rounds.
fn compare(tape: &mut Tape, packet: &[u8; 12], times: usize, place: u32) {
    let [indexed, plain] = [Turn::Measured, Turn::Beside].map(|turn| {
        let (_, record, answer) = tape.send(turn, packet);
        (record, answer)
    });
    assert_eq!(indexed, plain, "with the index and without it alike");
    assert_eq!((long_at(&plain.0, 0), plain.1[1]), (place, 0));
    let mut round = |times| by_turns(times, |turn| tape.send(turn, packet).0);
    round(times / 10);
    println!("round    index ns  plain ns   ratio");
    let mut ratios = Vec::new();
    for number in 1..=ROUNDS {
        let medians = round(times);
        show(number, &medians);
        ratios.push(medians.ratio());
    }
    tell_ratios(ratios);
}

fn show(round: usize, medians: &Medians) {
    println!(
        "{round:>5} {:>11.0} {:>9.0} {:>7.2}",
        medians.measured,
        medians.beside,
        medians.ratio()
    );
}

/// The median of a round, best of all.
fn best(times: usize, mut time: impl FnMut() -> Duration) -> f64 {
    let mut round = || median((0..times).map(|_| time()).collect());
    (0..ROUNDS).map(|_| round()).fold(f64::INFINITY, f64::min)
}
