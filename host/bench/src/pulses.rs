//! Trains and ticks that the pulse drive takes in a second: trains by single calls and the same trains by a list, by turns in one run.

use std::hint::black_box;
use std::time::Instant;

use tapecard::bytes::train;
use tapecard::pulse::{Cartridge, Record};

use crate::timing::{ROUNDS, Turn};

/// Trains of the lists, the first being one exchange.
const LENGTHS: [usize; 2] = [38, 4096];
/// Trains that are sent in a round by each, at least.
const TRAINS: usize = 1_500_000;
const TICKS: u32 = 1_000_000;
const CARTRIDGE: Cartridge = Cartridge {
    segments: 4095,
    tracks: 28,
    place: 0,
    protected: false,
    burst: true,
    wide: false,
    format: 2,
    kind: 2,
};

pub fn measure() {
    println!(
        "pulse drive, trains a second, single calls and lists by turns, best of {ROUNDS} rounds"
    );
    println!("list of       singly      by list   times as many");
    for length in LENGTHS {
        let sending = Sending::of(length);
        sending.check_alike();
        let (singly, by_list) = sending.best_by_turns();
        let times = by_list / singly;
        println!("{length:>7} {singly:>12.0} {by_list:>12.0} {times:>15.2}");
    }
    println!();
    println!("pulse drive, a second, best of {ROUNDS} rounds");
    println!("ticks   {:>12.0}", best(ticks_a_second));
}

fn best(measure: fn() -> f64) -> f64 {
    (0..ROUNDS).map(|_| measure()).fold(0.0, f64::max)
}

/// Trains that are sent to a drive in order.
struct Sending {
    start: Record,
    counts: Vec<u16>,
}

impl Sending {
    /// Status, error and configuration asked again and again, 38 trains each time, as far as this length goes.
    fn of(length: usize) -> Sending {
        let exchange: Vec<u16> = [
            (train::STATUS, 9),
            (train::ERROR, 17),
            (train::CONFIGURATION, 9),
        ]
        .into_iter()
        .flat_map(|(report, twos)| [vec![report], vec![train::NEXT_BIT; twos]].concat())
        .collect();
        Sending {
            start: ready_drive(),
            counts: exchange.into_iter().cycle().take(length).collect(),
        }
    }

    /// Both leave the same drive and the same levels.
    fn check_alike(&self) {
        let [by_list, singly] = [Turn::Measured, Turn::Beside].map(|turn| {
            let mut levels = vec![0x55; self.counts.len()];
            let drive = self.send(turn, &mut levels);
            (drive, levels)
        });
        assert_eq!(by_list, singly, "by a list and singly alike");
    }

    /// All trains once: the drive that is left, with the level after each train in the buffer.
    fn send(&self, turn: Turn, levels: &mut [u8]) -> Record {
        let mut drive = black_box(self.start);
        let counts = black_box(&self.counts[..]);
        match turn {
            Turn::Measured => {
                let level = drive.trains(counts, levels).expect("a drive in order");
                black_box(level);
            }
            Turn::Beside => {
                for (&pulses, level) in counts.iter().zip(levels.iter_mut()) {
                    *level = u8::from(drive.train(pulses).expect("a drive in order").is_high());
                }
            }
        }
        black_box(levels);
        drive
    }

    /// Trains a second of one round.
    fn trains_a_second(&self, turn: Turn) -> f64 {
        let mut levels = vec![0; self.counts.len()];
        let times = TRAINS.div_ceil(self.counts.len());
        let begun = Instant::now();
        for _ in 0..times {
            black_box(self.send(turn, &mut levels));
        }
        (times * self.counts.len()) as f64 / begun.elapsed().as_secs_f64()
    }

    /// The best round of single calls and of lists, each first in half of the rounds.
    fn best_by_turns(&self) -> (f64, f64) {
        let (mut singly, mut by_list) = (0.0, 0.0);
        for round in 0..ROUNDS {
            if round % 2 == 0 {
                singly = f64::max(singly, self.trains_a_second(Turn::Beside));
                by_list = f64::max(by_list, self.trains_a_second(Turn::Measured));
            } else {
                by_list = f64::max(by_list, self.trains_a_second(Turn::Measured));
                singly = f64::max(singly, self.trains_a_second(Turn::Beside));
            }
        }
        (singly, by_list)
    }
}

/// The tape runs from one end to the other and back.
fn ticks_a_second() -> f64 {
    let mut drive = ready_drive();
    let mut turns = [train::FORWARD, train::PHYSICAL_REVERSE]
        .into_iter()
        .cycle();
    let begun = Instant::now();
    for _ in 0..TICKS {
        if drive.ready() {
            let turn = turns.next().unwrap_or(train::FORWARD);
            drive
                .train(turn)
                .expect("a drive in order takes every train");
        }
        black_box(drive.tick()).expect("a drive in order takes every tick");
    }
    f64::from(TICKS) / begun.elapsed().as_secs_f64()
}

/// A drive with a cartridge, its error and its new mark read away.
fn ready_drive() -> Record {
    let mut drive = Record::power_on(0, 0);
    drive
        .insert(&CARTRIDGE)
        .expect("the cartridge is in its ranges");
    let status_then_error = [vec![6], vec![2; 9], vec![7], vec![2; 17]].concat();
    for pulses in status_then_error {
        drive
            .train(pulses)
            .expect("a drive in order takes every train");
    }
    assert!(drive.ready() && drive.error() == 0 && !drive.new_mark());
    drive
}
