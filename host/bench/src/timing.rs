//! Two calls timed by turns in one run.

use std::time::Duration;

/// Rounds of each measurement.
pub const ROUNDS: usize = 5;

/// Whose turn it is.
#[derive(Clone, Copy)]
pub enum Turn {
    /// What is measured.
    Measured,
    /// What it is measured against.
    Beside,
}

/// The median times of both, in nanoseconds.
pub struct Medians {
    pub measured: f64,
    pub beside: f64,
}

impl Medians {
    pub fn ratio(&self) -> f64 {
        self.measured / self.beside
    }
}

/// Times both so many times, each first in half of the turns.
pub fn by_turns(times: usize, mut time: impl FnMut(Turn) -> Duration) -> Medians {
    let mut measured = Vec::with_capacity(times);
    let mut beside = Vec::with_capacity(times);
    for turn in 0..times {
        if turn % 2 == 0 {
            measured.push(time(Turn::Measured));
            beside.push(time(Turn::Beside));
        } else {
            beside.push(time(Turn::Beside));
            measured.push(time(Turn::Measured));
        }
    }
    Medians {
        measured: median(measured),
        beside: median(beside),
    }
}

/// The median in nanoseconds, which other work on the machine hardly moves.
pub fn median(mut times: Vec<Duration>) -> f64 {
    times.sort();
    times[times.len() / 2].as_secs_f64() * 1e9
}

/// The line below the rounds.
pub fn tell_ratios(mut ratios: Vec<f64>) {
    ratios.sort_by(f64::total_cmp);
    println!(
        "ratio: median {:.2}, from {:.2} to {:.2}",
        ratios[ratios.len() / 2],
        ratios[0],
        ratios[ratios.len() - 1]
    );
}
