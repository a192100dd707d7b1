//! Lists of trains for the sessions of the pulse drive: exchanges gathered into lists as a host would send them, and any lists.

use std::collections::VecDeque;

use crate::pulse_sessions::any_train;
use crate::{PulseCall, Random, TrainList};

/// Lists that are long are rare, so that millions of calls stay fast.
const LONG_IN_100: u64 = 10;
const LONGEST: u64 = 5000;

/// Sends the trains of this plan by lists, each as far as the next call that is no train; some are cut in two.
pub fn gather_trains(planned: &mut VecDeque<PulseCall>, random: &mut Random) {
    let mut counts = Vec::new();
    for call in std::mem::take(planned) {
        match call {
            PulseCall::Train(count) => {
                if random.percent(4) {
                    end_list(planned, &mut counts, random);
                }
                counts.push(count);
            }
            other => {
                end_list(planned, &mut counts, random);
                planned.push_back(other);
            }
        }
    }
    end_list(planned, &mut counts, random);
}

fn end_list(planned: &mut VecDeque<PulseCall>, counts: &mut Vec<u16>, random: &mut Random) {
    if !counts.is_empty() {
        let list = lent(std::mem::take(counts), 4, random);
        planned.push_back(PulseCall::Trains(list));
    }
}

/// Any trains at all, in a list of any length.
pub fn any_list(random: &mut Random) -> TrainList {
    let length = match random.below(100) {
        0..LONG_IN_100 => random.between(257, LONGEST),
        10..=19 => 0,
        20..=29 => 1,
        30..=34 => random.between(250, 260),
        _ => random.between(2, 60),
    };
    let counts = (0..length).map(|_| any_train(random).max(1)).collect();
    lent(counts, 35, random)
}

/// Lends a level buffer with the list, of its length or longer; so many in a hundred have a 0 in them, and so many too little room.
fn lent(mut counts: Vec<u16>, odd: u64, random: &mut Random) -> TrainList {
    if random.percent(odd) {
        put_zeros(&mut counts, random);
    }
    let length = counts.len();
    let room = if random.percent(odd) {
        let some = random.below(length as u64 + 1) as usize;
        random.pick(&[0, some, length.saturating_sub(1)])
    } else {
        length + random.pick(&[0, 0, 1, 2, 40])
    };
    TrainList { counts, room }
}

fn put_zeros(counts: &mut [u16], random: &mut Random) {
    let Some(last) = counts.len().checked_sub(1) else {
        return;
    };
    let between = random.below(last as u64 + 1) as usize;
    match random.below(4) {
        0 => counts[0] = 0,
        1 => counts[last] = 0,
        2 => counts[between] = 0,
        _ => {
            counts[0] = 0;
            counts[between] = 0;
        }
    }
}
