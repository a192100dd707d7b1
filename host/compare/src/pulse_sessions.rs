//! Sessions of the pulse drive: exchanges that a host would make, broken in on at random, and damage.

use std::collections::VecDeque;

use tapecard::bytes::train::{COMMANDS, REPORTS, SKIPS};
use tapecard::bytes::{put_word, word_at};

use crate::list_sessions::{any_list, gather_trains};
use crate::{Difference, PulseBench, PulseCall, Random};

/// Makes calls, session after session, until `calls` are compared.
pub fn run(bench: &mut PulseBench, random_seed: u64, calls: u64) -> Result<(), Box<Difference>> {
    let mut session = 0;
    while bench.seen.calls < calls {
        let mut random = Random::of_session(random_seed, session);
        session += 1;
        let length = start(bench, &mut random)?;
        let left = calls.saturating_sub(bench.seen.calls);
        let edits = random.percent(70);
        run_session(bench, &mut random, length.min(left), edits)?;
    }
    Ok(())
}

/// One session from the record that the bench has, with edits of the record or by calls alone.
pub fn run_session(
    bench: &mut PulseBench,
    random: &mut Random,
    length: u64,
    edits: bool,
) -> Result<(), Box<Difference>> {
    let mut planned = VecDeque::new();
    for _ in 0..length {
        if edits && random.percent(3) {
            with_damaged_record(bench, random)?;
            continue;
        }
        if edits && planned.is_empty() && random.percent(60) {
            bench.set_record(&healed(bench.record()));
        }
        if planned.is_empty() {
            plan(&mut planned, bench.record(), random);
            if random.percent(25) {
                gather_trains(&mut planned, random);
            }
        }
        let report_is_open = bench.record()[17] != 0;
        let breaks_in = if report_is_open { 2 } else { 8 };
        let call = if random.percent(breaks_in) {
            any_call(bench.record(), random)
        } else {
            planned.pop_front().expect("a plan has calls")
        };
        bench.make(call)?;
    }
    Ok(())
}

/// A session starts from power-on, and then is long, from any record that keeps the rules, or from any bytes.
fn start(bench: &mut PulseBench, random: &mut Random) -> Result<u64, Box<Difference>> {
    let mut noise = [0; 32];
    random.fill(&mut noise);
    bench.begin(&noise);
    match random.below(100) {
        0..=9 => {
            let power_on = PulseCall::PowerOn(random.number() as u16, random.byte());
            bench.make(power_on)?;
            let longest = random.pick(&[100, 300, 3000]);
            return Ok(random.between(20, longest));
        }
        10..=97 => bench.set_record(&valid_record(random)),
        _ => {
            bench.make(any_call(&noise, random))?;
            bench.set_record(&valid_record(random));
        }
    }
    Ok(random.between(5, 40))
}

/// One call with a record that is damaged or has bytes that decoding leaves out; mostly put back afterwards.
fn with_damaged_record(bench: &mut PulseBench, random: &mut Random) -> Result<(), Box<Difference>> {
    let good = *bench.record();
    let mut record = if random.percent(30) {
        valid_record(random)
    } else {
        good
    };
    if random.percent(25) {
        put_surplus(&mut record, random);
    } else {
        damage(&mut record, random);
    }
    bench.set_record(&record);
    let call = if random.percent(30) {
        PulseCall::Trains(any_list(random))
    } else {
        any_call(&record, random)
    };
    bench.make(call)?;
    let refused = bench.answer()[0] == 8;
    if refused || random.percent(30) {
        bench.set_record(&good);
    }
    Ok(())
}

/// The record without its error, new mark and report, which hold most commands back.
fn healed(record: &[u8; 32]) -> [u8; 32] {
    let mut healed = *record;
    healed[0] &= !(4 + 16);
    healed[14..16].fill(0);
    healed[17..20].fill(0);
    healed
}

fn damage(record: &mut [u8; 32], random: &mut Random) {
    match random.below(12) {
        0 => record[0] ^= 1 << random.below(8),
        1 => record[1] = random.pick(&[0, 1, 2, 3, 4, 255]),
        2 => put_word(record, 2, random.pick(&[0, 1, 4095, 4096, 0xFFFF])),
        3 => record[4] = random.pick(&[0, 1, 64, 65, 255]),
        4 => {
            let at = random.pick(&[6, 7, 13, 14, 17]);
            record[at] = random.below(40) as u8;
        }
        5 => {
            let beyond = word_at(record, 2).wrapping_add(1);
            let at = random.pick(&[8, 10]);
            put_word(
                record,
                at,
                random.pick(&[beyond, beyond.wrapping_sub(1), 0]),
            );
        }
        6 => record[12] = random.pick(&[record[4], record[4].wrapping_sub(1), 0]),
        7 => {
            record[20] = random.pick(&[13, 25, 26, 27, 34, 35, 23, 28, 29, 38, 46, 1, 255]);
            record[21] = random.below(5) as u8;
        }
        8 => {
            let at = random.pick(&[15, 16, 18, 19, 21, 22, 23, 27, 28, 29, 30, 31]);
            record[at] = random.byte();
        }
        9 => random.fill(record),
        _ => {
            let at = random.below(32) as usize;
            record[at] = random.byte();
        }
    }
}

/// A record that keeps the rules, reachable or not.
pub fn valid_record(random: &mut Random) -> [u8; 32] {
    let mut record = [0; 32];
    if random.percent(80) {
        put_cartridge(&mut record, random);
    }
    record[13] = random.below(4) as u8;
    put_error(&mut record, random);
    record[16] = random.byte() & 1;
    record[0] |= 8 * u8::from(random.flag());
    if random.percent(35) {
        put_report(&mut record, random);
    } else if random.percent(50) {
        put_arguments(&mut record, random);
    }
    put_word(&mut record, 24, random.number() as u16);
    record[26] = random.byte();
    if random.percent(20) {
        put_surplus(&mut record, random);
    }
    record
}

fn put_cartridge(record: &mut [u8; 32], random: &mut Random) {
    let segments = segments(random);
    let tracks = tracks(random);
    record[0] |= 1 + 2 * u8::from(random.percent(65)) + 4 * u8::from(random.percent(25));
    put_word(record, 2, segments);
    record[4] = tracks;
    record[5] = random.byte() & 7;
    record[6] = random.below(5) as u8;
    record[7] = random.below(8) as u8;
    let place = place(random, segments);
    put_word(record, 8, place);
    put_word(record, 10, place);
    record[12] = random.below(u64::from(tracks)) as u8;
    if random.percent(40) {
        let between = random.below(u64::from(segments) + 1) as u16;
        let target = random.pick(&[0, segments, between]);
        put_word(record, 10, target);
        record[1] = match (place == target, target) {
            (true, _) => 0,
            (false, 0) => random.pick(&[1, 2]),
            (false, _) => 1,
        };
    }
}

fn put_error(record: &mut [u8; 32], random: &mut Random) {
    if random.percent(70) {
        record[15] = random.pick(&[0, 0, 0, 9]);
        return;
    }
    if record[1] == 1 {
        let place = word_at(record, 8);
        put_word(record, 10, place);
        record[1] = 0;
    }
    record[14] = random.pick(&model::pulse::ERRORS);
    record[15] = random.byte();
}

fn put_report(record: &mut [u8; 32], random: &mut Random) {
    record[17] = random.between(1, 17) as u8;
    put_word(record, 18, random.number() as u16);
    record[0] |= 16 * u8::from(random.percent(30));
}

fn put_arguments(record: &mut [u8; 32], random: &mut Random) {
    let referenced = record[0] & 2 != 0;
    let at_rest = record[1] == 0 && record[14] == 0 && record[0] & 4 == 0;
    if !at_rest {
        return;
    }
    let code: u16 = if referenced {
        random.pick(&[13, 25, 26, 27, 34, 35])
    } else {
        27
    };
    record[20] = code as u8;
    let needed = u64::from(model::pulse::arguments_needed(code));
    record[21] = random.below(needed) as u8;
    put_word(record, 22, random.number() as u16);
}

/// Bytes that decoding leaves out.
fn put_surplus(record: &mut [u8; 32], random: &mut Random) {
    record[0] |= random.byte() & 0xE0;
    record[5] |= random.byte() & 0xF8;
    record[16] |= random.byte() & 0xFE;
    if record[1] == 0 {
        record[1] = random.pick(&[0, 3, 4, 255]);
    }
    if record[17] == 0 {
        put_word(record, 18, random.number() as u16);
    }
    if record[20] == 0 {
        random.fill(&mut record[21..24]);
    }
    random.fill(&mut record[27..]);
}

/// An exchange that a host would begin from this record.
fn plan(planned: &mut VecDeque<PulseCall>, record: &[u8; 32], random: &mut Random) {
    let cartridge_in = record[0] & 1 != 0;
    if !cartridge_in && random.percent(50) {
        planned.push_back(PulseCall::Insert(good_cartridge(random)));
        return;
    }
    if record[14] != 0 || record[0] & 4 != 0 {
        if random.percent(30) {
            planned.push_back(PulseCall::Wait(u32::MAX));
        }
        if random.percent(15) {
            plan_recovery(planned);
            return;
        }
    }
    match random.below(16) {
        0..=2 => plan_report(planned, random),
        3..=6 => plan_skip(planned, record, random),
        7 => plan_argument(planned, 13, random.below(70)),
        8 => plan_argument(planned, 27, random.below(6)),
        9 | 10 => plan_motion(planned, random),
        11 => planned.push_back(PulseCall::Wait(limit(record, random))),
        12 => planned.extend([const { PulseCall::Tick }; 3]),
        13 => plan_trains(planned, &[random.pick(&[3, 18])]),
        14 if random.percent(10) => planned.push_back(PulseCall::Remove),
        _ => planned.push_back(any_call(record, random)),
    }
}

/// "Recovery: eighteen 2s; 6, nine 2s; 7, seventeen 2s; 46 trains."
pub fn plan_recovery(planned: &mut VecDeque<PulseCall>) {
    plan_trains(planned, &[2; 18]);
    plan_trains(planned, &[6]);
    plan_trains(planned, &[2; 9]);
    plan_trains(planned, &[7]);
    plan_trains(planned, &[2; 17]);
}

fn plan_trains(planned: &mut VecDeque<PulseCall>, trains: &[u16]) {
    planned.extend(trains.iter().map(|&n| PulseCall::Train(n)));
}

fn plan_report(planned: &mut VecDeque<PulseCall>, random: &mut Random) {
    plan_trains(planned, &[random.pick(&REPORTS)]);
    for _ in 0..random.pick(&[0, 3, 9, 17, 18]) {
        if random.percent(6) {
            plan_trains(planned, &[random.pick(&[36, 37, 39, 46, 200, 257])]);
        }
        plan_trains(planned, &[2]);
    }
}

fn plan_skip(planned: &mut VecDeque<PulseCall>, record: &[u8; 32], random: &mut Random) {
    let code = random.pick(&SKIPS);
    plan_trains(planned, &[code]);
    for _ in 0..model::pulse::arguments_needed(code) {
        let nibble = match random.below(12) {
            0 => random.pick(&[16, 17, 300, 65_533]),
            1 => 15,
            _ => random.below(16) as u16,
        };
        if random.percent(5) {
            planned.push_back(PulseCall::Tick);
        }
        plan_trains(planned, &[nibble + 2]);
    }
    if random.flag() {
        planned.push_back(PulseCall::Wait(limit(record, random)));
    }
}

fn plan_motion(planned: &mut VecDeque<PulseCall>, random: &mut Random) {
    plan_trains(planned, &[random.pick(&[10, 11, 12, 14])]);
    for _ in 0..random.below(3) {
        planned.push_back(PulseCall::Tick);
    }
    if random.percent(5) {
        planned.push_back(PulseCall::Remove);
    }
}

fn plan_argument(planned: &mut VecDeque<PulseCall>, code: u16, value: u64) {
    plan_trains(planned, &[code, value as u16 + 2]);
}

/// Any call at all, with the numbers that matter for this record.
pub fn any_call(record: &[u8; 32], random: &mut Random) -> PulseCall {
    match random.weighted(&[70, 12, 8, 5, 3, 9, 1]) {
        0 => PulseCall::Train(any_train(random)),
        1 => PulseCall::Tick,
        2 => PulseCall::Wait(limit(record, random)),
        3 => PulseCall::Insert(any_cartridge(random)),
        4 => PulseCall::Remove,
        5 => PulseCall::Trains(any_list(random)),
        _ => PulseCall::PowerOn(random.number() as u16, random.byte()),
    }
}

pub(crate) fn any_train(random: &mut Random) -> u16 {
    match random.below(16) {
        0..=3 => 2,
        4..=6 => random.pick(&REPORTS),
        7..=9 => random.pick(&COMMANDS),
        10 => random.below(48) as u16,
        11 | 12 => random.between(2, 20) as u16,
        13 => random.pick(&[1, 1, 4, 5, 15, 16, 17, 24, 30, 31, 36, 38, 46, 47]),
        14 => random.pick(&[256, 257, 258, 262, 263, 513, 0x8001, 65_535]),
        _ => random.number() as u16 % 100,
    }
}

fn limit(record: &[u8; 32], random: &mut Random) -> u32 {
    let distance = u32::from(word_at(record, 8).abs_diff(word_at(record, 10)));
    match random.below(8) {
        0 => 0,
        1 => distance,
        2 => distance + 1,
        3 => distance.saturating_sub(1),
        4 => random.number() as u32,
        5 => u32::MAX,
        _ => random.below(8) as u32,
    }
}

fn segments(random: &mut Random) -> u16 {
    match random.below(10) {
        0 => random.pick(&[1, 2, 4094, 4095]),
        1 | 2 => random.between(1, 4095) as u16,
        3..=5 => random.between(1, 300) as u16,
        _ => random.between(1, 20) as u16,
    }
}

fn tracks(random: &mut Random) -> u8 {
    match random.below(4) {
        0 => random.pick(&[1, 2, 63, 64]),
        _ => random.between(1, 64) as u8,
    }
}

fn place(random: &mut Random, segments: u16) -> u16 {
    match random.below(4) {
        0 => 0,
        1 => segments,
        _ => random.below(u64::from(segments) + 1) as u16,
    }
}

/// A cartridge description within its ranges.
pub fn good_cartridge(random: &mut Random) -> [u8; 8] {
    let mut cartridge = [0; 8];
    let segments = segments(random);
    put_word(&mut cartridge, 0, segments);
    cartridge[2] = tracks(random);
    put_word(&mut cartridge, 3, place(random, segments));
    cartridge[5] = random.byte() & 7 | random.pick(&[0, 2]);
    if random.percent(10) {
        cartridge[5] |= random.byte();
    }
    cartridge[6] = random.below(5) as u8;
    cartridge[7] = random.below(8) as u8;
    cartridge
}

fn any_cartridge(random: &mut Random) -> [u8; 8] {
    let mut cartridge = good_cartridge(random);
    let beyond = word_at(&cartridge, 0).wrapping_add(1);
    match random.below(12) {
        0 => put_word(&mut cartridge, 0, random.pick(&[0, 4096, 0xFFFF])),
        1 => cartridge[2] = random.pick(&[0, 65, 255]),
        2 => put_word(&mut cartridge, 3, random.pick(&[beyond, 0xFFFF])),
        3 => cartridge[6] = random.pick(&[5, 255]),
        4 => cartridge[7] = random.pick(&[8, 255]),
        5 => random.fill(&mut cartridge),
        _ => (),
    }
    cartridge
}
