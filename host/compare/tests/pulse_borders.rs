//! The pulse drive at its borders: a small world in full, every byte of the record, every cartridge description.

use compare::{PulseBench, PulseCall, Random, agree, pulse_sessions, say};
use model::Bug;
use model::pulse::Branch;
use tapecard::bytes::put_word;

/// Every call that could matter in a small world.
fn calls() -> Vec<PulseCall> {
    let mut calls: Vec<PulseCall> = (0..=50).map(PulseCall::Train).collect();
    calls.extend([64, 66, 67, 255, 256, 257, 258, 65_535].map(PulseCall::Train));
    calls.extend([0, 1, 2, 5, u32::MAX].map(PulseCall::Wait));
    calls.push(PulseCall::Tick);
    calls.push(PulseCall::Remove);
    calls.push(PulseCall::Insert([0, 2, 2, 0, 1, 2, 2, 2]));
    calls.push(PulseCall::Insert([0, 1, 1, 0, 2, 0, 0, 0]));
    calls
}

/// Cartridges of one and two segments: places, targets, motions, flags and errors, with and without reports and arguments.
fn small_records() -> Vec<[u8; 32]> {
    let mut records = Vec::new();
    for heads in 0..2 * 3 * 3 * 3 {
        for flags in 0..16 {
            for error in [0, 7, 27] {
                records.push(small_record(heads, flags, error));
            }
        }
    }
    for flags in 0..16 {
        for error in [0, 7, 27] {
            let mut record = [0; 32];
            record[0] = 2 * flags;
            record[14] = error;
            records.push(record);
        }
    }
    records
}

fn small_record(heads: u16, flags: u8, error: u8) -> [u8; 32] {
    let mut record = [0; 32];
    record[0] = 1 + 2 * (flags % 8);
    record[1] = (heads % 3) as u8;
    put_word(&mut record, 2, 1 + heads / 27);
    record[4] = 2;
    record[5] = 2 * (flags / 8);
    record[6] = 2;
    record[7] = 2;
    put_word(&mut record, 8, heads / 3 % 3);
    put_word(&mut record, 10, heads / 9 % 3);
    record[12] = 1;
    record[13] = 2;
    record[14] = error;
    record[15] = error;
    put_word(&mut record, 24, 0x9003);
    record[26] = 0x81;
    record
}

/// The open report or the arguments of a record: items left, bits, repeat owed; code, arguments held.
const UNFINISHED: [(u8, u16, bool, u8, u8); 17] = [
    (0, 0, false, 0, 0),
    (0, 0, true, 0, 0),
    (1, 0, false, 0, 0),
    (1, 0, true, 0, 0),
    (2, 0, false, 0, 0),
    (2, 1, true, 0, 0),
    (9, 0xAA55, false, 0, 0),
    (17, 0xFFFF, false, 0, 0),
    (18, 0, false, 0, 0),
    (0, 0, false, 13, 0),
    (0, 0, false, 25, 1),
    (0, 0, false, 26, 1),
    (0, 0, false, 27, 0),
    (0, 0, false, 34, 2),
    (0, 0, false, 35, 2),
    (0, 0, false, 35, 3),
    (1, 0, false, 27, 0),
];

#[test]
fn a_small_world_in_full() {
    let mut bench = PulseBench::new(Bug::None, 0);
    let calls = calls();
    for record in small_records() {
        for (left, bits, owed, code, held) in UNFINISHED {
            let mut record = record;
            record[0] |= 16 * u8::from(owed);
            record[16] = record[26] & 1;
            record[17] = left;
            put_word(&mut record, 18, bits);
            record[20] = code;
            record[21] = held;
            put_word(&mut record, 22, 0x1111);
            for call in &calls {
                bench.begin(&record);
                let branch = agree(bench.make(call.clone()));
                if branch == Some(Branch::Refused(8)) {
                    break;
                }
            }
        }
    }
    say(&format!(
        "small world of the pulse drive: {} calls compared, {} branches",
        bench.seen.calls,
        bench.seen.branches.len()
    ));
}

/// Each byte of good records takes every value.
#[test]
fn every_byte_of_a_record() {
    let mut bench = PulseBench::new(Bug::None, 0);
    let mut random = Random::new(11);
    for _ in 0..60 {
        let good = pulse_sessions::valid_record(&mut random);
        for at in 0..32 {
            for value in 0..=255 {
                let mut record = good;
                record[at] = value;
                bench.begin(&record);
                agree(bench.make(PulseCall::Wait(0)));
                bench.set_record(&record);
                agree(bench.make(pulse_sessions::any_call(&record, &mut random)));
            }
        }
    }
    say(&format!(
        "bytes of the pulse record: {} calls compared",
        bench.seen.calls
    ));
}

/// Records that keep the rules are not refused, and every train is answered.
#[test]
fn every_train_on_many_records() {
    let mut bench = PulseBench::new(Bug::None, 0);
    let mut random = Random::new(12);
    for _ in 0..1500 {
        let record = pulse_sessions::valid_record(&mut random);
        for pulses in (0..=80).chain([255, 256, 257, 258, 600, 32_769, 65_535]) {
            bench.begin(&record);
            let branch = agree(bench.make(PulseCall::Train(pulses)));
            assert_ne!(branch, Some(Branch::Refused(8)));
            assert_eq!(branch == Some(Branch::Refused(5)), pulses == 0);
        }
    }
    say(&format!("trains: {} calls compared", bench.seen.calls));
}

#[test]
fn every_train_at_all() {
    let mut bench = PulseBench::new(Bug::None, 0);
    let mut waiting = small_record(0, 1, 0);
    waiting[20] = 35;
    waiting[21] = 1;
    let mut seeking = small_record(0, 1, 0);
    seeking[20] = 13;
    let mut reporting = small_record(0, 1, 0);
    reporting[17] = 3;
    for record in [small_record(0, 1, 0), waiting, seeking, reporting] {
        for pulses in 0..=u16::MAX {
            bench.begin(&record);
            agree(bench.make(PulseCall::Train(pulses)));
        }
    }
    say(&format!("all trains: {} calls compared", bench.seen.calls));
}

#[test]
fn every_cartridge_description() {
    let mut bench = PulseBench::new(Bug::None, 0);
    let good = [0x0F, 0xFF, 64, 0x0F, 0xFF, 7, 4, 7];
    for segments in 0..=u16::MAX {
        let mut cartridge = good;
        put_word(&mut cartridge, 0, segments);
        put_word(&mut cartridge, 3, segments);
        let in_range = (1..=4095).contains(&segments);
        assert_eq!(is_taken(&mut bench, cartridge), in_range);
    }
    for place in 0..=u16::MAX {
        let mut cartridge = good;
        put_word(&mut cartridge, 3, place);
        assert_eq!(is_taken(&mut bench, cartridge), place <= 4095);
    }
    for value in 0..=255 {
        for (at, in_range) in [
            (2, (1..=64).contains(&value)),
            (5, true),
            (6, value <= 4),
            (7, value <= 7),
        ] {
            let mut cartridge = good;
            cartridge[at] = value;
            assert_eq!(is_taken(&mut bench, cartridge), in_range);
        }
    }
    say(&format!(
        "cartridge descriptions: {} calls compared",
        bench.seen.calls
    ));
}

fn is_taken(bench: &mut PulseBench, cartridge: [u8; 8]) -> bool {
    bench.begin(&[0; 32]);
    let branch = agree(bench.make(PulseCall::Insert(cartridge)));
    branch == Some(Branch::Inserted)
}

#[test]
fn every_vendor_and_rom() {
    let mut bench = PulseBench::new(Bug::None, 0);
    for vendor in 0..=u16::MAX {
        bench.begin(&[0xEE; 32]);
        agree(bench.make(PulseCall::PowerOn(vendor, vendor as u8)));
    }
}
