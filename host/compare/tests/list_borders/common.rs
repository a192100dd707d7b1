//! Drives in bytes, and what a list must leave of them.

use compare::{PulseBench, PulseCall, TrainList, agree};
use model::Bug;

pub const LEVEL_AT: usize = 16;
pub const REPORT_LEFT_AT: usize = 17;

/// Just switched on: error 26, rate 2, level 0, vendor 0157h, ROM 17h.
pub const SWITCHED_ON: [u8; 32] = [
    0, 0, 0, 0, 0, 0, 0, 0, 0, 0, 0, 0, 0, 2, 26, 0, 0, 0, 0, 0, 0, 0, 0, 0, 1, 0x57, 0x17, 0, 0,
    0, 0, 0,
];

/// A cartridge of 10 segments and 4 tracks with its burst, of format 1 and type 1, referenced, at place 0; status asked, rate 2, level 1.
pub const READY: [u8; 32] = [
    11, 0, 0, 10, 4, 2, 1, 1, 0, 0, 0, 0, 0, 2, 0, 0, 1, 0, 0, 0, 0, 0, 0, 0, 1, 0x57, 0x17, 0, 0,
    0, 0, 0,
];

/// "Recovery: eighteen 2s; 6, nine 2s; 7, seventeen 2s; 46 trains."
pub fn recovery() -> Vec<u16> {
    [&[2; 18][..], &[6], &[2; 9], &[7], &[2; 17]].concat()
}

pub fn new_bench() -> PulseBench {
    PulseBench::new(Bug::None, 0)
}

/// The record with these bytes instead.
pub fn with(record: &[u8; 32], bytes: &[(usize, u8)]) -> [u8; 32] {
    let mut changed = *record;
    for &(at, value) in bytes {
        changed[at] = value;
    }
    changed
}

/// READY with every byte that decoding leaves out set.
pub fn ready_with_surplus() -> [u8; 32] {
    let mut record = with(
        &READY,
        &[(0, READY[0] | 0xE0), (1, 9), (5, READY[5] | 0xF8)],
    );
    record[LEVEL_AT] |= 0xFE;
    record[18..20].fill(0xFF);
    record[21..24].fill(0xFF);
    record[27..].fill(0xFF);
    record
}

/// Sends the list from this record, engine and model agreeing.
pub fn send(bench: &mut PulseBench, record: &[u8; 32], list: &TrainList) {
    bench.begin(record);
    agree(bench.make(PulseCall::Trains(list.clone())));
}

/// The list is accepted and leaves these levels, the bytes beyond them and this record; the answer has the last level, or as it stood.
pub fn gives(record: &[u8; 32], list: &TrainList, levels: &[u8], after: &[u8; 32]) {
    let mut bench = new_bench();
    send(&mut bench, record, list);
    let level = levels.last().copied().unwrap_or(record[LEVEL_AT] & 1);
    assert_eq!(bench.answer(), &[0, level, 0, 0, 0, 0, 0, 0], "{list:?}");
    assert_eq!(bench.record(), after, "{list:?}");
    let (written, beyond) = bench.levels().split_at(levels.len());
    assert_eq!(written, levels, "{list:?}");
    assert_eq!(beyond, &bench.levels_before()[levels.len()..], "{list:?}");
    assert_eq!(bench.levels().len(), list.room);
}

/// The list is refused with this number, and record and level buffer are as they were.
pub fn is_refused(record: &[u8; 32], list: &TrainList, number: u8) {
    let mut bench = new_bench();
    send(&mut bench, record, list);
    assert_eq!(bench.answer(), &[number, 0, 0, 0, 0, 0, 0, 0], "{list:?}");
    assert_eq!(bench.record(), record, "{list:?}");
    assert_eq!(bench.levels(), bench.levels_before(), "{list:?}");
}
