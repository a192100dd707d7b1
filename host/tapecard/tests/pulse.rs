//! The pulse drive through its typed interface.

use tapecard::pulse::{Cartridge, Level, Motion, Record, Waited};
use tapecard::{Device, Refusal};

const CARTRIDGE: Cartridge = Cartridge {
    segments: 600,
    tracks: 28,
    place: 40,
    protected: true,
    burst: true,
    wide: false,
    format: 2,
    kind: 3,
};

fn trains(record: &mut Record, trains: &[u16]) -> Vec<Level> {
    let send = |&pulses| record.train(pulses).expect("a train of the drive");
    trains.iter().map(send).collect()
}

fn refused_with(number: u8) -> Result<Level, Refusal> {
    let device = Device::Pulse;
    Err(Refusal { number, device })
}

/// "Recovery: eighteen 2s; 6, nine 2s; 7, seventeen 2s; 46 trains."
fn recovery() -> Vec<u16> {
    [&[2; 18][..], &[6], &[2; 9], &[7], &[2; 17]].concat()
}

/// A cartridge was just loaded: error 26 and the new mark were not read yet.
fn loaded() -> Record {
    let mut record = Record::power_on(0x0157, 0x17);
    record.insert(&CARTRIDGE).expect("an empty drive");
    record.wait(u32::MAX).expect("a good record");
    record
}

fn recovered() -> Record {
    let mut record = loaded();
    trains(&mut record, &recovery());
    record
}

#[test]
fn power_on() {
    let record = Record::power_on(0xABCD, 0xEF);
    assert_eq!((record.vendor(), record.rom()), (0xABCD, 0xEF));
    assert_eq!((record.error(), record.error_command()), (26, 0));
    assert_eq!((record.rate(), record.level()), (2, Level(false)));
    assert_eq!(record.cartridge(), None);
    assert!(record.ready());
}

#[test]
fn a_description_in_its_bytes() {
    let wide = Cartridge {
        place: 300,
        protected: false,
        wide: true,
        ..CARTRIDGE
    };
    assert_eq!(CARTRIDGE.bytes(), [2, 88, 28, 0, 40, 3, 2, 3]);
    assert_eq!(wide.bytes(), [2, 88, 28, 1, 44, 6, 2, 3]);
}

#[test]
fn insertion_loads() {
    let mut record = Record::power_on(0, 0);
    assert_eq!(record.insert(&CARTRIDGE), Ok(Level(false)));
    assert_eq!(record.cartridge(), Some(CARTRIDGE));
    assert_eq!((record.place(), record.target()), (40, 0));
    assert_eq!((record.motion(), record.distance()), (Motion::Load, 40));
    assert!(record.new_mark() && !record.referenced() && !record.status_asked());
    assert_eq!(record.tick(), Ok(Level(false)));
    let waited = record.wait(10);
    assert_eq!(
        waited,
        Ok(Waited {
            level: Level(false),
            ticks: 10
        })
    );
    assert_eq!(record.place(), 29);
    assert_eq!(record.wait(100).map(|waited| waited.ticks), Ok(29));
    assert!(record.ready() && record.referenced());
}

#[test]
fn recovery_then_a_skip() {
    let mut record = recovered();
    assert_eq!(record.error(), 0);
    assert!(!record.new_mark() && record.status_asked());
    trains(&mut record, &[35, 14]);
    assert_eq!((record.waiting_code(), record.arguments_held()), (35, 1));
    assert_eq!(record.argument_value(), 12);
    trains(&mut record, &[4, 3]);
    assert_eq!((record.motion(), record.target()), (Motion::Run, 300));
    assert_eq!(record.waiting_code(), 0);
}

#[test]
fn a_report_bit_by_bit() {
    let mut record = recovered();
    assert_eq!(record.train(9), Ok(Level(true)));
    assert_eq!((record.report_left(), record.report_bits()), (9, 0x17));
    trains(&mut record, &[2, 36]);
    assert_eq!((record.report_left(), record.report_bits()), (8, 0x0B));
    assert!(record.repeat_owed());
    trains(&mut record, &[2; 9]);
    assert_eq!((record.report_left(), record.report_bits()), (0, 0));
    assert_eq!(record.level().to_string(), "1");
}

#[test]
fn a_seek_sets_the_track() {
    let mut record = recovered();
    trains(&mut record, &[13, 29]);
    assert_eq!(record.track(), 27);
    trains(&mut record, &[13, 30]);
    assert_eq!((record.error(), record.error_command()), (7, 13));
}

#[test]
fn refused_calls_change_nothing() {
    let mut record = recovered();
    let before = record;
    assert_eq!(record.train(0), refused_with(5));
    assert_eq!(record.insert(&CARTRIDGE), refused_with(7));
    assert_eq!(record, before);
    let mut empty = Record::power_on(0, 0);
    assert_eq!(empty.remove(), refused_with(7));
    let wrong = Cartridge {
        segments: 0,
        ..CARTRIDGE
    };
    assert_eq!(empty.insert(&wrong), refused_with(6));
    empty.0[14] = 99;
    assert_eq!(empty.tick(), refused_with(8));
}

#[test]
fn removal_empties_the_drive() {
    let mut record = recovered();
    trains(&mut record, &[12]);
    assert_eq!(record.remove(), Ok(Level(true)));
    assert_eq!((record.error(), record.error_command()), (2, 0));
    assert_eq!(record.cartridge(), None);
    assert_eq!((record.segments(), record.tracks()), (0, 0));
    assert!(!record.protected() && !record.burst() && !record.wide());
    assert_eq!((record.format(), record.kind()), (0, 0));
}

/// "Power-on, 7: 0 1 0 1 1 0 0 0, eight 0, then 1."
#[test]
fn a_list_in_one_call() {
    let mut record = Record::power_on(0, 0);
    let mut levels = [0x99; 20];
    let counts = [&[7][..], &[2; 17]].concat();
    assert_eq!(record.trains(&counts, &mut levels), Ok(Level(true)));
    assert_eq!(levels[..9], [1, 0, 1, 0, 1, 1, 0, 0, 0]);
    assert_eq!(levels[9..18], [0, 0, 0, 0, 0, 0, 0, 0, 1]);
    assert_eq!(levels[18..], [0x99; 2], "bytes beyond the list stay");
    assert_eq!(record.error(), 0);
}

/// The level that a list hands back is the one after its last train, not the first's or the highest.
#[test]
fn the_level_after_the_last_train() {
    let mut record = Record::power_on(0, 0);
    let mut levels = [0x99; 4];
    assert_eq!(record.trains(&[6, 2, 2, 2], &mut levels), Ok(Level(false)));
    assert_eq!((levels, record.level()), ([1, 1, 1, 0], Level(false)));
}

#[test]
fn an_exchange_as_its_single_trains() {
    let mut drive = loaded();
    trains(&mut drive, &[33, 2]);
    let (mut listed, mut single) = (drive, drive);
    let levels = listed.exchange(&recovery()).expect("46 trains, none of 0");
    assert_eq!(levels, trains(&mut single, &recovery()));
    assert_eq!(listed, single);
    assert_eq!((levels.len(), levels[28]), (46, Level(true)));
    let error = [false, true, false, true, true, false, false, false];
    assert_eq!(levels[29..37], error.map(Level), "error 26");
    assert_eq!((listed.error(), listed.new_mark()), (0, false));
}

/// A skip of 300 in one exchange: no tick passes until the host lets one.
#[test]
fn an_exchange_takes_no_time() {
    let mut record = recovered();
    let levels = record.exchange(&[35, 14, 4, 3]).expect("four trains");
    assert_eq!(levels, [Level(true); 4]);
    assert_eq!((record.motion(), record.place()), (Motion::Run, 0));
    assert_eq!(record.wait(u32::MAX).map(|waited| waited.ticks), Ok(300));
}

#[test]
fn an_empty_list_tells_the_level() {
    for mut record in [Record::power_on(0, 0), recovered()] {
        let before = record;
        assert_eq!(record.trains(&[], &mut []), Ok(before.level()));
        assert_eq!(record.trains(&[], &mut [7]), Ok(before.level()));
        assert_eq!(record.exchange(&[]), Ok(Vec::new()));
        assert_eq!(record, before);
    }
}

#[test]
fn refused_lists_change_nothing() {
    let mut record = recovered();
    let before = record;
    let mut levels = [0x99; 3];
    for (counts, number) in [
        (&[6, 0, 2][..], 5),
        (&[6, 2, 2, 0], 5),
        (&[6, 2, 2, 2], 4),
        (&[0], 5),
    ] {
        assert_eq!(record.trains(counts, &mut levels), refused_with(number));
    }
    let number = record.exchange(&[12, 0]).map_err(|refusal| refusal.number);
    assert_eq!(number, Err(5));
    assert_eq!((record, levels), (before, [0x99; 3]));
    record.0[14] = 99;
    for counts in [&[][..], &[6], &[0], &[6, 2, 2, 2]] {
        assert_eq!(record.trains(counts, &mut levels), refused_with(8));
    }
    let told = record.trains(&[6], &mut []).unwrap_err().to_string();
    assert_eq!(told, "refusal 8: pulse record breaks the record rules");
}
