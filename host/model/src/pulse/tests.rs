//! The plates of the pulse drive, and the readings that the interface page settles.

use super::*;

const ANY: [u8; 8] = cartridge(600, 20, 0, 2, 2, 3);

/// Segments, tracks, place, flags, format, type.
const fn cartridge(
    segments: u16,
    tracks: u8,
    place: u16,
    flags: u8,
    format: u8,
    kind: u8,
) -> [u8; 8] {
    let segments = segments.to_be_bytes();
    let place = place.to_be_bytes();
    [
        segments[0],
        segments[1],
        tracks,
        place[0],
        place[1],
        flags,
        format,
        kind,
    ]
}

struct Bench([u8; 32]);

impl Bench {
    fn power_on() -> Bench {
        let mut record = [0xEE; 32];
        power_on(&mut record, 0, 0);
        Bench(record)
    }

    /// Loaded, recovered, ready to obey.
    fn loaded(cartridge: &[u8; 8]) -> Bench {
        let mut bench = Bench::power_on();
        assert_eq!(insert(&mut bench.0, cartridge)[0], 0);
        wait(&mut bench.0, 5000);
        bench.recover();
        bench
    }

    fn train(&mut self, pulses: u16) -> u8 {
        let answer = train(&mut self.0, pulses);
        assert_eq!(answer[0], 0);
        assert_eq!(&answer[2..], [0; 6]);
        assert_eq!(answer[1], self.0[16]);
        answer[1]
    }

    fn trains(&mut self, pulses: &[u16]) -> Vec<u8> {
        pulses.iter().map(|&n| self.train(n)).collect()
    }

    /// The levels of a report after its first.
    fn report(&mut self, code: u16, items: usize) -> Vec<u8> {
        assert_eq!(self.train(code), 1);
        (0..items).map(|_| self.train(NEXT_BIT)).collect()
    }

    fn recover(&mut self) {
        self.trains(&[2; 18]);
        self.report(REPORT_STATUS, 9);
        self.report(REPORT_ERROR, 17);
    }

    fn error(&self) -> (u8, u8) {
        (self.0[14], self.0[15])
    }

    fn flags(&self) -> u8 {
        self.0[0]
    }

    fn motion(&self) -> u8 {
        self.0[1]
    }

    fn place(&self) -> u16 {
        word_at(&self.0, 8)
    }

    fn target(&self) -> u16 {
        word_at(&self.0, 10)
    }

    fn waits(&self) -> (u8, u8, u16) {
        (self.0[20], self.0[21], word_at(&self.0, 22))
    }

    fn refusal_of_tick(&self) -> u8 {
        tick(&mut self.0.clone())[0]
    }
}

#[test]
fn plate_300_segments_by_code_35() {
    let mut bench = Bench::loaded(&ANY);
    bench.trains(&[35, 14, 4, 3]);
    assert_eq!((bench.motion(), bench.target()), (1, 300));
    let answer = wait(&mut bench.0, 1000);
    assert_eq!(answer[4..], [0, 0, 1, 0x2C]);
    assert_eq!((bench.motion(), bench.place()), (0, 300));
}

#[test]
fn plate_error_report_after_power_on() {
    let mut bench = Bench::power_on();
    let levels = bench.report(REPORT_ERROR, 17);
    assert_eq!(levels, [0, 1, 0, 1, 1, 0, 0, 0, 0, 0, 0, 0, 0, 0, 0, 0, 1]);
    assert_eq!(bench.0[17], 0);
    assert_eq!(bench.error(), (0, 0));
}

#[test]
fn plate_an_ignored_train_owes_one_repeat() {
    let mut bench = Bench::power_on();
    bench.trains(&[7, 36]);
    bench.trains(&[2; 17]);
    assert_eq!(bench.0[17], 1);
    assert_eq!(bench.train(2), 1);
    assert_eq!(bench.0[17], 0);
    let mut bench = Bench::power_on();
    bench.trains(&[7, 36, 48, 65_535]);
    bench.trains(&[2; 18]);
    assert_eq!(bench.0[17], 0);
}

#[test]
fn plate_the_bench_program_prints_6_2_2_2() {
    let mut bench = Bench::power_on();
    assert_eq!(bench.trains(&[6, 2, 2, 2]), [1, 1, 1, 0]);
}

#[test]
fn plate_recovery_takes_46_trains() {
    let mut bench = Bench::power_on();
    insert(&mut bench.0, &cartridge(10, 4, 7, 2, 1, 1));
    bench.trains(&[33, 5]);
    bench.train(6);
    wait(&mut bench.0, 10);
    let mut trains = vec![2; 18];
    trains.push(6);
    trains.extend([2; 9]);
    trains.push(7);
    trains.extend([2; 17]);
    assert_eq!(trains.len(), 46);
    bench.trains(&trains);
    assert_eq!(bench.error(), (0, 0));
    assert_eq!(bench.flags(), 1 + 2 + 8);
    assert_eq!((bench.motion(), bench.0[17]), (0, 0));
}

#[test]
fn wrong_print_the_byte_after_a_rejected_13_is_no_track() {
    let mut bench = Bench::power_on();
    bench.train(13);
    assert_eq!(bench.waits(), (0, 0, 0));
    let mut bench = Bench::loaded(&cartridge(9, 4, 0, 0, 0, 0));
    bench.trains(&[13, 5]);
    assert_eq!(bench.error(), (NOT_REFERENCED, 13));
    assert_eq!(bench.0[12], 0);
}

#[test]
fn wrong_print_a_7_while_moving_clears_nothing() {
    let mut bench = Bench::power_on();
    insert(&mut bench.0, &cartridge(10, 4, 7, 2, 1, 1));
    bench.report(REPORT_ERROR, 17);
    assert_eq!(bench.error(), (POWER_ON, 0));
    assert_eq!(bench.motion(), 2);
}

#[test]
fn status_is_noted_only_while_ready() {
    let mut bench = Bench::power_on();
    insert(&mut bench.0, &cartridge(10, 4, 7, 2, 1, 1));
    bench.report(REPORT_STATUS, 9);
    assert_eq!(bench.flags() & 8, 0);
    wait(&mut bench.0, 100);
    bench.report(REPORT_ERROR, 17);
    assert_eq!(bench.flags() & 4, 4);
    bench.report(REPORT_STATUS, 9);
    bench.report(REPORT_ERROR, 17);
    assert_eq!(bench.flags() & 12, 8);
}

#[test]
fn status_bits_go_by_the_place() {
    let mut bench = Bench::loaded(&cartridge(3, 4, 0, 3, 1, 1));
    assert_eq!(bench.report(REPORT_STATUS, 9), [1, 0, 1, 1, 0, 1, 1, 0, 1]);
    bench.train(PHYSICAL_FORWARD);
    assert_eq!(bench.report(REPORT_STATUS, 9), [0, 0, 1, 1, 0, 1, 1, 0, 1]);
    tick(&mut bench.0);
    assert_eq!(bench.report(REPORT_STATUS, 9)[6..8], [0, 0]);
    wait(&mut bench.0, 9);
    assert_eq!(bench.report(REPORT_STATUS, 9)[6..8], [0, 1]);
}

#[test]
fn configuration_and_tape_status_ask_for_a_reference() {
    let mut bench = Bench::loaded(&cartridge(3, 4, 0, 2 + 4, 2, 2));
    let configuration = bench.report(REPORT_CONFIGURATION, 9);
    assert_eq!(configuration, [0, 0, 0, 0, 1, 0, 1, 1, 1]);
    let tape = bench.report(REPORT_TAPE, 9);
    assert_eq!(tape, [0, 1, 0, 0, 0, 1, 0, 1, 1]);
    let mut bench = Bench::loaded(&cartridge(3, 4, 0, 4, 2, 2));
    let configuration = bench.report(REPORT_CONFIGURATION, 9);
    assert_eq!(configuration, [0, 0, 0, 0, 1, 0, 0, 0, 1]);
    let tape = bench.report(REPORT_TAPE, 9);
    assert_eq!(tape, [0, 0, 0, 0, 0, 0, 0, 1, 1]);
}

#[test]
fn vendor_and_rom_reports() {
    let mut record = [0; 32];
    power_on(&mut record, 0xA501, 0x81);
    let mut bench = Bench(record);
    assert_eq!(bench.report(REPORT_ROM, 9), [1, 0, 0, 0, 0, 0, 0, 1, 1]);
    assert_eq!(
        bench.report(REPORT_VENDOR, 17),
        [1, 0, 0, 0, 0, 0, 0, 0, 1, 0, 1, 0, 0, 1, 0, 1, 1]
    );
}

#[test]
fn every_other_train_in_a_report_is_error_8() {
    for n in (3..=35).chain([1000]) {
        let mut bench = Bench::loaded(&ANY);
        bench.train(REPORT_ROM);
        let level = bench.train(n);
        if n <= 35 {
            assert_eq!(bench.error(), (ILLEGAL_IN_REPORT, n as u8));
            assert_eq!((level, bench.0[17]), (0, 0));
        } else {
            assert_eq!(bench.error(), (0, 0));
            assert_eq!((level, bench.0[17]), (1, 9));
        }
    }
}

#[test]
fn unsupported_codes_below_32_are_error_6_and_stop_a_run() {
    for n in 2..=70 {
        let mut bench = Bench::loaded(&ANY);
        bench.train(PHYSICAL_FORWARD);
        bench.train(n);
        if !SUPPORTED.contains(&n) && n < 32 {
            assert_eq!(bench.error(), (UNDEFINED_COMMAND, n as u8));
            assert_eq!(bench.motion(), 0);
        } else if !SUPPORTED.contains(&n) {
            assert_eq!(bench.error(), (0, 0));
            assert_eq!(bench.motion(), 1);
        }
    }
}

#[test]
fn while_moving_some_stop_and_the_rest_are_error_1() {
    for n in [3, 18, 25, 26, 34, 35] {
        let mut bench = Bench::loaded(&ANY);
        bench.train(LOGICAL_FORWARD);
        tick(&mut bench.0);
        bench.train(n);
        assert_eq!(bench.error(), (0, 0));
        assert_eq!((bench.motion(), bench.target()), (0, 1));
    }
    for n in [10, 11, 12, 13, 14, 27] {
        let mut bench = Bench::loaded(&ANY);
        bench.train(LOGICAL_FORWARD);
        tick(&mut bench.0);
        bench.train(n);
        assert_eq!(bench.error(), (NOT_READY, n as u8));
        assert_eq!((bench.motion(), bench.target()), (0, 1));
        assert_eq!(bench.waits(), (0, 0, 0));
    }
}

#[test]
fn nothing_stops_a_load() {
    for n in [3, 10, 11, 12, 13, 14, 18, 25, 26, 27, 34, 35] {
        let mut bench = Bench::loaded(&ANY);
        bench.train(LOGICAL_FORWARD);
        tick(&mut bench.0);
        bench.trains(&[STOP, SEEK_LOAD_POINT]);
        assert_eq!(bench.motion(), 2);
        bench.train(n);
        assert_eq!(bench.error(), (NOT_READY, n as u8));
        assert_eq!(bench.motion(), 2);
        assert_eq!(bench.flags() & 2, 2);
    }
}

#[test]
fn a_reset_overwrites_and_loads_again() {
    let mut bench = Bench::loaded(&ANY);
    bench.trains(&[13, 7, 12]);
    assert_eq!(bench.0[12], 5);
    tick(&mut bench.0);
    bench.trains(&[6, 36, 1]);
    assert_eq!(bench.error(), (SOFT_RESET, 1));
    assert_eq!((bench.motion(), bench.0[17], bench.0[12]), (2, 0, 5));
    assert_eq!(bench.flags(), 1);
    assert_eq!(bench.0[16], 1);
    tick(&mut bench.0);
    assert_eq!((bench.motion(), bench.0[12]), (0, 0));
    assert_eq!(bench.flags(), 3);
}

#[test]
fn new_mark_rejects_with_error_13() {
    let mut bench = Bench::power_on();
    bench.report(REPORT_ERROR, 17);
    insert(&mut bench.0, &ANY);
    bench.train(STOP);
    assert_eq!(bench.error(), (NEW_CARTRIDGE, 18));
}

#[test]
fn without_a_cartridge_motion_is_error_2() {
    for n in [10, 11, 12, 13, 14, 25, 26, 34, 35] {
        let mut bench = Bench::power_on();
        bench.report(REPORT_ERROR, 17);
        bench.train(n);
        assert_eq!(bench.error(), (NO_CARTRIDGE, n as u8));
    }
    let mut bench = Bench::power_on();
    bench.report(REPORT_ERROR, 17);
    bench.trains(&[3, 18, 27, 5]);
    assert_eq!((bench.error(), bench.0[13]), ((0, 0), 3));
}

#[test]
fn tracks_and_rates_have_their_ranges() {
    let mut bench = Bench::loaded(&ANY);
    bench.trains(&[13, 21]);
    assert_eq!(bench.0[12], 19);
    bench.trains(&[13, 22]);
    assert_eq!((bench.error(), bench.0[12]), ((ILLEGAL_TRACK, 13), 19));
    let mut bench = Bench::loaded(&ANY);
    bench.trains(&[13, 65_535]);
    assert_eq!(bench.error(), (ILLEGAL_TRACK, 13));
    let mut bench = Bench::loaded(&ANY);
    bench.trains(&[27, 6]);
    assert_eq!((bench.error(), bench.0[13]), ((0, 0), 2));
    assert_eq!(bench.waits(), (0, 0, 0));
}

#[test]
fn arguments_out_of_range_drop_the_list() {
    let mut bench = Bench::loaded(&ANY);
    bench.trains(&[34, 17]);
    assert_eq!(bench.waits(), (34, 1, 15));
    bench.train(18);
    assert_eq!((bench.waits(), bench.error()), ((0, 0, 0), (0, 0)));
    bench.trains(&[26, 2]);
    tick(&mut bench.0);
    assert_eq!(bench.waits(), (0, 0, 0));
    bench.trains(&[26, 2]);
    wait(&mut bench.0, 9);
    assert_eq!(bench.waits(), (26, 1, 0));
}

#[test]
fn skips_stay_on_the_tape() {
    let mut bench = Bench::loaded(&cartridge(40, 1, 0, 2, 0, 0));
    bench.trains(&[26, 17, 17]);
    assert_eq!(bench.target(), 40);
    wait(&mut bench.0, 100);
    bench.trains(&[25, 2, 3]);
    assert_eq!(bench.target(), 24);
    wait(&mut bench.0, 100);
    bench.trains(&[34, 2, 2, 17]);
    assert_eq!(bench.target(), 0);
}

#[test]
fn removal_and_insertion() {
    let mut bench = Bench::loaded(&ANY);
    bench.train(REPORT_ROM);
    assert_eq!(insert(&mut bench.0, &ANY)[0], 7);
    assert_eq!(remove(&mut bench.0)[0], 0);
    assert_eq!((bench.error(), bench.0[17]), ((0, 0), 0));
    assert_eq!(remove(&mut bench.0)[0], 7);
    let mut bench = Bench::loaded(&ANY);
    bench.train(12);
    remove(&mut bench.0);
    assert_eq!(bench.error(), (NO_CARTRIDGE, 0));
    assert_eq!(bench.0[..13], [0; 13]);
}

#[test]
fn descriptions_have_their_ranges() {
    let mut bench = Bench::power_on();
    for wrong in [
        cartridge(0, 1, 0, 0, 0, 0),
        cartridge(4096, 1, 0, 0, 0, 0),
        cartridge(1, 0, 0, 0, 0, 0),
        cartridge(1, 65, 0, 0, 0, 0),
        cartridge(1, 1, 2, 0, 0, 0),
        cartridge(1, 1, 0, 0, 5, 0),
        cartridge(1, 1, 0, 0, 0, 8),
    ] {
        assert_eq!(insert(&mut bench.0, &wrong), [6, 0, 0, 0, 0, 0, 0, 0]);
    }
    for right in [
        cartridge(1, 1, 1, 0xFF, 0, 0),
        cartridge(4095, 64, 4095, 0, 4, 7),
    ] {
        assert_eq!(insert(&mut bench.0, &right)[0], 0);
        assert_eq!(bench.motion(), 2);
        remove(&mut bench.0);
    }
}

#[test]
fn a_train_of_0_is_refused() {
    let mut bench = Bench::power_on();
    let before = bench.0;
    assert_eq!(train(&mut bench.0, 0), [5, 0, 0, 0, 0, 0, 0, 0]);
    assert_eq!(bench.0, before);
    assert_eq!(train(&mut bench.0, 257)[0], 0);
    assert_eq!(bench.0, before);
}

#[test]
fn a_wait_counts_the_smaller_of_limit_and_distance() {
    for (limit, ticks) in [(0, 0), (1, 1), (599, 599), (600, 600), (u32::MAX, 600)] {
        let mut bench = Bench::loaded(&ANY);
        bench.train(12);
        let answer = wait(&mut bench.0, limit);
        assert_eq!(answer[..4], [0, 1, 0, 0]);
        assert_eq!(answer[4..], u32::to_be_bytes(ticks));
        assert_eq!(u32::from(bench.place()), ticks);
    }
}

fn breaks(change: impl Fn(&mut [u8; 32])) {
    let mut bench = Bench::loaded(&ANY);
    change(&mut bench.0);
    assert_eq!(bench.refusal_of_tick(), 8);
}

fn keeps(change: impl Fn(&mut [u8; 32])) {
    let mut bench = Bench::loaded(&ANY);
    change(&mut bench.0);
    assert_eq!(bench.refusal_of_tick(), 0);
}

#[test]
fn each_record_rule_has_its_border() {
    keeps(|_| ());
    breaks(|r| r[0] &= !1);
    breaks(|r| put_word(r, 2, 0));
    breaks(|r| put_word(r, 2, 4096));
    breaks(|r| r[4] = 0);
    breaks(|r| r[4] = 65);
    breaks(|r| r[6] = 5);
    breaks(|r| r[7] = 8);
    breaks(|r| put_word(r, 8, 1));
    breaks(|r| r[1] = 1);
    breaks(|r| r[1] = 2);
    keeps(|r| r[1] = 3);
    keeps(|r| {
        put_word(r, 10, 600);
        r[1] = 1;
    });
    breaks(|r| {
        put_word(r, 10, 601);
        r[1] = 1;
    });
    breaks(|r| {
        put_word(r, 10, 600);
        r[1] = 2;
    });
    keeps(|r| r[12] = 19);
    breaks(|r| r[12] = 20);
    keeps(|r| r[13] = 3);
    breaks(|r| r[13] = 4);
    breaks(|r| r[0] |= 16);
    keeps(|r| r[17] = 17);
    breaks(|r| r[17] = 18);
    for error in 0..=255 {
        if ERRORS.contains(&error) {
            keeps(|r| r[14] = error);
        } else {
            breaks(|r| r[14] = error);
        }
    }
}

#[test]
fn waiting_arguments_have_their_rules() {
    for code in 1..=255 {
        for held in 0..=4 {
            let set = |r: &mut [u8; 32]| {
                r[20] = code;
                r[21] = held;
            };
            if held < arguments_needed(u16::from(code)) {
                keeps(set);
            } else {
                breaks(set);
            }
        }
    }
    breaks(|r| {
        r[20] = 27;
        r[17] = 1;
    });
    breaks(|r| {
        r[20] = 27;
        r[14] = 1;
    });
    breaks(|r| {
        r[20] = 27;
        r[0] |= 4;
    });
    breaks(|r| {
        r[20] = 13;
        r[0] &= !2;
    });
    keeps(|r| {
        r[20] = 27;
        r[0] &= !2;
    });
}

#[test]
fn without_a_cartridge_its_fields_are_0() {
    for at in 2..13 {
        let mut bench = Bench::power_on();
        bench.0[at] = 1;
        assert_eq!(bench.refusal_of_tick(), 8);
    }
    for flag in [2, 4] {
        let mut bench = Bench::power_on();
        bench.0[0] |= flag;
        assert_eq!(bench.refusal_of_tick(), 8);
    }
}

#[test]
fn an_accepted_call_writes_the_record_in_its_canonical_form() {
    let mut bench = Bench::loaded(&ANY);
    let canonical = bench.0;
    bench.0[0] |= 0xE0;
    bench.0[1] = 9;
    bench.0[5] |= 0xF8;
    bench.0[16] |= 0xFE;
    bench.0[18] = 0xFF;
    bench.0[21] = 0xFF;
    bench.0[23] = 0xFF;
    bench.0[27..].fill(0xFF);
    assert_eq!(wait(&mut bench.0, 0)[0], 0);
    assert_eq!(bench.0, canonical);
    bench.0[20] = 35;
    bench.0[21] = 1;
    bench.0[22] = 0xAB;
    bench.0[23] = 0xCD;
    assert_eq!(wait(&mut bench.0, 0)[0], 0);
    assert_eq!(bench.waits(), (35, 1, 0xD));
}

#[test]
fn surplus_report_bits_are_shifted_until_the_report_closes() {
    let mut bench = Bench::power_on();
    bench.0[17] = 2;
    put_word(&mut bench.0, 18, 0xFFFE);
    assert_eq!(bench.train(2), 0);
    assert_eq!((bench.0[17], word_at(&bench.0, 18)), (1, 0x7FFF));
    assert_eq!(bench.train(2), 1);
    assert_eq!((bench.0[17], word_at(&bench.0, 18)), (0, 0));
}

#[test]
fn a_command_beside_no_error_is_sent_and_cleared() {
    let mut bench = Bench::loaded(&ANY);
    bench.0[15] = 3;
    let levels = bench.report(REPORT_ERROR, 17);
    assert_eq!(levels[8..10], [1, 1]);
    assert_eq!(bench.error(), (0, 0));
}
