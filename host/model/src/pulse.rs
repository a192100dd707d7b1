//! The pulse drive, which keeps its own record.

mod list;

use crate::Bug;
use crate::bytes::{put_long, put_word, word_at};
pub use list::{trains, trains_with};

const RESET: u16 = 1;
const NEXT_BIT: u16 = 2;
const PAUSE: u16 = 3;
const REPORT_STATUS: u16 = 6;
const REPORT_ERROR: u16 = 7;
const REPORT_CONFIGURATION: u16 = 8;
const REPORT_ROM: u16 = 9;
const LOGICAL_FORWARD: u16 = 10;
const PHYSICAL_REVERSE: u16 = 11;
const PHYSICAL_FORWARD: u16 = 12;
const SEEK_TRACK: u16 = 13;
const SEEK_LOAD_POINT: u16 = 14;
const STOP: u16 = 18;
const SKIP_REVERSE: u16 = 25;
const SKIP_FORWARD: u16 = 26;
const SELECT_RATE: u16 = 27;
const REPORT_VENDOR: u16 = 32;
const REPORT_TAPE: u16 = 33;
const SKIP_EXTENDED_REVERSE: u16 = 34;
const SKIP_EXTENDED_FORWARD: u16 = 35;

// "Supported: 1-3, 6-14, 18, 25-27, 32-35."
pub const SUPPORTED: [u16; 20] = [
    RESET,
    NEXT_BIT,
    PAUSE,
    REPORT_STATUS,
    REPORT_ERROR,
    REPORT_CONFIGURATION,
    REPORT_ROM,
    LOGICAL_FORWARD,
    PHYSICAL_REVERSE,
    PHYSICAL_FORWARD,
    SEEK_TRACK,
    SEEK_LOAD_POINT,
    STOP,
    SKIP_REVERSE,
    SKIP_FORWARD,
    SELECT_RATE,
    REPORT_VENDOR,
    REPORT_TAPE,
    SKIP_EXTENDED_REVERSE,
    SKIP_EXTENDED_FORWARD,
];

/// The codes of reports.
pub const REPORTS: [u16; 6] = [
    REPORT_STATUS,
    REPORT_ERROR,
    REPORT_CONFIGURATION,
    REPORT_ROM,
    REPORT_VENDOR,
    REPORT_TAPE,
];

const SKIPS: [u16; 4] = [
    SKIP_REVERSE,
    SKIP_FORWARD,
    SKIP_EXTENDED_REVERSE,
    SKIP_EXTENDED_FORWARD,
];

const NOT_READY: u8 = 1;
const NO_CARTRIDGE: u8 = 2;
const UNDEFINED_COMMAND: u8 = 6;
const ILLEGAL_TRACK: u8 = 7;
const ILLEGAL_IN_REPORT: u8 = 8;
const NEW_CARTRIDGE: u8 = 13;
const NOT_REFERENCED: u8 = 19;
const POWER_ON: u8 = 26;
const SOFT_RESET: u8 = 27;

/// "error 0, 1, 2, 6, 7, 8, 13, 19, 26 or 27".
pub const ERRORS: [u8; 10] = [
    0,
    NOT_READY,
    NO_CARTRIDGE,
    UNDEFINED_COMMAND,
    ILLEGAL_TRACK,
    ILLEGAL_IN_REPORT,
    NEW_CARTRIDGE,
    NOT_REFERENCED,
    POWER_ON,
    SOFT_RESET,
];

const LONGEST_REPORT: u8 = 17;

/// Which way a call went, for counting what tests have seen.
#[derive(Clone, Copy, Debug, PartialEq, Eq, PartialOrd, Ord, Hash)]
pub enum Branch {
    Refused(u8),
    /// Step 1.
    ResetWithCartridge,
    ResetWithout,
    /// Step 2.
    NibbleHeld,
    SkipStarted(u8),
    NibbleOutOfRange,
    RateSet,
    RateOutOfRange,
    TrackSet,
    TrackOutOfRange,
    /// Step 3.
    NextItem,
    FinalItem,
    Repeated,
    IgnoredInReport,
    IllegalInReport,
    /// Step 4.
    NextBitAlone,
    /// Step 5.
    Unsupported,
    Ignored,
    /// Step 6.
    Report(u8),
    ErrorReportWhileMoving,
    ErrorReportClearsNewMark,
    /// Step 7.
    NotReadyInLoad,
    NotReadyInRun,
    HeldError,
    NewMark,
    NoCartridge,
    NotReferenced,
    Obeyed(u8),
    ObeyedAfterStop(u8),
    /// The other calls.
    TickedStill,
    TickedOn,
    TickArrivedRun,
    TickArrivedLoad,
    Inserted,
    RemovedStill,
    RemovedMoving,
    WaitedToReady,
    WaitedToLimit,
    WaitedReady,
    /// A list, before its trains.
    ListAccepted,
}

/// Power-on.
pub fn power_on(record: &mut [u8; 32], vendor: u16, rom: u8) {
    // "Power-on: no cartridge, error 26 with command 0, rate 2, level 0, given vendor (16 bits) and ROM (8 bits)."
    let mut drive = Drive::decoded(&[0; 32]);
    drive.error = POWER_ON;
    drive.rate = 2;
    drive.vendor = vendor;
    drive.rom = rom;
    *record = drive.encoded();
}

/// One train of pulses; the answer's bytes.
pub fn train(record: &mut [u8; 32], pulses: u16) -> [u8; 8] {
    train_with(Bug::None, record, pulses).0
}

/// One tick; the answer's bytes.
pub fn tick(record: &mut [u8; 32]) -> [u8; 8] {
    tick_with(Bug::None, record).0
}

/// A cartridge is put in; the answer's bytes.
pub fn insert(record: &mut [u8; 32], cartridge: &[u8; 8]) -> [u8; 8] {
    insert_with(Bug::None, record, cartridge).0
}

/// The cartridge is taken out; the answer's bytes.
pub fn remove(record: &mut [u8; 32]) -> [u8; 8] {
    remove_with(Bug::None, record).0
}

/// Ticks until ready or a limit; the answer's bytes.
pub fn wait(record: &mut [u8; 32], limit: u32) -> [u8; 8] {
    wait_with(Bug::None, record, limit).0
}

pub fn train_with(bug: Bug, record: &mut [u8; 32], pulses: u16) -> ([u8; 8], Branch) {
    call(bug, record, |drive| {
        let pulses = if bug == Bug::TrainsCutToByte {
            pulses % 256
        } else {
            pulses
        };
        if pulses == 0 {
            return Err(5);
        }
        Ok((drive.take_train(pulses), 0))
    })
}

pub fn tick_with(bug: Bug, record: &mut [u8; 32]) -> ([u8; 8], Branch) {
    call(bug, record, |drive| Ok((drive.take_tick(), 0)))
}

pub fn insert_with(bug: Bug, record: &mut [u8; 32], cartridge: &[u8; 8]) -> ([u8; 8], Branch) {
    call(bug, record, |drive| {
        if drive.cartridge_in {
            return Err(7);
        }
        if !description_in_range(cartridge) {
            return Err(6);
        }
        drive.take_in(cartridge);
        Ok((Branch::Inserted, 0))
    })
}

pub fn remove_with(bug: Bug, record: &mut [u8; 32]) -> ([u8; 8], Branch) {
    call(bug, record, |drive| {
        if !drive.cartridge_in {
            return Err(7);
        }
        Ok((drive.give_out(), 0))
    })
}

pub fn wait_with(bug: Bug, record: &mut [u8; 32], limit: u32) -> ([u8; 8], Branch) {
    call(bug, record, |drive| {
        // "A wait call ticks until ready or a limit, and its answer counts the ticks".
        let mut ticks = 0;
        while drive.is_moving() && ticks < limit {
            drive.take_tick();
            ticks += 1;
        }
        let branch = match (ticks, drive.is_moving()) {
            (_, true) => Branch::WaitedToLimit,
            (0, false) => Branch::WaitedReady,
            (_, false) => Branch::WaitedToReady,
        };
        if bug == Bug::WaitCountsOneMore {
            ticks = ticks.saturating_add(1);
        }
        Ok((branch, ticks))
    })
}

// "Pulse order: 8, then 7 or 5, then 6." "A refusal returns its number, .. level 0, 0 ticks, and alters nothing; else the number is 0."
fn call(
    bug: Bug,
    record: &mut [u8; 32],
    work: impl FnOnce(&mut Drive) -> Result<(Branch, u32), u8>,
) -> ([u8; 8], Branch) {
    let mut drive = Drive::decoded(record);
    drive.bug = bug;
    let outcome = if drive.keeps_rules() {
        work(&mut drive)
    } else {
        Err(8)
    };
    let mut answer = [0; 8];
    match outcome {
        Err(number) => {
            answer[0] = number;
            (answer, Branch::Refused(number))
        }
        Ok((branch, ticks)) => {
            *record = drive.encoded();
            answer[1] = u8::from(drive.level);
            put_long(&mut answer, 4, ticks);
            (answer, branch)
        }
    }
}

// "Cartridge: segments G 1-4095, tracks 1-64, place S 0-G, protected, burst present, format 0-4, type 0-7, wide."
fn description_in_range(cartridge: &[u8; 8]) -> bool {
    let segments = word_at(cartridge, 0);
    let place = word_at(cartridge, 3);
    numbers_in_range(segments, cartridge[2], cartridge[6], cartridge[7]) && place <= segments
}

fn numbers_in_range(segments: u16, tracks: u8, format: u8, kind: u8) -> bool {
    (1..=4095).contains(&segments) && (1..=64).contains(&tracks) && format <= 4 && kind <= 7
}

/// Arguments that a code takes, by table 2b of 000; codes that the drive doesn't support take none.
pub fn arguments_needed(code: u16) -> u8 {
    match code {
        SEEK_TRACK | SELECT_RATE => 1,
        SKIP_REVERSE | SKIP_FORWARD => 2,
        SKIP_EXTENDED_REVERSE | SKIP_EXTENDED_FORWARD => 3,
        _ => 0,
    }
}

#[derive(Clone, Copy, PartialEq, Eq)]
enum Motion {
    Still,
    Run,
    Load,
}

struct Drive {
    bug: Bug,
    cartridge_in: bool,
    referenced: bool,
    new_mark: bool,
    status_asked: bool,
    repeat_owed: bool,
    motion: Motion,
    segments: u16,
    tracks: u8,
    protected: bool,
    burst: bool,
    wide: bool,
    format: u8,
    kind: u8,
    place: u16,
    target: u16,
    track: u8,
    rate: u8,
    error: u8,
    error_command: u8,
    level: bool,
    report_left: u8,
    report_bits: u16,
    waiting: u8,
    held: u8,
    value: u16,
    vendor: u16,
    rom: u8,
}

impl Drive {
    fn decoded(record: &[u8; 32]) -> Drive {
        let flag = |bit: u8| record[0] & bit != 0;
        let report_is_open = record[17] != 0;
        let waits = record[20] != 0;
        let held = if waits { record[21] } else { 0 };
        Drive {
            bug: Bug::None,
            cartridge_in: flag(1),
            referenced: flag(2),
            new_mark: flag(4),
            status_asked: flag(8),
            repeat_owed: flag(16),
            motion: match record[1] {
                1 => Motion::Run,
                2 => Motion::Load,
                _ => Motion::Still,
            },
            segments: word_at(record, 2),
            tracks: record[4],
            protected: record[5] & 1 != 0,
            burst: record[5] & 2 != 0,
            wide: record[5] & 4 != 0,
            format: record[6],
            kind: record[7],
            place: word_at(record, 8),
            target: word_at(record, 10),
            track: record[12],
            rate: record[13],
            error: record[14],
            error_command: record[15],
            level: record[16] & 1 != 0,
            report_left: record[17],
            report_bits: if report_is_open {
                word_at(record, 18)
            } else {
                0
            },
            waiting: record[20],
            held,
            value: nibbles_of(word_at(record, 22), held),
            vendor: word_at(record, 24),
            rom: record[26],
        }
    }

    fn encoded(&self) -> [u8; 32] {
        let mut record = [0; 32];
        record[0] = u8::from(self.cartridge_in)
            + 2 * u8::from(self.referenced)
            + 4 * u8::from(self.new_mark)
            + 8 * u8::from(self.status_asked)
            + 16 * u8::from(self.repeat_owed);
        record[1] = match self.motion {
            Motion::Still => 0,
            Motion::Run => 1,
            Motion::Load => 2,
        };
        put_word(&mut record, 2, self.segments);
        record[4] = self.tracks;
        record[5] = u8::from(self.protected) + 2 * u8::from(self.burst) + 4 * u8::from(self.wide);
        record[6] = self.format;
        record[7] = self.kind;
        put_word(&mut record, 8, self.place);
        put_word(&mut record, 10, self.target);
        record[12] = self.track;
        record[13] = self.rate;
        record[14] = self.error;
        record[15] = self.error_command;
        record[16] = u8::from(self.level);
        record[17] = self.report_left;
        put_word(&mut record, 18, self.report_bits);
        record[20] = self.waiting;
        record[21] = self.held;
        put_word(&mut record, 22, self.value);
        put_word(&mut record, 24, self.vendor);
        record[26] = self.rom;
        record
    }

    // "Record rules (8)".
    fn keeps_rules(&self) -> bool {
        self.cartridge_keeps_rules()
            && self.motion_keeps_rules()
            && self.numbers_keep_rules()
            && self.arguments_keep_rules()
    }

    // "cartridge within its ranges, S and target <= G, track < tracks; with none, these and the description 0, not referenced or new".
    fn cartridge_keeps_rules(&self) -> bool {
        if self.cartridge_in {
            numbers_in_range(self.segments, self.tracks, self.format, self.kind)
                && self.place <= self.segments
                && self.target <= self.segments
                && self.track < self.tracks
        } else {
            let places_are_0 = self.place == 0 && self.target == 0 && self.track == 0;
            let flags_are_0 = !self.protected && !self.burst && !self.wide;
            let numbers_are_0 =
                self.segments == 0 && self.tracks == 0 && self.format == 0 && self.kind == 0;
            places_are_0 && flags_are_0 && numbers_are_0 && !self.referenced && !self.new_mark
        }
    }

    // "moving exactly when S is off its target .., a load only moving to 0"; "a held error moves only by a load."
    fn motion_keeps_rules(&self) -> bool {
        let moving_fits = self.is_moving() == (self.place != self.target);
        let load_fits = self.motion != Motion::Load || self.target == 0;
        let error_fits = self.error == 0 || self.motion != Motion::Run;
        moving_fits && load_fits && error_fits
    }

    // "rate <= 3; error 0, 1, 2, 6, 7, 8, 13, 19, 26 or 27; report items left <= 17; a repeat owed only in an open report".
    fn numbers_keep_rules(&self) -> bool {
        let repeat_fits = !self.repeat_owed || self.report_is_open();
        self.rate <= 3
            && ERRORS.contains(&self.error)
            && self.report_left <= LONGEST_REPORT
            && repeat_fits
    }

    // "arguments held fewer than needed; waiting arguments only with no open report, no motion, no error and no new mark, and those of
    // 13 or a skip only when referenced".
    fn arguments_keep_rules(&self) -> bool {
        if self.waiting == 0 {
            return true;
        }
        let code = u16::from(self.waiting);
        let needs_reference = code == SEEK_TRACK || SKIPS.contains(&code);
        self.held < arguments_needed(code)
            && !self.report_is_open()
            && !self.is_moving()
            && self.error == 0
            && !self.new_mark
            && (self.referenced || !needs_reference)
    }

    // "Ready means not moving."
    fn is_moving(&self) -> bool {
        self.motion != Motion::Still
    }

    fn report_is_open(&self) -> bool {
        self.report_left > 0
    }

    fn drop_report(&mut self) {
        self.report_left = 0;
        self.report_bits = 0;
        self.repeat_owed = false;
    }

    fn drop_arguments(&mut self) {
        self.waiting = 0;
        self.held = 0;
        self.value = 0;
    }

    // "(a stop sets target S)".
    fn stop(&mut self) {
        self.motion = Motion::Still;
        self.target = self.place;
    }

    // "A motion already there ends at once."
    fn start(&mut self, motion: Motion, target: u16) {
        self.motion = motion;
        self.target = target;
        let held_back = self.bug == Bug::LoadAtZeroMoves && motion == Motion::Load;
        if self.place == target && !held_back {
            self.arrive();
        }
    }

    // "at the target motion ends". "A load moves to S = 0, then track 0, referenced = burst present."
    fn arrive(&mut self) {
        if self.motion == Motion::Load {
            self.track = 0;
            self.referenced = self.burst;
        }
        self.motion = Motion::Still;
    }

    fn start_load(&mut self) {
        self.start(Motion::Load, 0);
    }

    // "The first error stays until read .. An error latched stops any motion but a load."
    fn latch(&mut self, error: u8, command: u16) {
        if self.error == 0 || self.bug == Bug::LaterErrorWins {
            self.error = error;
            self.error_command = command as u8;
            if self.motion == Motion::Run && self.bug != Bug::ErrorKeepsRun {
                self.stop();
            }
        }
    }

    // "A tick drops unfinished arguments and moves S one toward the target; at the target motion ends."
    fn take_tick(&mut self) -> Branch {
        if self.bug != Bug::TickKeepsArguments {
            self.drop_arguments();
        }
        if !self.is_moving() {
            return Branch::TickedStill;
        }
        if self.bug == Bug::TickJumps {
            self.place = self.target;
        } else if self.place < self.target {
            self.place += 1;
        } else if self.place > self.target {
            self.place -= 1;
        }
        if self.place != self.target {
            return Branch::TickedOn;
        }
        let branch = match self.motion {
            Motion::Load => Branch::TickArrivedLoad,
            _ => Branch::TickArrivedRun,
        };
        self.arrive();
        branch
    }

    // "Insertion: S as described, track 0, new mark, load starts." "Both drop report and arguments, and forget that status was asked."
    fn take_in(&mut self, cartridge: &[u8; 8]) {
        self.cartridge_in = true;
        self.segments = word_at(cartridge, 0);
        self.tracks = cartridge[2];
        self.protected = cartridge[5] & 1 != 0;
        self.burst = cartridge[5] & 2 != 0;
        self.wide = cartridge[5] & 4 != 0;
        self.format = cartridge[6];
        self.kind = cartridge[7];
        self.place = word_at(cartridge, 3);
        self.track = 0;
        self.new_mark = true;
        self.drop_report();
        self.drop_arguments();
        self.status_asked = false;
        self.start_load();
    }

    // "Removal: error 2, command 0, if moving; clears motion, referenced, new mark; S, target, track and the description become 0."
    fn give_out(&mut self) -> Branch {
        let branch = if self.is_moving() {
            if self.bug != Bug::RemovalKeepsError {
                self.latch(NO_CARTRIDGE, 0);
            }
            Branch::RemovedMoving
        } else {
            Branch::RemovedStill
        };
        self.motion = Motion::Still;
        self.referenced = false;
        self.new_mark = false;
        self.place = 0;
        self.target = 0;
        self.track = 0;
        self.cartridge_in = false;
        self.segments = 0;
        self.tracks = 0;
        self.protected = false;
        self.burst = false;
        self.wide = false;
        self.format = 0;
        self.kind = 0;
        self.drop_report();
        self.drop_arguments();
        self.status_asked = false;
        branch
    }

    // "Train n, in order".
    fn take_train(&mut self, n: u16) -> Branch {
        if n == RESET {
            self.reset()
        } else if self.waiting != 0 {
            self.argument(n)
        } else if self.report_is_open() {
            self.in_report(n)
        } else if n == NEXT_BIT {
            // "2 alone: level 1, nothing else."
            self.level = true;
            Branch::NextBitAlone
        } else if !SUPPORTED.contains(&n) {
            self.unsupported(n)
        } else if REPORTS.contains(&n) {
            self.report(n)
        } else {
            self.command(n)
        }
    }

    // "1. n = 1: report and arguments dropped, status forgotten, referenced cleared, error 27 command 1, load starts if a cartridge is in."
    // "The first error stays until read .., except that reset overwrites."
    fn reset(&mut self) -> Branch {
        self.drop_report();
        self.drop_arguments();
        self.status_asked = false;
        self.referenced = false;
        self.error = SOFT_RESET;
        self.error_command = RESET as u8;
        if self.bug == Bug::ResetClearsNewMark {
            self.new_mark = false;
        }
        if self.bug == Bug::ResetDropsLevel {
            self.level = false;
        }
        if !self.cartridge_in {
            return Branch::ResetWithout;
        }
        self.start_load();
        Branch::ResetWithCartridge
    }

    // "2. Argument waiting: its value is n - 2. Nibbles 0-15, rate 0-3; beyond that the list is dropped, no error. Track not below the
    // count: error 7."
    fn argument(&mut self, n: u16) -> Branch {
        let value = n - 2;
        let code = u16::from(self.waiting);
        match code {
            SEEK_TRACK => {
                self.drop_arguments();
                self.seek(value)
            }
            SELECT_RATE => {
                self.drop_arguments();
                if value > 3 {
                    return self.out_of_range(n, Branch::RateOutOfRange);
                }
                self.rate = value as u8;
                Branch::RateSet
            }
            _ if value > 15 => {
                self.drop_arguments();
                self.out_of_range(n, Branch::NibbleOutOfRange)
            }
            _ => self.nibble(code, value),
        }
    }

    fn out_of_range(&mut self, n: u16, branch: Branch) -> Branch {
        if self.bug == Bug::OutOfRangeObeyed {
            return self.take_train(n);
        }
        branch
    }

    // "13 sets the track at once." "An error keeps n as its command, error 7 keeps 13."
    fn seek(&mut self, value: u16) -> Branch {
        if value >= u16::from(self.tracks) {
            let command = if self.bug == Bug::TrackErrorKeepsTrain {
                value + 2
            } else {
                SEEK_TRACK
            };
            self.latch(ILLEGAL_TRACK, command);
            return Branch::TrackOutOfRange;
        }
        self.track = value as u8;
        Branch::TrackSet
    }

    fn nibble(&mut self, code: u16, value: u16) -> Branch {
        self.value += value * 16u16.pow(u32::from(self.held));
        self.held += 1;
        if self.held < arguments_needed(code) {
            return Branch::NibbleHeld;
        }
        let distance = self.value;
        self.drop_arguments();
        self.skip(code, distance);
        Branch::SkipStarted(code as u8)
    }

    // "Skips add or subtract N, held within 0-G".
    fn skip(&mut self, code: u16, distance: u16) {
        let forward = code == SKIP_FORWARD || code == SKIP_EXTENDED_FORWARD;
        let target = if !forward {
            self.place.saturating_sub(distance)
        } else if self.bug == Bug::SkipPassesEnd {
            self.place + distance
        } else {
            self.segments.min(self.place + distance)
        };
        self.start(Motion::Run, target);
    }

    // "3. Report open: 2 gives the next item. An unsupported n > 32 is ignored, and the next 2 repeats the last level. Others: error 8,
    // report closed, level 0, not obeyed."
    fn in_report(&mut self, n: u16) -> Branch {
        if n == NEXT_BIT {
            return self.next_item();
        }
        if n > 32 && !SUPPORTED.contains(&n) {
            self.repeat_owed = true;
            return Branch::IgnoredInReport;
        }
        self.latch(ILLEGAL_IN_REPORT, n);
        self.drop_report();
        self.level = false;
        Branch::IllegalInReport
    }

    fn next_item(&mut self) -> Branch {
        if self.repeat_owed {
            self.repeat_owed = self.bug == Bug::RepeatStaysOwed;
            return Branch::Repeated;
        }
        if self.report_left == 1 {
            self.level = true;
            self.drop_report();
            return Branch::FinalItem;
        }
        self.level = self.report_bits % 2 == 1;
        self.report_bits /= 2;
        self.report_left -= 1;
        Branch::NextItem
    }

    // "5. Unsupported: below 32 error 6, above ignored."
    fn unsupported(&mut self, n: u16) -> Branch {
        if n > 32 {
            return Branch::Ignored;
        }
        self.latch(UNDEFINED_COMMAND, n);
        Branch::Unsupported
    }

    // "6. Reports 6-9, 32, 33: level 1, then the bits as they stood then, lowest first, then a final 1."
    fn report(&mut self, n: u16) -> Branch {
        let (bits, length) = match n {
            REPORT_STATUS => (self.status_bits(), 8),
            REPORT_ERROR => (self.error_bits(), 16),
            REPORT_CONFIGURATION => (self.configuration_bits(), 8),
            REPORT_ROM => (u16::from(self.rom), 8),
            REPORT_VENDOR => (self.vendor, 16),
            _ => (self.tape_bits(), 8),
        };
        self.level = true;
        self.report_bits = bits;
        self.report_left = length + 1;
        match n {
            REPORT_STATUS => self.note_status(),
            REPORT_ERROR => return self.clear_after_error_report(),
            _ => (),
        }
        Branch::Report(n as u8)
    }

    // "a 6 came while ready since insertion or reset".
    fn note_status(&mut self) {
        if !self.is_moving() || self.bug == Bug::StatusAskedWhileMoving {
            self.status_asked = true;
        }
    }

    // "7 sends error and command; when not moving it clears the error, and the new mark if a 6 came while ready since insertion or reset."
    fn clear_after_error_report(&mut self) -> Branch {
        if self.is_moving() && self.bug != Bug::ErrorClearedWhileMoving {
            return Branch::ErrorReportWhileMoving;
        }
        self.error = 0;
        self.error_command = 0;
        if self.new_mark && (self.status_asked || self.bug == Bug::NewMarkClearedUnasked) {
            self.new_mark = false;
            return Branch::ErrorReportClearsNewMark;
        }
        Branch::Report(REPORT_ERROR as u8)
    }

    // Table 2c of 000, and "Status bits 6 and 7 are S = 0 and S = G, both 0 without a cartridge."
    fn status_bits(&self) -> u16 {
        let at_start = self.cartridge_in && self.place == 0;
        let at_end = self.cartridge_in && self.place == self.segments;
        u16::from(!self.is_moving())
            + 2 * u16::from(self.error != 0)
            + 4 * u16::from(self.cartridge_in)
            + 8 * u16::from(self.protected)
            + 16 * u16::from(self.new_mark)
            + 32 * u16::from(self.referenced)
            + 64 * u16::from(at_start)
            + 128 * u16::from(at_end)
    }

    fn error_bits(&self) -> u16 {
        if self.bug == Bug::ErrorReportSendsNothing && !self.is_moving() {
            return 0;
        }
        u16::from_be_bytes([self.error_command, self.error])
    }

    // "config bits 1, 2, 5 zero, bit 6 set for type 2 and bit 7 for format 2, both only when referenced"; the rate in bits 3-4.
    fn configuration_bits(&self) -> u16 {
        let extra_length = self.referenced && self.kind == 2;
        let qic_80 = self.referenced && self.format == 2;
        8 * u16::from(self.rate) + 64 * u16::from(extra_length) + 128 * u16::from(qic_80)
    }

    // "33 sends zero format and type when not referenced."
    fn tape_bits(&self) -> u16 {
        let wide = 128 * u16::from(self.wide);
        if !self.referenced && self.bug != Bug::TapeStatusUnreferenced {
            return wide;
        }
        wide + u16::from(self.format) + 16 * u16::from(self.kind)
    }

    // "7. Others. Moving: 3, 18, 25, 26, 34, 35 stop a motion that isn't a load and go on through these checks; else error 1, not obeyed.
    // Each error below also ends the train."
    fn command(&mut self, n: u16) -> Branch {
        let mut stopped = false;
        if self.is_moving() {
            let stops = n == PAUSE || n == STOP || SKIPS.contains(&n);
            if self.motion == Motion::Load {
                self.latch(NOT_READY, n);
                return Branch::NotReadyInLoad;
            }
            if !stops {
                self.latch(NOT_READY, n);
                return Branch::NotReadyInRun;
            }
            self.stop();
            stopped = true;
        }
        if let Some(branch) = self.rejection(n) {
            if self.bug == Bug::RejectedSeekTakesTrack && n == SEEK_TRACK {
                self.waiting = SEEK_TRACK as u8;
            }
            return branch;
        }
        self.obey(n);
        if stopped {
            Branch::ObeyedAfterStop(n as u8)
        } else {
            Branch::Obeyed(n as u8)
        }
    }

    // "Held error: rejected, it stays. New mark: 13. No cartridge (10-14, skips): 2. Not referenced (10, 13, skips): 19."
    fn rejection(&mut self, n: u16) -> Option<Branch> {
        let is_skip = SKIPS.contains(&n);
        let needs_cartridge = (LOGICAL_FORWARD..=SEEK_LOAD_POINT).contains(&n) || is_skip;
        let needs_reference = n == LOGICAL_FORWARD || n == SEEK_TRACK || is_skip;
        if self.error != 0 {
            return Some(Branch::HeldError);
        }
        if self.new_mark {
            self.latch(NEW_CARTRIDGE, n);
            return Some(Branch::NewMark);
        }
        if needs_cartridge && !self.cartridge_in {
            self.latch(NO_CARTRIDGE, n);
            return Some(Branch::NoCartridge);
        }
        if needs_reference && !self.referenced {
            self.latch(NOT_REFERENCED, n);
            return Some(Branch::NotReferenced);
        }
        None
    }

    // "10 and 12 go to G; 11 and 14 to 0, 14 as a load. 3 and 18 stop."
    fn obey(&mut self, n: u16) {
        match n {
            LOGICAL_FORWARD | PHYSICAL_FORWARD => self.start(Motion::Run, self.segments),
            PHYSICAL_REVERSE => self.start(Motion::Run, 0),
            SEEK_LOAD_POINT => self.start_load(),
            PAUSE | STOP => (),
            _ => self.waiting = n as u8,
        }
    }
}

/// "Only the nibbles held count: the value is read modulo 16^held".
fn nibbles_of(value: u16, held: u8) -> u16 {
    if held >= 4 {
        return value;
    }
    value % 16u16.pow(u32::from(held))
}

#[cfg(test)]
mod tests;
