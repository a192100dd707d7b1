//! The pulse drive: a record of 32 bytes that trains of pulses, ticks, insertion and removal turn into the next.

use std::fmt;

use crate::bytes::{long_at, put_word, word_at};
use crate::{Device, Refusal, ffi};

/// The drive's record in the bytes that a card keeps.
#[derive(Clone, Copy, Debug, PartialEq, Eq, Hash)]
pub struct Record(pub [u8; 32]);

/// The level of the answer line.
#[derive(Clone, Copy, Debug, PartialEq, Eq, Hash)]
pub struct Level(pub bool);

/// How the tape moves.
#[derive(Clone, Copy, Debug, PartialEq, Eq, Hash)]
pub enum Motion {
    Still,
    Run,
    Load,
}

/// A cartridge with the place it is put in at.
#[derive(Clone, Copy, Debug, PartialEq, Eq, Hash)]
pub struct Cartridge {
    /// Segments of a track, 1-4095.
    pub segments: u16,
    /// Tracks, 1-64.
    pub tracks: u8,
    /// The place the tape stands at, 0 to `segments`.
    pub place: u16,
    pub protected: bool,
    /// A reference burst is on the tape.
    pub burst: bool,
    pub wide: bool,
    /// Tape format, 0-4.
    pub format: u8,
    /// Tape type, 0-7.
    pub kind: u8,
}

/// The answer to a wait.
#[derive(Clone, Copy, Debug, PartialEq, Eq, Hash)]
pub struct Waited {
    pub level: Level,
    /// Ticks used: the smaller of the limit and the distance left.
    pub ticks: u32,
}

impl Record {
    /// The record of a drive just switched on, without a cartridge.
    pub fn power_on(vendor: u16, rom: u8) -> Record {
        let mut bytes = [0; 32];
        ffi::pulse_power_on(&mut bytes, vendor, rom);
        Record(bytes)
    }

    /// Sends one train of pulses.
    pub fn train(&mut self, pulses: u16) -> Result<Level, Refusal> {
        let mut answer = [0; 8];
        ffi::pulse_train(&mut self.0, pulses, &mut answer);
        level_of(&answer)
    }

    /// Sends a list of trains, none of them apart from the others by a tick, as if each were sent by [`Record::train`]. The level
    /// after each is put in `levels`, 0 or 1, whose bytes beyond the list stay; what is handed back is the level after the last, or as
    /// it stood where the list is empty. Refused, nothing is sent: 8, then 5 where any count is 0, then 4 where `levels` is shorter
    /// than the list.
    pub fn trains(&mut self, counts: &[u16], levels: &mut [u8]) -> Result<Level, Refusal> {
        let mut answer = [0; 8];
        ffi::pulse_trains(&mut self.0, counts, levels, &mut answer);
        level_of(&answer)
    }

    /// Sends a list of trains, as [`Record::trains`] does, with a level buffer of its own: the level after each train.
    pub fn exchange(&mut self, counts: &[u16]) -> Result<Vec<Level>, Refusal> {
        let mut levels = vec![0; counts.len()];
        self.trains(counts, &mut levels)?;
        Ok(levels.into_iter().map(|level| Level(level != 0)).collect())
    }

    /// Lets one tick of time pass.
    pub fn tick(&mut self) -> Result<Level, Refusal> {
        let mut answer = [0; 8];
        ffi::pulse_tick(&mut self.0, &mut answer);
        level_of(&answer)
    }

    /// Puts a cartridge in.
    pub fn insert(&mut self, c: &Cartridge) -> Result<Level, Refusal> {
        let mut answer = [0; 8];
        ffi::pulse_insert(&mut self.0, &c.bytes(), &mut answer);
        level_of(&answer)
    }

    /// Takes the cartridge out.
    pub fn remove(&mut self) -> Result<Level, Refusal> {
        let mut answer = [0; 8];
        ffi::pulse_remove(&mut self.0, &mut answer);
        level_of(&answer)
    }

    /// Ticks until the drive is ready, at most `limit` times.
    pub fn wait(&mut self, limit: u32) -> Result<Waited, Refusal> {
        let mut answer = [0; 8];
        ffi::pulse_wait(&mut self.0, limit, &mut answer);
        let level = level_of(&answer)?;
        let ticks = long_at(&answer, 4);
        Ok(Waited { level, ticks })
    }

    pub fn cartridge_in(&self) -> bool {
        self.flag(1)
    }

    /// The cartridge that is in, with the place it stands at now.
    pub fn cartridge(&self) -> Option<Cartridge> {
        self.cartridge_in().then(|| Cartridge {
            segments: self.segments(),
            tracks: self.tracks(),
            place: self.place(),
            protected: self.protected(),
            burst: self.burst(),
            wide: self.wide(),
            format: self.format(),
            kind: self.kind(),
        })
    }

    pub fn referenced(&self) -> bool {
        self.flag(2)
    }

    /// The cartridge is new: its mark was not cleared yet.
    pub fn new_mark(&self) -> bool {
        self.flag(4)
    }

    /// Status was asked while ready since insertion or reset.
    pub fn status_asked(&self) -> bool {
        self.flag(8)
    }

    /// The next 2 repeats the last level.
    pub fn repeat_owed(&self) -> bool {
        self.flag(16)
    }

    pub fn motion(&self) -> Motion {
        match self.0[1] {
            1 => Motion::Run,
            2 => Motion::Load,
            _ => Motion::Still,
        }
    }

    /// Not moving.
    pub fn ready(&self) -> bool {
        self.motion() == Motion::Still
    }

    pub fn segments(&self) -> u16 {
        word_at(&self.0, 2)
    }

    pub fn tracks(&self) -> u8 {
        self.0[4]
    }

    pub fn protected(&self) -> bool {
        self.0[5] & 1 != 0
    }

    pub fn burst(&self) -> bool {
        self.0[5] & 2 != 0
    }

    pub fn wide(&self) -> bool {
        self.0[5] & 4 != 0
    }

    /// Tape format.
    pub fn format(&self) -> u8 {
        self.0[6]
    }

    /// Tape type.
    pub fn kind(&self) -> u8 {
        self.0[7]
    }

    pub fn place(&self) -> u16 {
        word_at(&self.0, 8)
    }

    pub fn target(&self) -> u16 {
        word_at(&self.0, 10)
    }

    /// Ticks until a motion ends.
    pub fn distance(&self) -> u16 {
        self.place().abs_diff(self.target())
    }

    pub fn track(&self) -> u8 {
        self.0[12]
    }

    pub fn rate(&self) -> u8 {
        self.0[13]
    }

    /// The held error's number, 0 for none.
    pub fn error(&self) -> u8 {
        self.0[14]
    }

    /// The train that the error came with.
    pub fn error_command(&self) -> u8 {
        self.0[15]
    }

    pub fn level(&self) -> Level {
        Level(self.0[16] & 1 != 0)
    }

    /// Items of the open report not sent yet, 0 where none is open.
    pub fn report_left(&self) -> u8 {
        self.0[17]
    }

    /// Report bits not sent yet, the next one lowest.
    pub fn report_bits(&self) -> u16 {
        if self.report_left() == 0 {
            0
        } else {
            word_at(&self.0, 18)
        }
    }

    /// The code whose arguments are waited for, 0 for none.
    pub fn waiting_code(&self) -> u8 {
        self.0[20]
    }

    /// Arguments held of the code that waits.
    pub fn arguments_held(&self) -> u8 {
        if self.waiting_code() == 0 {
            0
        } else {
            self.0[21]
        }
    }

    /// Value of the arguments held, the first nibble lowest.
    pub fn argument_value(&self) -> u16 {
        let held = u32::from(self.arguments_held());
        let kept = 16u32
            .checked_pow(held)
            .unwrap_or(u32::MAX)
            .min(u32::from(u16::MAX) + 1);
        (u32::from(word_at(&self.0, 22)) % kept) as u16
    }

    pub fn vendor(&self) -> u16 {
        word_at(&self.0, 24)
    }

    pub fn rom(&self) -> u8 {
        self.0[26]
    }

    fn flag(&self, bit: u8) -> bool {
        self.0[0] & bit != 0
    }
}

impl Cartridge {
    /// The description in the layout's 8 bytes.
    pub fn bytes(&self) -> [u8; 8] {
        let mut bytes = [0; 8];
        put_word(&mut bytes, 0, self.segments);
        bytes[2] = self.tracks;
        put_word(&mut bytes, 3, self.place);
        bytes[5] = u8::from(self.protected) + 2 * u8::from(self.burst) + 4 * u8::from(self.wide);
        bytes[6] = self.format;
        bytes[7] = self.kind;
        bytes
    }
}

impl Level {
    /// The level is 1.
    pub fn is_high(self) -> bool {
        self.0
    }
}

impl From<Level> for bool {
    fn from(level: Level) -> bool {
        level.0
    }
}

impl fmt::Display for Level {
    fn fmt(&self, f: &mut fmt::Formatter<'_>) -> fmt::Result {
        write!(f, "{}", u8::from(self.0))
    }
}

fn level_of(answer: &[u8; 8]) -> Result<Level, Refusal> {
    Refusal::check(Device::Pulse, answer[0])?;
    Ok(Level(answer[1] != 0))
}
