//! What the record of every packet device holds: its first 16 bytes.

use crate::Bug;
use crate::bytes::{long_at, put_long, put_word, word_at};

/// "The fresh record's speed becomes 250 instead of 0." (02, A2)
const FRESH_SPEED: u16 = 250;

/// Bits of the record's byte 4; its others are reserved.
const LOADED: u8 = 1;
const LOCKED: u8 = 2;

/// "attention (none, medium changed, reset)".
#[derive(Clone, Copy, PartialEq, Eq)]
pub enum Attention {
    None,
    MediumChanged,
    Reset,
}

/// "sense (key, ASC, ASCQ, filemark, EOM, valid, information)".
#[derive(Clone, Copy, PartialEq, Eq)]
pub struct Sense {
    pub key: u8,
    pub asc: u8,
    pub ascq: u8,
    pub filemark: bool,
    pub eom: bool,
    pub valid: bool,
    pub information: u32,
}

impl Sense {
    pub const ZERO: Sense = Sense::of(0, 0, 0);

    pub const fn of(key: u8, asc: u8, ascq: u8) -> Sense {
        Sense {
            key,
            asc,
            ascq,
            filemark: false,
            eom: false,
            valid: false,
            information: 0,
        }
    }

    pub fn with_filemark(self) -> Sense {
        Sense {
            filemark: true,
            ..self
        }
    }

    pub fn with_eom(self) -> Sense {
        Sense { eom: true, ..self }
    }

    pub fn with_residue(self, information: u32) -> Sense {
        Sense {
            valid: true,
            information,
            ..self
        }
    }
}

/// "Record: position P; loaded; attention ..; speed; sense .."; 02, A8: "The packet record gains a locked flag".
pub struct State {
    pub position: u32,
    pub loaded: bool,
    pub locked: bool,
    pub attention: Attention,
    pub speed: u16,
    pub sense: Sense,
}

impl State {
    // "Fresh: P 0, loaded, attention reset, .. sense zero", the speed as A2 has it; 02, A8: "a locked flag, false when fresh".
    pub fn fresh(bug: Bug) -> State {
        let automatic = bug == Bug::FreshIsAutomatic;
        State {
            position: 0,
            loaded: true,
            locked: bug == Bug::FreshIsLocked,
            attention: Attention::Reset,
            speed: if automatic { 0 } else { FRESH_SPEED },
            sense: Sense::ZERO,
        }
    }

    // "Changing the cartridge .. sets only P 0, loaded, attention medium changed, sense zero."; 02, A8: the locked flag is "kept
    // through a cartridge change".
    pub fn change_cartridge(&mut self, bug: Bug) {
        match bug {
            Bug::ChangeResetsSpeed => self.speed = FRESH_SPEED,
            Bug::ChangeUnlocks => self.locked = false,
            Bug::ChangeLocks => self.locked = true,
            Bug::LockStopsChange if self.locked => return,
            _ => (),
        }
        self.position = 0;
        self.loaded = true;
        self.attention = Attention::MediumChanged;
        self.sense = Sense::ZERO;
    }

    pub fn decoded(bug: Bug, record: &[u8; 16]) -> State {
        let locked_bits = if bug == Bug::ReservedBitsLock {
            0xFE
        } else {
            LOCKED
        };
        State {
            position: long_at(record, 0),
            loaded: record[4] & LOADED != 0,
            locked: record[4] & locked_bits != 0,
            attention: match record[5] {
                1 => Attention::MediumChanged,
                2 => Attention::Reset,
                _ => Attention::None,
            },
            speed: word_at(record, 6),
            sense: Sense {
                key: record[8],
                asc: record[9],
                ascq: record[10],
                valid: record[11] & 1 != 0,
                eom: record[11] & 2 != 0,
                filemark: record[11] & 4 != 0,
                information: long_at(record, 12),
            },
        }
    }

    pub fn encoded(&self) -> [u8; 16] {
        let mut record = [0; 16];
        put_long(&mut record, 0, self.position);
        record[4] = LOADED * u8::from(self.loaded) + LOCKED * u8::from(self.locked);
        record[5] = match self.attention {
            Attention::None => 0,
            Attention::MediumChanged => 1,
            Attention::Reset => 2,
        };
        put_word(&mut record, 6, self.speed);
        record[8] = self.sense.key;
        record[9] = self.sense.asc;
        record[10] = self.sense.ascq;
        record[11] = u8::from(self.sense.valid)
            + 2 * u8::from(self.sense.eom)
            + 4 * u8::from(self.sense.filemark);
        put_long(&mut record, 12, self.sense.information);
        record
    }
}
