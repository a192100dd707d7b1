//! The packet drive's stream device: a record of 16 bytes, a lent cartridge image, 12-byte packets. Its answer and its sense are
//! the floppy device's too.

use crate::bytes::triple::Triple;
use crate::bytes::{long_at, word_at};
use crate::{Device, Refusal, ffi};

/// Status of a packet that ended well.
pub const GOOD: u8 = 0;
/// Status of a packet whose sense tells more.
pub const CHECK_CONDITION: u8 = 2;
/// Bytes of a command packet.
pub const PACKET_LENGTH: usize = 12;

/// The drive's record in the bytes that a card keeps.
#[derive(Clone, Copy, Debug, PartialEq, Eq, Hash)]
pub struct Record(pub [u8; 16]);

/// What the next packet will be told before it is looked at.
#[derive(Clone, Copy, Debug, PartialEq, Eq, Hash)]
pub enum Attention {
    None,
    MediumChanged,
    Reset,
}

/// The sense that the record holds.
#[derive(Clone, Copy, Debug, Default, PartialEq, Eq, Hash)]
pub struct Sense {
    pub key: u8,
    pub asc: u8,
    pub ascq: u8,
    pub filemark: bool,
    /// Set with early warning (0/00/02), the end of tape (D/00/02) and the beginning (0/00/04), and with the end of data (8/00/05)
    /// that the stream device's READ and SPACE meet where U > C - W (02, A3).
    pub eom: bool,
    pub valid: bool,
    pub information: u32,
}

/// The answer to a packet that was not refused.
#[derive(Clone, Copy, Debug, PartialEq, Eq, Hash)]
pub struct Answer {
    /// [`GOOD`] or [`CHECK_CONDITION`].
    pub status: u8,
    /// Elements copied or stored, filemarks too.
    pub blocks: u32,
    /// Bytes filled or taken in the data buffer.
    pub bytes: u32,
    /// Of the blocks that a READ copied, how many are marked (02, A6); 0 for every other packet.
    pub marked: u32,
}

impl Record {
    /// The record of a drive just switched on: position 0, loaded, not locked, attention reset, speed 250.
    pub fn fresh() -> Record {
        let mut bytes = [0; 16];
        ffi::fresh(&mut bytes);
        Record(bytes)
    }

    /// Another cartridge was put in; the speed and the lock stay.
    pub fn change(&mut self) {
        ffi::change(&mut self.0);
    }

    /// The element that the next transfer begins at.
    pub fn position(&self) -> u32 {
        long_at(&self.0, 0)
    }

    pub fn loaded(&self) -> bool {
        self.0[4] & 1 != 0
    }

    /// The door is locked: an unload ends with 5/53/02 (02, A8).
    pub fn locked(&self) -> bool {
        self.0[4] & 2 != 0
    }

    pub fn attention(&self) -> Attention {
        match self.0[5] {
            1 => Attention::MediumChanged,
            2 => Attention::Reset,
            _ => Attention::None,
        }
    }

    /// 0 (automatic), 62, 125, 250 or 500.
    pub fn speed(&self) -> u16 {
        word_at(&self.0, 6)
    }

    pub fn sense(&self) -> Sense {
        let flags = self.0[11];
        Sense {
            key: self.0[8],
            asc: self.0[9],
            ascq: self.0[10],
            valid: flags & 1 != 0,
            eom: flags & 2 != 0,
            filemark: flags & 4 != 0,
            information: long_at(&self.0, 12),
        }
    }
}

impl Sense {
    pub fn triple(&self) -> Triple {
        [self.key, self.asc, self.ascq]
    }
}

impl Answer {
    /// The answer in the bytes that a call of this device wrote.
    pub(crate) fn read(device: Device, bytes: &[u8; 16]) -> Result<Answer, Refusal> {
        Refusal::check(device, bytes[0])?;
        Ok(Answer {
            status: bytes[1],
            blocks: long_at(bytes, 4),
            bytes: long_at(bytes, 8),
            marked: long_at(bytes, 12),
        })
    }

    pub fn is_good(&self) -> bool {
        self.status == GOOD
    }
}

/// Sends one packet. `data` is filled or taken by a transfer; bytes beyond the transfer stay. Refused, nothing changes.
pub fn packet(
    record: &mut Record,
    image: &mut [u8],
    packet: &[u8],
    data: &mut [u8],
) -> Result<Answer, Refusal> {
    let mut answer = [0; 16];
    ffi::packet(&mut record.0, image, packet, data, &mut answer);
    Answer::read(Device::Stream, &answer)
}
