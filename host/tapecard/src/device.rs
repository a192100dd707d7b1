//! The card's drives by their names, and what beside them answers a call.

use std::fmt;

use crate::bytes::opcode;
use crate::raw;

/// Who answers a call: one of the two packet devices, the pulse drive, or the exchange of tape files.
#[derive(Clone, Copy, Debug, PartialEq, Eq, Hash)]
pub enum Device {
    /// The packet drive of QIC-157: blocks and filemarks one after the other.
    Stream,
    /// The packet drive of QIC-172: blocks by number.
    Floppy,
    /// The pulse drive of QIC-117.
    Pulse,
    /// No drive: an image written out as a SIMH tape file, or one read in (02, A7).
    Exchange,
}

impl Device {
    /// First bytes of the packets that it knows.
    pub fn opcodes(self) -> &'static [u8] {
        match self {
            Device::Stream => &opcode::ALL,
            Device::Floppy => &opcode::FLOPPY,
            Device::Pulse | Device::Exchange => &[],
        }
    }

    /// Bytes of its record; the exchange leaves the stream device's as after a change of the cartridge.
    pub fn record_length(self) -> usize {
        match self {
            Device::Stream | Device::Exchange => raw::PACKET_RECORD,
            Device::Floppy => raw::FLOPPY_RECORD,
            Device::Pulse => raw::PULSE_RECORD,
        }
    }
}

impl fmt::Display for Device {
    fn fmt(&self, f: &mut fmt::Formatter<'_>) -> fmt::Result {
        f.write_str(match self {
            Device::Stream => "stream device",
            Device::Floppy => "floppy device",
            Device::Pulse => "pulse drive",
            Device::Exchange => "exchange of tape files",
        })
    }
}
