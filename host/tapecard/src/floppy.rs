//! The packet drive's floppy device: a record of 32 bytes, a lent cartridge image whose every element is recorded, 12-byte packets.
//! Blocks go by their number, there are no filemarks, and a block is rewritten in place.

use crate::bytes::{length, page, put_word, word_at};
use crate::packet::{self, Answer, Attention, Sense};
use crate::{Device, Refusal, ffi};

/// The device's record in the bytes that a card keeps.
#[derive(Clone, Copy, Debug, PartialEq, Eq, Hash)]
pub struct Record(pub [u8; 32]);

/// The tape parameters: page 2Bh. All but the three that make the product are only kept and told.
#[derive(Clone, Copy, Debug, Default, PartialEq, Eq, Hash)]
pub struct Tape {
    pub density: u8,
    /// The format fill byte.
    pub fill: u8,
    /// Blocks of a segment.
    pub bseg: u8,
    /// Segments of a track.
    pub segtrk: u16,
    /// Tracks of the tape.
    pub trks: u16,
    pub max_sector: u8,
    pub max_cylinder: u8,
    pub max_head: u8,
    /// Write deleted address marks; as the next two, only kept and told: a WRITE marks no block (02, A6).
    pub wdam: bool,
    /// Reduced margin.
    pub rm: bool,
    /// Format-write mode.
    pub fw: bool,
}

impl Record {
    /// The record of a drive just switched on with this image in it: position 0, loaded, not locked, attention reset, speed 250,
    /// the tape as long as the image.
    pub fn fresh(image: &[u8]) -> Result<Record, Refusal> {
        let (mut bytes, mut answer) = ([0; 32], [0; 16]);
        ffi::floppy_fresh(&mut bytes, image, &mut answer);
        Refusal::check(Device::Floppy, answer[0])?;
        Ok(Record(bytes))
    }

    /// The cartridge of this image was put in; the speed and the lock stay. Refused, nothing changes.
    pub fn change(&mut self, image: &[u8]) -> Result<(), Refusal> {
        let mut answer = [0; 16];
        ffi::floppy_change(&mut self.0, image, &mut answer);
        Refusal::check(Device::Floppy, answer[0])
    }

    /// The block that the next transfer begins at.
    pub fn position(&self) -> u32 {
        self.as_stream().position()
    }

    pub fn loaded(&self) -> bool {
        self.as_stream().loaded()
    }

    /// The door is locked: an unload ends with 5/53/02 (02, A8).
    pub fn locked(&self) -> bool {
        self.as_stream().locked()
    }

    pub fn attention(&self) -> Attention {
        self.as_stream().attention()
    }

    pub fn speed(&self) -> u16 {
        self.as_stream().speed()
    }

    pub fn sense(&self) -> Sense {
        self.as_stream().sense()
    }

    pub fn tape(&self) -> Tape {
        let flag = |bit: u8| self.0[19] & bit != 0;
        Tape {
            density: self.0[16],
            fill: self.0[17],
            bseg: self.0[18],
            segtrk: word_at(&self.0, 20),
            trks: word_at(&self.0, 22),
            max_sector: self.0[24],
            max_cylinder: self.0[25],
            max_head: self.0[26],
            wdam: flag(Tape::WDAM),
            rm: flag(Tape::RM),
            fw: flag(Tape::FW),
        }
    }

    /// The first 16 bytes, which are laid out as the stream device's record.
    fn as_stream(&self) -> packet::Record {
        let mut bytes = [0; 16];
        bytes.copy_from_slice(&self.0[..16]);
        packet::Record(bytes)
    }
}

impl Tape {
    const WDAM: u8 = 0x80;
    const RM: u8 = 0x40;
    const FW: u8 = 0x20;

    /// BSEG*SEGTRK*TRKS, which can pass 32 bits: how many blocks the tape has. Transfers end there, and LOCATE goes to one less.
    pub fn product(&self) -> u64 {
        u64::from(self.bseg) * u64::from(self.segtrk) * u64::from(self.trks)
    }

    pub fn flags(&self) -> u8 {
        let flag = |set: bool, bit: u8| if set { bit } else { 0 };
        flag(self.wdam, Tape::WDAM) + flag(self.rm, Tape::RM) + flag(self.fw, Tape::FW)
    }

    /// The list by which MODE SELECT sets these parameters: twelve bytes of header, then the page.
    pub fn list(&self) -> [u8; length::MODE_WITH_TAPE_PAGE] {
        let mut list = [0; length::MODE_WITH_TAPE_PAGE];
        list[12..15].copy_from_slice(&[page::TAPE_CODE, page::TAPE_LENGTH, self.density]);
        list[16..18].copy_from_slice(&[self.fill, self.bseg]);
        put_word(&mut list, 18, self.segtrk);
        put_word(&mut list, 20, self.trks);
        list[22..25].copy_from_slice(&[self.max_sector, self.max_cylinder, self.max_head]);
        list[27] = self.flags();
        list
    }
}

/// Sends one packet. `data` is filled or taken by a transfer; bytes beyond the transfer stay. Refused, nothing changes.
pub fn packet(
    record: &mut Record,
    image: &mut [u8],
    packet: &[u8],
    data: &mut [u8],
) -> Result<Answer, Refusal> {
    let mut answer = [0; 16];
    ffi::floppy_packet(&mut record.0, image, packet, data, &mut answer);
    Answer::read(Device::Floppy, &answer)
}
