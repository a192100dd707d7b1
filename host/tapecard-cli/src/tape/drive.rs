//! A packet drive with a cartridge in it. All content of an image goes through here, but for a whole tape as a SIMH file.

use tapecard::bytes::{length, page, triple};
use tapecard::index::{self, ENTRY_LENGTH};
use tapecard::packet::{Answer, Record, Sense, packet};
use tapecard::{Refusal, sense_words};

use crate::command_line::failure::Failure;
use crate::tape::header::LARGEST_CAPACITY;
use crate::tape::packets::{self, Packet};

/// Blocks moved by one packet.
pub const CHUNK: u32 = 64;

pub struct Drive {
    record: Record,
    image: Vec<u8>,
    block_size: usize,
}

/// How a packet ended.
#[derive(Clone, Copy, Debug, PartialEq, Eq)]
pub enum Ended {
    Good,
    Filemark,
    EarlyWarning,
    EndOfData,
    Unreadable,
    Protected,
    Full,
    Otherwise,
}

/// What a packet did.
pub struct Done {
    pub blocks: u32,
    /// Of the blocks that a READ copied.
    pub marked: u32,
    pub ended: Ended,
}

impl Drive {
    /// Switches a drive on with this image in it: takes the reset attention and asks for the block size.
    pub fn with(mut image: Vec<u8>) -> Result<Drive, Refusal> {
        let mut record = ready_record(&mut image)?;
        let block_size = ask_block_size(&mut record, &mut image)?;
        Ok(Drive {
            record,
            image,
            block_size,
        })
    }

    pub fn block_size(&self) -> usize {
        self.block_size
    }

    pub fn position(&self) -> u32 {
        self.record.position()
    }

    pub fn image(&self) -> &[u8] {
        &self.image
    }

    /// Takes the cartridge out.
    pub fn into_image(self) -> Vec<u8> {
        self.image
    }

    pub fn send(&mut self, bytes: &Packet, data: &mut [u8]) -> Result<Done, Failure> {
        let answer = packet(&mut self.record, &mut self.image, bytes, data)?;
        Ok(Done {
            blocks: answer.blocks,
            marked: answer.marked,
            ended: Ended::of(&answer, &self.record.sense()),
        })
    }

    /// Sends a packet without data that ends well on every cartridge it is sent to.
    pub fn order(&mut self, bytes: &Packet) -> Result<(), Failure> {
        match self.send(bytes, &mut [])?.ended {
            Ended::Good => Ok(()),
            _ => Err(self.unexpected()),
        }
    }

    /// The place behind the last recorded element; the drive stands there afterwards.
    pub fn go_to_end_of_data(&mut self) -> Result<u32, Failure> {
        self.order(&packets::space_to_end_of_data())?;
        Ok(self.position())
    }

    /// The places of all filemarks, by an index made for this and lent what the longest tape needs. No packet is sent through it: it
    /// would first be compared with the whole tape, each time.
    pub fn filemarks(&self) -> Result<Vec<u32>, Failure> {
        let mut index = vec![0; LARGEST_CAPACITY as usize * ENTRY_LENGTH];
        let made = index::make(&self.image, &mut index)?;
        Ok(index::places(&index[..made.bytes as usize]).collect())
    }

    /// A failure for an ending that has no words of its own where it came.
    pub fn unexpected(&self) -> Failure {
        Failure::work(format!(
            "the drive ended a packet at place {} with {}",
            self.position(),
            sense_words::sense(&self.record.sense())
        ))
    }
}

impl Ended {
    fn of(answer: &Answer, sense: &Sense) -> Ended {
        if answer.is_good() {
            return Ended::Good;
        }
        match sense.triple() {
            triple::FILEMARK => Ended::Filemark,
            triple::EARLY_WARNING => Ended::EarlyWarning,
            triple::END_OF_DATA => Ended::EndOfData,
            triple::UNREADABLE => Ended::Unreadable,
            triple::PROTECTED => Ended::Protected,
            triple::FULL => Ended::Full,
            _ => Ended::Otherwise,
        }
    }
}

/// The record of a drive just switched on that is ready: the first packet takes the reset attention, the second clears its sense.
pub fn ready_record(image: &mut [u8]) -> Result<Record, Refusal> {
    let mut record = Record::fresh();
    packet(&mut record, image, &packets::test_unit_ready(), &mut [])?;
    packet(&mut record, image, &packets::test_unit_ready(), &mut [])?;
    Ok(record)
}

/// The block size of an image, asked with a record of its own.
pub fn block_size_of(image: &mut [u8]) -> Result<usize, Refusal> {
    let mut record = ready_record(image)?;
    ask_block_size(&mut record, image)
}

/// Page 2Ah follows the 12 bytes of its header; its byte 7 is 04h where a block has 1,024 bytes.
fn ask_block_size(record: &mut Record, image: &mut [u8]) -> Result<usize, Refusal> {
    let mut reply = [0; length::MODE_WITH_PAGE];
    packet(record, image, &packets::mode_sense(), &mut reply)?;
    Ok(
        if reply[length::MODE_HEADER + page::BLOCK_SIZE_AT] == page::BLOCKS_OF_1024 {
            1024
        } else {
            512
        },
    )
}
