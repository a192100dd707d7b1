//! SIMH tape files (02, A7): the elements of an image written out as one, and one read into an image. A file is words of four bytes,
//! the lowest byte first: 0 is a tape mark, [`END_MARK`] the end, all else the length of the record behind it, with [`UNREADABLE`]
//! where the record is.

use crate::packet::{Answer, Record};
use crate::{Device, Refusal, ffi};

/// The word that is a tape mark.
pub const TAPE_MARK: u32 = 0;

/// The word that ends a file; what follows it is not looked at.
pub const END_MARK: u32 = 0xFFFF_FFFF;

/// The bit of a record's word that says that its bytes could not be read.
pub const UNREADABLE: u32 = 0x8000_0000;

/// Bytes of a word.
pub const WORD_LENGTH: usize = 4;

/// A file that was written.
#[derive(Clone, Copy, Debug, PartialEq, Eq, Hash)]
pub struct Exported {
    /// Elements of the image below the end of data.
    pub elements: u32,
    /// Bytes of the file, its end mark included. Those beyond stay.
    pub bytes: u32,
}

/// A file that was read into an image.
#[derive(Clone, Copy, Debug, PartialEq, Eq, Hash)]
pub struct Imported {
    /// Elements stored: the image's end of data now.
    pub elements: u32,
    /// Bytes of the file that were used, its end mark included where it has one.
    pub bytes: u32,
}

/// Bytes that the file of so many elements takes at most: a word before and after each block, and the end mark.
pub fn most_bytes(elements: u32, block_size: u16) -> usize {
    WORD_LENGTH + elements as usize * (usize::from(block_size) + 2 * WORD_LENGTH)
}

/// Writes the elements of an image into `file`, whose bytes beyond stay. Refused (2, or 4 where `file` is too short), nothing changes;
/// [`most_bytes`] are always enough.
pub fn export(image: &[u8], file: &mut [u8]) -> Result<Exported, Refusal> {
    let mut bytes = [0; 16];
    ffi::export(image, file, &mut bytes);
    let answer = Answer::read(Device::Exchange, &bytes)?;
    Ok(Exported {
        elements: answer.blocks,
        bytes: answer.bytes,
    })
}

/// Reads a file into an image, write-protected or not, and leaves the record as after [`Record::change`]. Refused (2, 11, 12 or 13),
/// nothing changes. A filemark index of the image is no longer its own: it must be made afresh.
pub fn import(record: &mut Record, image: &mut [u8], file: &[u8]) -> Result<Imported, Refusal> {
    let mut bytes = [0; 16];
    ffi::import(&mut record.0, image, file, &mut bytes);
    let answer = Answer::read(Device::Exchange, &bytes)?;
    Ok(Imported {
        elements: answer.blocks,
        bytes: answer.bytes,
    })
}
