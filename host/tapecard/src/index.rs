//! The stream device with a filemark index beside its image (02, A4): a second lent buffer with the places of the filemarks,
//! ascending, four bytes for each. SPACE over filemarks goes by the entries; every packet that is not refused leaves them those of
//! the image.

use crate::bytes::long_at;
use crate::packet::{Answer, Record};
use crate::{Device, Refusal, ffi};

/// Bytes of an entry: an index takes so many for each element that the cartridge can hold.
pub const ENTRY_LENGTH: usize = 4;

/// What the entries behind the last filemark hold.
pub const NO_FILEMARK: u32 = 0xFFFF_FFFF;

/// An index that was made afresh.
#[derive(Clone, Copy, Debug, PartialEq, Eq, Hash)]
pub struct Made {
    /// Filemarks found below the end of data.
    pub filemarks: u32,
    /// Bytes of the index: four times the capacity. Those beyond stay.
    pub bytes: u32,
}

/// Makes the index of an image. Refused (2, or 9 where `index` is too short), nothing changes.
pub fn make(image: &[u8], index: &mut [u8]) -> Result<Made, Refusal> {
    let mut bytes = [0; 16];
    ffi::index_make(image, index, &mut bytes);
    let answer = Answer::read(Device::Stream, &bytes)?;
    Ok(Made {
        filemarks: answer.blocks,
        bytes: answer.bytes,
    })
}

/// Sends one packet, as [`crate::packet::packet`] does, and keeps the index that of the image. Refused, nothing changes: 9 and 10,
/// where the index is too short or not the image's, come after 1, 2 and 3, whichever packet it is.
pub fn packet(
    record: &mut Record,
    image: &mut [u8],
    index: &mut [u8],
    packet: &[u8],
    data: &mut [u8],
) -> Result<Answer, Refusal> {
    let mut answer = [0; 16];
    ffi::index_packet(&mut record.0, image, index, packet, data, &mut answer);
    Answer::read(Device::Stream, &answer)
}

/// The places of the filemarks: the entries up to the first [`NO_FILEMARK`]. Of a buffer that is longer than [`Made::bytes`] only
/// those bytes are the index; behind a tape that is all filemarks nothing else ends them.
pub fn places(index: &[u8]) -> impl Iterator<Item = u32> + '_ {
    index
        .chunks_exact(ENTRY_LENGTH)
        .map(|entry| long_at(entry, 0))
        .take_while(|&place| place != NO_FILEMARK)
}
