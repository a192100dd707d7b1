//! The 32 bytes at the start of a cartridge image: laid out for a fresh image, read to be shown.

use tapecard::bytes::{kind, long_at, put_long, put_word, word_at};

pub const LENGTH: usize = 32;
pub const LARGEST_CAPACITY: u32 = 65_535;
pub const BLOCK_SIZES: [u16; 2] = [512, 1024];
/// Bytes that the largest cartridge holds.
pub const LARGEST_CONTENT: u64 = LARGEST_CAPACITY as u64 * 1024;

#[derive(Debug, PartialEq, Eq)]
pub struct Header {
    length: u16,
    pub block_size: u16,
    /// Elements that the tape has.
    pub capacity: u32,
    /// Elements that are recorded.
    pub recorded: u32,
    /// Where the table of kinds begins.
    pub kinds_at: u32,
    /// Where the blocks begin.
    pub blocks_at: u32,
    protect: u8,
    pub medium: u8,
    /// How many elements before the end the early warning begins.
    pub early_warning: u16,
    zero: [u8; 8],
}

impl Header {
    /// A blank tape: the table of kinds right after the header, the blocks right after the table.
    pub fn blank(
        block_size: u16,
        capacity: u32,
        early_warning: u16,
        protected: bool,
        medium: u8,
    ) -> Header {
        Header {
            length: LENGTH as u16,
            block_size,
            capacity,
            recorded: 0,
            kinds_at: LENGTH as u32,
            blocks_at: LENGTH as u32 + capacity,
            protect: protected.into(),
            medium,
            early_warning,
            zero: [0; 8],
        }
    }

    /// The same tape with every element recorded, as the floppy device needs it, which gives no early warning (02, A1: "W plays no
    /// part").
    pub fn full(self) -> Header {
        Header {
            recorded: self.capacity,
            early_warning: 0,
            ..self
        }
    }

    /// The fields, whether they keep their rules or not; `None` where the bytes are too few.
    pub fn read(image: &[u8]) -> Option<Header> {
        let bytes = image.first_chunk::<LENGTH>()?;
        Some(Header {
            length: word_at(bytes, 0),
            block_size: word_at(bytes, 2),
            capacity: long_at(bytes, 4),
            recorded: long_at(bytes, 8),
            kinds_at: long_at(bytes, 12),
            blocks_at: long_at(bytes, 16),
            protect: bytes[20],
            medium: bytes[21],
            early_warning: word_at(bytes, 22),
            zero: *bytes.last_chunk()?,
        })
    }

    pub fn bytes(&self) -> [u8; LENGTH] {
        let mut bytes = [0; LENGTH];
        put_word(&mut bytes, 0, self.length);
        put_word(&mut bytes, 2, self.block_size);
        put_long(&mut bytes, 4, self.capacity);
        put_long(&mut bytes, 8, self.recorded);
        put_long(&mut bytes, 12, self.kinds_at);
        put_long(&mut bytes, 16, self.blocks_at);
        bytes[20] = self.protect;
        bytes[21] = self.medium;
        put_word(&mut bytes, 22, self.early_warning);
        bytes
    }

    /// A whole image with this header; what is recorded are blocks of zeros.
    pub fn image(&self) -> Vec<u8> {
        let blocks = self.capacity as usize * usize::from(self.block_size);
        let mut image = vec![0; self.blocks_at as usize + blocks];
        image[..LENGTH].copy_from_slice(&self.bytes());
        image[self.kinds_at as usize..][..self.recorded as usize].fill(kind::DATA);
        image
    }

    /// Whether an image of this length can have this header. It saves reading what is no image; the drive judges what is read.
    pub fn allows(&self, length: u64) -> bool {
        let ranges = self.length as usize == LENGTH
            && BLOCK_SIZES.contains(&self.block_size)
            && (1..=LARGEST_CAPACITY).contains(&self.capacity)
            && self.recorded <= self.capacity
            && self.protect <= 1
            && u32::from(self.early_warning) <= self.capacity
            && self.zero == [0; 8];
        // K + C and D + C*B can pass 32 bits.
        let kinds_end = u64::from(self.kinds_at) + u64::from(self.capacity);
        let blocks_end =
            u64::from(self.blocks_at) + u64::from(self.capacity) * u64::from(self.block_size);
        ranges
            && self.kinds_at >= LENGTH as u32
            && kinds_end <= u64::from(self.blocks_at)
            && blocks_end <= length
    }

    pub fn protected(&self) -> bool {
        self.protect == 1
    }

    pub fn is_full(&self) -> bool {
        self.recorded == self.capacity
    }

    /// The first place whose write warns.
    pub fn warning_place(&self) -> u32 {
        self.capacity.saturating_sub(self.early_warning.into())
    }
}

#[cfg(test)]
mod tests {
    use super::*;
    use crate::tape::drive::Drive;

    #[test]
    fn what_is_laid_out_is_read_back() {
        let header = Header::blank(512, 4, 1, true, 0x81);
        let image = header.image();
        assert_eq!(image.len(), 32 + 4 + 4 * 512);
        assert_eq!(Header::read(&image), Some(header));
        assert_eq!(Header::read(&image[..31]), None);
    }

    #[test]
    fn a_full_tape_is_recorded_with_zeros() {
        let header = Header::blank(512, 4, 1, false, 0).full();
        let image = header.image();
        assert!(header.is_full() && header.allows(image.len() as u64));
        assert_eq!(header.early_warning, 0);
        assert_eq!(image[8..12], [0, 0, 0, 4]);
        assert_eq!(image[32..36], [kind::DATA; 4]);
        assert!(image[36..].iter().all(|byte| *byte == 0));
    }

    /// Bytes at their rules' borders: the header's own test says what the drive says.
    #[test]
    fn the_drive_judges_alike() {
        let good = Header::blank(512, 4, 1, true, 0x81).image();
        let verdict = |image: &[u8]| {
            let header = Header::read(image).expect("32 bytes");
            let taken = Drive::with(image.to_vec()).is_ok();
            assert_eq!(
                header.allows(image.len() as u64),
                taken,
                "{:?}",
                &image[..LENGTH]
            );
            taken
        };
        assert!(verdict(&good));
        let mut refused = 0;
        for at in 0..LENGTH {
            for value in [0, 1, 2, 3, 4, 5, 31, 32, 33, 36, 37, 255] {
                let mut image = good.clone();
                image[at] = value;
                refused += u32::from(!verdict(&image));
            }
        }
        assert!(refused > 100);
        for length in [LENGTH, good.len() - 1] {
            assert!(!verdict(&good[..length]));
        }
    }
}
