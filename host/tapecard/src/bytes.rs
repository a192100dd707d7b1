//! The bytes that packets, answers and trains are made of, by their names, and the numbers of two, three and four bytes that stand
//! among them, the highest byte first: each is here and nowhere else in host/, but for the model, which is written from 01 and 02
//! alone.

/// First bytes of the packets that the packet drive knows.
pub mod opcode {
    pub const TEST_UNIT_READY: u8 = 0x00;
    pub const REWIND: u8 = 0x01;
    pub const REQUEST_SENSE: u8 = 0x03;
    pub const READ: u8 = 0x08;
    pub const WRITE: u8 = 0x0A;
    pub const WRITE_FILEMARK: u8 = 0x10;
    pub const SPACE: u8 = 0x11;
    pub const INQUIRY: u8 = 0x12;
    pub const MODE_SELECT: u8 = 0x15;
    pub const MODE_SENSE: u8 = 0x1A;
    pub const LOAD_UNLOAD: u8 = 0x1B;
    /// PREVENT/ALLOW MEDIUM REMOVAL (02, A8): bit 0 of byte 4 locks, its absence unlocks.
    pub const PREVENT_ALLOW: u8 = 0x1E;
    pub const LOCATE: u8 = 0x2B;
    pub const READ_POSITION: u8 = 0x34;

    /// All of them, in their order: those of the stream device.
    pub const ALL: [u8; 14] = [
        TEST_UNIT_READY,
        REWIND,
        REQUEST_SENSE,
        READ,
        WRITE,
        WRITE_FILEMARK,
        SPACE,
        INQUIRY,
        MODE_SELECT,
        MODE_SENSE,
        LOAD_UNLOAD,
        PREVENT_ALLOW,
        LOCATE,
        READ_POSITION,
    ];

    /// Those of the floppy device.
    pub const FLOPPY: [u8; 11] = [
        TEST_UNIT_READY,
        REQUEST_SENSE,
        READ,
        WRITE,
        WRITE_FILEMARK,
        INQUIRY,
        MODE_SELECT,
        MODE_SENSE,
        LOAD_UNLOAD,
        PREVENT_ALLOW,
        LOCATE,
    ];
}

/// What SPACE passes: the low three bits of its byte 1.
pub mod space {
    pub const BLOCKS: u8 = 0;
    pub const FILEMARKS: u8 = 1;
    pub const END_OF_DATA: u8 = 3;
}

/// Bytes that the drive returns or takes at the most.
pub mod length {
    pub const SENSE: usize = 20;
    pub const INQUIRY: usize = 36;
    pub const MODE_HEADER: usize = 12;
    /// The mode header and the page behind it.
    pub const MODE_WITH_PAGE: usize = 32;
    /// The mode header and the tape parameters behind it.
    pub const MODE_WITH_TAPE_PAGE: usize = 28;
    pub const POSITION: usize = 20;
}

/// The mode pages of the drive: their codes and length bytes, and where in the first the door and the block size show.
pub mod page {
    pub const CODE: u8 = 0x2A;
    pub const LENGTH: u8 = 0x12;
    pub const DOOR_AT: usize = 6;
    /// The byte there while the door is open: it can be locked, and the cartridge can be ejected.
    pub const DOOR_OPEN: u8 = 0x09;
    /// The byte there while it is locked (02, A8).
    pub const DOOR_LOCKED: u8 = 0x0B;
    pub const BLOCK_SIZE_AT: usize = 7;
    /// The byte there where a block has 1,024 bytes.
    pub const BLOCKS_OF_1024: u8 = 0x04;
    /// The tape parameters, a page of the floppy device.
    pub const TAPE_CODE: u8 = 0x2B;
    pub const TAPE_LENGTH: u8 = 0x0E;
}

/// Key, ASC and ASCQ of every sense that the drive gives.
pub mod triple {
    pub type Triple = [u8; 3];

    pub const NOTHING: Triple = [0x0, 0x00, 0x00];
    pub const FILEMARK: Triple = [0x0, 0x00, 0x01];
    pub const EARLY_WARNING: Triple = [0x0, 0x00, 0x02];
    pub const BEGINNING: Triple = [0x0, 0x00, 0x04];
    pub const NOT_LOADED: Triple = [0x2, 0x3A, 0x00];
    pub const UNREADABLE: Triple = [0x3, 0x11, 0x00];
    pub const LIST_LENGTH: Triple = [0x5, 0x1A, 0x00];
    pub const UNKNOWN_COMMAND: Triple = [0x5, 0x20, 0x00];
    pub const BAD_FIELD: Triple = [0x5, 0x24, 0x00];
    pub const BAD_LIST: Triple = [0x5, 0x26, 0x00];
    /// An unload while the door is locked (02, A8).
    pub const REMOVAL_PREVENTED: Triple = [0x5, 0x53, 0x02];
    pub const MEDIUM_CHANGED: Triple = [0x6, 0x28, 0x00];
    pub const RESET: Triple = [0x6, 0x29, 0x00];
    pub const PROTECTED: Triple = [0x7, 0x27, 0x00];
    pub const END_OF_DATA: Triple = [0x8, 0x00, 0x05];
    pub const FULL: Triple = [0xD, 0x00, 0x02];
}

/// Kinds of the elements below U; every other value is an unreadable block.
pub mod kind {
    pub const DATA: u8 = 1;
    pub const FILEMARK: u8 = 2;
    /// Data with a deleted address mark (02, A6).
    pub const MARKED: u8 = 4;
}

/// Pulses of the trains that the pulse drive knows.
pub mod train {
    pub const SOFT_RESET: u16 = 1;
    pub const NEXT_BIT: u16 = 2;
    pub const PAUSE: u16 = 3;
    pub const STATUS: u16 = 6;
    pub const ERROR: u16 = 7;
    pub const CONFIGURATION: u16 = 8;
    pub const ROM: u16 = 9;
    pub const FORWARD: u16 = 10;
    pub const PHYSICAL_REVERSE: u16 = 11;
    pub const PHYSICAL_FORWARD: u16 = 12;
    pub const SEEK_TRACK: u16 = 13;
    pub const SEEK_LOAD_POINT: u16 = 14;
    pub const STOP: u16 = 18;
    pub const SKIP_REVERSE: u16 = 25;
    pub const SKIP_FORWARD: u16 = 26;
    pub const SELECT_RATE: u16 = 27;
    pub const VENDOR: u16 = 32;
    pub const TAPE_STATUS: u16 = 33;
    pub const SKIP_FAR_REVERSE: u16 = 34;
    pub const SKIP_FAR_FORWARD: u16 = 35;

    /// Those that are answered bit by bit.
    pub const REPORTS: [u16; 6] = [STATUS, ERROR, CONFIGURATION, ROM, VENDOR, TAPE_STATUS];
    /// Those that go so many segments on or back.
    pub const SKIPS: [u16; 4] = [
        SKIP_REVERSE,
        SKIP_FORWARD,
        SKIP_FAR_REVERSE,
        SKIP_FAR_FORWARD,
    ];
    /// Those that the drive obeys or rejects.
    pub const COMMANDS: [u16; 12] = [
        PAUSE,
        FORWARD,
        PHYSICAL_REVERSE,
        PHYSICAL_FORWARD,
        SEEK_TRACK,
        SEEK_LOAD_POINT,
        STOP,
        SKIP_REVERSE,
        SKIP_FORWARD,
        SELECT_RATE,
        SKIP_FAR_REVERSE,
        SKIP_FAR_FORWARD,
    ];
}

/// A number of two bytes.
#[inline]
pub fn word_at(bytes: &[u8], at: usize) -> u16 {
    u16::from_be_bytes([bytes[at], bytes[at + 1]])
}

/// A count of three bytes, as packets have it.
#[inline]
pub fn count_at(bytes: &[u8], at: usize) -> u32 {
    u32::from_be_bytes([0, bytes[at], bytes[at + 1], bytes[at + 2]])
}

/// A number of four bytes.
#[inline]
pub fn long_at(bytes: &[u8], at: usize) -> u32 {
    u32::from_be_bytes([bytes[at], bytes[at + 1], bytes[at + 2], bytes[at + 3]])
}

#[inline]
pub fn put_word(bytes: &mut [u8], at: usize, value: u16) {
    bytes[at..at + 2].copy_from_slice(&value.to_be_bytes());
}

/// The lower three bytes of a count.
#[inline]
pub fn put_count(bytes: &mut [u8], at: usize, value: u32) {
    let [_, high, middle, low] = value.to_be_bytes();
    bytes[at..at + 3].copy_from_slice(&[high, middle, low]);
}

#[inline]
pub fn put_long(bytes: &mut [u8], at: usize, value: u32) {
    bytes[at..at + 4].copy_from_slice(&value.to_be_bytes());
}

#[cfg(test)]
mod tests {
    use super::*;

    /// Bytes, and their first two, three and four as a number.
    const NUMBERS: [([u8; 4], u16, u32, u32); 2] = [
        ([1, 2, 3, 4], 0x0102, 0x01_0203, 0x0102_0304),
        ([0xFF, 0xFE, 0xFD, 0xFC], 0xFFFE, 0xFF_FEFD, 0xFFFE_FDFC),
    ];

    #[test]
    fn the_first_byte_is_the_highest() {
        for ([a, b, c, d], word, count, long) in NUMBERS {
            let bytes = [0x55, a, b, c, d];
            assert_eq!(word_at(&bytes, 1), word);
            assert_eq!(count_at(&bytes, 1), count);
            assert_eq!(long_at(&bytes, 1), long);
        }
    }

    #[test]
    fn what_is_put_is_found_and_the_bytes_beside_it_stay() {
        for ([a, b, c, d], word, count, long) in NUMBERS {
            let mut bytes = [0x55; 13];
            put_word(&mut bytes, 1, word);
            put_count(&mut bytes, 4, count);
            put_long(&mut bytes, 8, long);
            assert_eq!(bytes, [0x55, a, b, 0x55, a, b, c, 0x55, a, b, c, d, 0x55]);
        }
    }
}
