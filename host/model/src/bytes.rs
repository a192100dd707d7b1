//! Big-endian numbers in byte slices.

pub fn word_at(bytes: &[u8], at: usize) -> u16 {
    u16::from_be_bytes([bytes[at], bytes[at + 1]])
}

pub fn triple_at(bytes: &[u8], at: usize) -> u32 {
    u32::from_be_bytes([0, bytes[at], bytes[at + 1], bytes[at + 2]])
}

pub fn long_at(bytes: &[u8], at: usize) -> u32 {
    u32::from_be_bytes([bytes[at], bytes[at + 1], bytes[at + 2], bytes[at + 3]])
}

pub fn put_word(bytes: &mut [u8], at: usize, value: u16) {
    bytes[at..at + 2].copy_from_slice(&value.to_be_bytes());
}

pub fn put_long(bytes: &mut [u8], at: usize, value: u32) {
    bytes[at..at + 4].copy_from_slice(&value.to_be_bytes());
}

#[cfg(test)]
mod tests {
    use super::*;

    #[test]
    fn the_first_byte_is_the_highest() {
        for (bytes, word, triple, long) in [
            ([0, 1, 2, 3, 4], 0x0102, 0x01_0203, 0x0102_0304),
            ([0, 0xFF, 0xFE, 0xFD, 0xFC], 0xFFFE, 0xFF_FEFD, 0xFFFE_FDFC),
        ] {
            assert_eq!(word_at(&bytes, 1), word);
            assert_eq!(triple_at(&bytes, 1), triple);
            assert_eq!(long_at(&bytes, 1), long);
        }
    }

    #[test]
    fn what_is_put_is_found() {
        let mut bytes = [0; 12];
        put_word(&mut bytes, 0, 0x0102);
        put_word(&mut bytes, 2, 0xFFFE);
        put_long(&mut bytes, 4, 0x0102_0304);
        put_long(&mut bytes, 8, 0xFFFE_FDFC);
        assert_eq!(
            bytes,
            [1, 2, 0xFF, 0xFE, 1, 2, 3, 4, 0xFF, 0xFE, 0xFD, 0xFC]
        );
    }
}
