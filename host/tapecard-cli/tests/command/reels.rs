//! SIMH tape files built by hand from 02, A7, for the tests of `export` and `import`.

pub const MARK: [u8; 4] = [0; 4];
pub const END: [u8; 4] = [0xFF; 4];
pub const UNREADABLE: u32 = 0x8000_0000;

/// A word before and after the bytes, the lowest byte first; an odd record has a pad byte.
fn with_word(word: u32, bytes: &[u8]) -> Vec<u8> {
    let pad = [0x5A];
    let pad = &pad[..bytes.len() % 2];
    [&word.to_le_bytes()[..], bytes, pad, &word.to_le_bytes()].concat()
}

pub fn record(bytes: &[u8]) -> Vec<u8> {
    with_word(bytes.len() as u32, bytes)
}

pub fn unreadable(bytes: &[u8]) -> Vec<u8> {
    with_word(bytes.len() as u32 + UNREADABLE, bytes)
}
