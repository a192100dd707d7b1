//! The cartridge and the packet that are measured.

use std::ops::Range;

use tapecard::bytes::{kind, opcode, put_long, put_word};

pub const BLOCK_SIZE: usize = 1024;
pub const BLOCKS: usize = 64;
pub const ROOM: usize = BLOCK_SIZE * BLOCKS;

/// READ of 64 blocks in fixed blocks.
pub const READ: [u8; 12] = [opcode::READ, 1, 0, 0, BLOCKS as u8, 0, 0, 0, 0, 0, 0, 0];

/// The low byte of the early warning, 0 on the tape that is measured.
pub const EARLY_WARNING_AT: usize = 23;

/// The kinds of the blocks, none of them marked on the tape that is measured.
pub const KINDS: Range<usize> = KINDS_AT..KINDS_AT + BLOCKS;

/// Behind the header.
pub const KINDS_AT: usize = 32;

/// A tape of 64 recorded data blocks.
pub fn image() -> Vec<u8> {
    image_of(BLOCKS)
}

/// A tape of so many recorded data blocks, each byte set by its place.
pub fn image_of(blocks: usize) -> Vec<u8> {
    let blocks_at = KINDS_AT + blocks;
    let mut image = vec![0; blocks_at + blocks * BLOCK_SIZE];
    put_word(&mut image, 0, KINDS_AT as u16);
    put_word(&mut image, 2, BLOCK_SIZE as u16);
    put_long(&mut image, 4, blocks as u32);
    put_long(&mut image, 8, blocks as u32);
    put_long(&mut image, 12, KINDS_AT as u32);
    put_long(&mut image, 16, blocks_at as u32);
    image[KINDS_AT..blocks_at].fill(kind::DATA);
    for (place, byte) in image[blocks_at..].iter_mut().enumerate() {
        *byte = (place * 7 + place / BLOCK_SIZE) as u8;
    }
    image
}
