//! Small cartridges and the bytes of files.

use compare::{ExchangeBench, Random, Shape};
use model::Bug;
use tapecard::bytes::put_long;

pub const KINDS_AT: usize = 32;
pub const RECORDED_AT: usize = 8;
pub const MARK: [u8; 4] = [0; 4];
pub const END: [u8; 4] = [0xFF; 4];

/// Loaded, locked, no attention, speed 125, at place 2 with an old sense.
pub const RECORD: [u8; 16] = [0, 0, 0, 2, 3, 0, 0, 125, 3, 0x11, 0, 1, 0, 0, 0, 7];

/// The same as after a change of the cartridge.
pub const CHANGED: [u8; 16] = [0, 0, 0, 0, 3, 1, 0, 125, 0, 0, 0, 0, 0, 0, 0, 0];

/// As many elements as there are kinds, the blocks full of bytes that this seed gives.
pub fn tape(size: u16, kinds: &[u8], recorded: usize, seed: u64) -> Vec<u8> {
    let shape = Shape::plain(size, kinds.len() as u32, recorded as u32);
    let mut image = shape.image(&mut Random::new(seed));
    image[KINDS_AT..KINDS_AT + kinds.len()].copy_from_slice(kinds);
    image
}

/// The block of an element.
pub fn block(image: &[u8], size: u16, capacity: usize, element: usize) -> &[u8] {
    let at = KINDS_AT + capacity + element * usize::from(size);
    &image[at..at + usize::from(size)]
}

/// A record of these bytes between two words, `high` being the highest byte of each.
pub fn record_of(bytes: &[u8], high: u8) -> Vec<u8> {
    let length = bytes.len();
    let word = [length as u8, (length / 256) as u8, 0, high];
    [&word[..], bytes, &word].concat()
}

pub fn new_bench() -> ExchangeBench {
    ExchangeBench::new(Bug::None, 0)
}

/// The answer of a call that was taken.
pub fn answer(elements: usize, bytes: usize) -> [u8; 16] {
    let mut answer = [0; 16];
    put_long(&mut answer, 4, elements as u32);
    put_long(&mut answer, 8, bytes as u32);
    answer
}
