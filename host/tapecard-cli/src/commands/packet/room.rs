//! The bytes that a packet needs beside itself.

use tapecard::bytes::opcode;
use tapecard::{Device, Refusal};

use crate::tape::header::LARGEST_CAPACITY;
use crate::tape::packets::blocks_asked;
use crate::words;

/// Room lent to a packet that returns less than a block.
const SMALL_ROOM: u32 = 256;
/// The largest room lent: more than the largest tape holds.
pub const LARGEST_ROOM: u32 = 64 * 1024 * 1024;

/// The packet takes bytes from the host.
pub fn takes_data(packet: &[u8]) -> bool {
    matches!(packet.first(), Some(&(opcode::WRITE | opcode::MODE_SELECT)))
}

/// The packet may store on the tape. To the floppy device a WRITE FILEMARK is a flush, which stores nothing.
pub fn stores(device: Device, packet: &[u8]) -> bool {
    match packet.first() {
        Some(&opcode::WRITE) => true,
        Some(&opcode::WRITE_FILEMARK) => device == Device::Stream,
        _ => false,
    }
}

/// The room to lend where none is asked for.
pub fn usual(device: Device, packet: &[u8], block_size: u32) -> u32 {
    match packet.first() {
        Some(&opcode::READ) => {
            needed(device, packet, block_size).min(u64::from(LARGEST_ROOM)) as u32
        }
        _ => SMALL_ROOM,
    }
}

/// Bytes that the packet moves at the most. N*B can pass 32 bits.
fn needed(device: Device, packet: &[u8], block_size: u32) -> u64 {
    match packet {
        [opcode::READ | opcode::WRITE, ..] => {
            u64::from(blocks_asked(device, packet).unwrap_or(0)) * u64::from(block_size)
        }
        [_, _, _, _, length, ..] => (*length).into(),
        _ => 0,
    }
}

/// What to do about a refusal; none where there is nothing to say.
pub fn advice(refusal: Refusal, packet: &[u8], block_size: u32, data_left: u64) -> Option<String> {
    Some(match refusal.number {
        1 => "write twelve bytes".into(),
        2 => "take another copy of the image, or make one with tapecard new".into(),
        3 => "the record is not of this image: send the line `change`, or name\n            another --record".into(),
        4 => about_room(needed(refusal.device, packet, block_size), takes_data(packet), data_left),
        _ => return None,
    })
}

fn about_room(needed: u64, taken: bool, data_left: u64) -> String {
    let bytes = words::count(needed, "byte");
    let too_large = needed > u64::from(LARGEST_ROOM);
    if taken && too_large {
        format!("ask for fewer blocks: no tape has more than {LARGEST_CAPACITY}")
    } else if taken {
        format!("give {bytes} with --data FILE; {data_left} are left there")
    } else if too_large {
        format!(
            "ask for fewer blocks: no tape has more than {LARGEST_CAPACITY},\n            and no room of {bytes} is lent"
        )
    } else {
        format!("it needs up to {bytes}: give as much with --room, or leave it out")
    }
}
