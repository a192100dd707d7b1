//! The packets that the file commands send, and how many blocks a packet asks for.

use tapecard::Device;
use tapecard::bytes::{count_at, length, opcode, page, put_count, put_long, space};

pub type Packet = [u8; 12];

pub fn test_unit_ready() -> Packet {
    packet(opcode::TEST_UNIT_READY, 0, 0)
}

pub fn request_sense() -> Packet {
    let mut bytes = packet(opcode::REQUEST_SENSE, 0, 0);
    bytes[4] = length::SENSE as u8;
    bytes
}

/// READ in fixed blocks.
pub fn read(blocks: u32) -> Packet {
    packet(opcode::READ, 1, blocks)
}

/// WRITE in fixed blocks.
pub fn write(blocks: u32) -> Packet {
    packet(opcode::WRITE, 1, blocks)
}

pub fn write_filemark() -> Packet {
    packet(opcode::WRITE_FILEMARK, 0, 1)
}

pub fn space_to_end_of_data() -> Packet {
    packet(opcode::SPACE, space::END_OF_DATA, 0)
}

pub fn locate(place: u32) -> Packet {
    let mut bytes = packet(opcode::LOCATE, 0, 0);
    put_long(&mut bytes, 3, place);
    bytes
}

/// MODE SENSE for page 2Ah.
pub fn mode_sense() -> Packet {
    let mut bytes = packet(opcode::MODE_SENSE, 0, 0);
    bytes[2] = page::CODE;
    bytes[4] = length::MODE_WITH_PAGE as u8;
    bytes
}

/// N of a READ or WRITE: bytes 2-4, of which the floppy device looks at byte 4 alone. None where they are not there.
pub fn blocks_asked(device: Device, packet: &[u8]) -> Option<u32> {
    let count = packet.get(2..5)?;
    Some(match device {
        Device::Floppy => count[2].into(),
        _ => count_at(count, 0),
    })
}

fn packet(opcode: u8, flags: u8, count: u32) -> Packet {
    let mut bytes = [opcode, flags, 0, 0, 0, 0, 0, 0, 0, 0, 0, 0];
    put_count(&mut bytes, 2, count);
    bytes
}
