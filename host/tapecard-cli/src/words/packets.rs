//! Packets of the packet drive in words.

use tapecard::bytes::{long_at, opcode, space};
use tapecard::{Device, sense_words};

use super::count;
use crate::tape::packets::blocks_asked;

/// A packet to this device in words, such as `READ 2 blocks`.
pub fn packet(device: Device, packet: &[u8]) -> String {
    let Some(&opcode) = packet.first() else {
        return "no bytes".into();
    };
    let known = device.opcodes().contains(&opcode);
    let Some(name) = sense_words::command(opcode).filter(|_| known) else {
        return format!("unknown command {opcode:02X}h");
    };
    match details(device, opcode, packet) {
        Some(details) => format!("{name} {details}"),
        None => name.into(),
    }
}

fn details(device: Device, opcode: u8, packet: &[u8]) -> Option<String> {
    let asked = blocks_asked(device, packet)?;
    let floppy = device == Device::Floppy;
    match opcode {
        opcode::READ | opcode::WRITE => Some(count(asked.into(), "block")),
        opcode::WRITE_FILEMARK if floppy => Some("(flush)".into()),
        opcode::WRITE_FILEMARK => Some(format!("x{asked}")),
        opcode::SPACE => Some(space_details(packet[1], asked)),
        opcode::LOAD_UNLOAD if packet[4] & 1 != 0 => Some("(load)".into()),
        opcode::LOAD_UNLOAD => Some("(unload)".into()),
        opcode::PREVENT_ALLOW if packet[4] & 1 != 0 => Some("(lock)".into()),
        opcode::PREVENT_ALLOW => Some("(unlock)".into()),
        opcode::LOCATE => {
            let target = long_at(packet.get(3..7)?, 0);
            let unit = if floppy { "block" } else { "place" };
            Some(format!("{unit} {target}"))
        }
        _ => None,
    }
}

fn space_details(code: u8, asked: u32) -> String {
    let asked = signed(asked);
    let back = if asked < 0 { "back " } else { "" };
    let asked = asked.unsigned_abs().into();
    match code % 8 {
        space::BLOCKS => format!("{back}{}", count(asked, "block")),
        space::FILEMARKS => format!("{back}{}", count(asked, "filemark")),
        space::END_OF_DATA => "to end of data".into(),
        code => format!("with unknown code {code}"),
    }
}

/// Two's complement: from 800000h on a count of three bytes is below 0.
fn signed(three_bytes: u32) -> i32 {
    let count = three_bytes as i32;
    if count < 0x80_0000 {
        count
    } else {
        count - 0x100_0000
    }
}

#[cfg(test)]
mod tests {
    use super::*;

    #[test]
    fn packets_in_words() {
        let packet = |bytes: &[u8]| packet(Device::Stream, bytes);
        assert_eq!(
            packet(&[opcode::READ, 1, 0, 0, 2, 0, 0, 0, 0, 0, 0, 0]),
            "READ 2 blocks"
        );
        assert_eq!(
            packet(&[opcode::SPACE, 1, 0xFF, 0xFF, 0xFF, 0]),
            "SPACE back 1 filemark"
        );
        assert_eq!(
            packet(&[opcode::SPACE, 0, 0x7F, 0xFF, 0xFF, 0]),
            "SPACE 8388607 blocks"
        );
        assert_eq!(
            packet(&[opcode::SPACE, 0, 0x80, 0, 0, 0]),
            "SPACE back 8388608 blocks"
        );
        assert_eq!(
            packet(&[opcode::LOCATE, 0, 0, 0, 0, 1, 2, 0]),
            "LOCATE place 258"
        );
        assert_eq!(
            packet(&[opcode::LOAD_UNLOAD, 0, 0, 0, 0]),
            "LOAD/UNLOAD (unload)"
        );
        assert_eq!(
            packet(&[opcode::PREVENT_ALLOW, 0, 0, 0, 0xFF]),
            "PREVENT/ALLOW MEDIUM REMOVAL (lock)"
        );
        assert_eq!(
            packet(&[opcode::PREVENT_ALLOW, 0xFF, 0xFF, 0xFF, 0xFE]),
            "PREVENT/ALLOW MEDIUM REMOVAL (unlock)"
        );
        assert_eq!(packet(&[opcode::LOCATE, 0, 0]), "LOCATE");
        assert_eq!(packet(&[opcode::READ]), "READ");
        assert_eq!(packet(&[0x99]), "unknown command 99h");
        assert_eq!(packet(&[]), "no bytes");
    }

    #[test]
    fn packets_to_the_floppy_device_in_words() {
        let packet = |bytes: &[u8]| packet(Device::Floppy, bytes);
        assert_eq!(packet(&[opcode::READ, 1, 0xFF, 0xFF, 2]), "READ 2 blocks");
        assert_eq!(
            packet(&[opcode::WRITE_FILEMARK, 0, 0, 0, 1]),
            "WRITE FILEMARK (flush)"
        );
        assert_eq!(
            packet(&[opcode::LOCATE, 0, 0, 0, 0, 1, 2, 0]),
            "LOCATE block 258"
        );
        assert_eq!(
            packet(&[opcode::PREVENT_ALLOW, 0, 0, 0, 1]),
            "PREVENT/ALLOW MEDIUM REMOVAL (lock)"
        );
        for opcode in [opcode::REWIND, opcode::SPACE, opcode::READ_POSITION] {
            let unknown = format!("unknown command {opcode:02X}h");
            assert_eq!(packet(&[opcode, 0, 0, 0, 1]), unknown);
        }
    }
}
