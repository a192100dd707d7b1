//! What the packet devices' commands have in common: first bytes, lengths, and the bytes that are returned.

use crate::bug::Bug;
use crate::bytes::{put_long, put_word, word_at};
use crate::door;
use crate::image::Header;
use crate::record::{Attention, Sense, State};
use crate::reply::{Reply, tell_attention};

pub const TEST_UNIT_READY: u8 = 0x00;
pub const REWIND: u8 = 0x01;
pub const REQUEST_SENSE: u8 = 0x03;
pub const READ: u8 = 0x08;
pub const WRITE: u8 = 0x0A;
pub const WRITE_FILEMARK: u8 = 0x10;
pub const SPACE: u8 = 0x11;
pub const INQUIRY: u8 = 0x12;
pub const MODE_SELECT: u8 = 0x15;
pub const MODE_SENSE: u8 = 0x1A;
pub const LOAD_UNLOAD: u8 = 0x1B;
/// "PREVENT/ALLOW MEDIUM REMOVAL (1Eh, byte 4 bit 0)" (02, A8).
pub const PREVENT_ALLOW: u8 = 0x1E;
pub const LOCATE: u8 = 0x2B;
pub const READ_POSITION: u8 = 0x34;

/// Bytes of a packet.
pub const PACKET_LENGTH: usize = 12;

/// The five speeds.
pub const SPEEDS: [u16; 5] = [0, 62, 125, 250, 500];

pub const SENSE_LENGTH: usize = 20;
pub const INQUIRY_LENGTH: usize = 36;
pub const MODE_HEADER_LENGTH: usize = 12;
pub const CAPABILITIES_LENGTH: usize = 20;

/// The page that shows what the drive can do, and its length byte.
pub const CAPABILITIES: u8 = 0x2A;
const CAPABILITIES_LENGTH_BYTE: u8 = 0x12;

// "A pending attention ends any packet but 03h and 12h", 1Eh too: what it asks for is then not done.
pub fn ended_by_attention(bug: Bug, state: &mut State, packet: &[u8]) -> Option<Reply> {
    if state.attention == Attention::None || passes_attention(bug, state, packet) {
        return None;
    }
    if bug == Bug::PreventObeyedAtAttention && packet[0] == PREVENT_ALLOW {
        door::prevent_or_allow(bug, state, packet);
    }
    Some(tell_attention(state))
}

fn passes_attention(bug: Bug, state: &State, packet: &[u8]) -> bool {
    match packet[0] {
        REQUEST_SENSE | INQUIRY => true,
        PREVENT_ALLOW => bug == Bug::PreventPassesAttention,
        _ => bug == Bug::StopBeforeAttention && door::holds(bug, state, packet),
    }
}

// "Not loaded 2/3A/00, for all but 03h, 12h, 15h, 1Ah, 1Bh."; 02, A8: "and 1Eh has no not-ready check."
pub fn needs_cartridge(bug: Bug, opcode: u8) -> bool {
    match opcode {
        REQUEST_SENSE | INQUIRY | MODE_SELECT | MODE_SENSE | LOAD_UNLOAD => false,
        PREVENT_ALLOW => bug == Bug::PreventNeedsCartridge,
        _ => true,
    }
}

// "Write protected 7/27/00, for 0Ah and 10h."
pub fn minds_protection(opcode: u8) -> bool {
    opcode == WRITE || opcode == WRITE_FILEMARK
}

// "the first min(byte 4, ..) returned".
pub fn shortened(packet: &[u8], whole: usize) -> usize {
    whole.min(usize::from(packet[4]))
}

/// The first min(byte 4, length) bytes go to the host.
pub fn fill(data: &mut [u8], packet: &[u8], whole: &[u8]) -> Reply {
    let length = shortened(packet, whole.len());
    data[..length].copy_from_slice(&whole[..length]);
    Reply::good().with_bytes(length as u32)
}

// "page (byte 2, six bits)".
pub fn page_code(packet: &[u8]) -> u8 {
    packet[2] % 64
}

// "Byte 0 is 70h, F0h when valid; 2: filemark 80h, EOM 40h, key in the low four bits; 3-6 information; 7 is 0Ch, also when
// shortened; 12 ASC; 13 ASCQ; others 0."
pub fn sense_data(sense: &Sense) -> [u8; SENSE_LENGTH] {
    let mut bytes = [0; SENSE_LENGTH];
    bytes[0] = if sense.valid { 0xF0 } else { 0x70 };
    bytes[2] = sense.key;
    if sense.filemark {
        bytes[2] += 0x80;
    }
    if sense.eom {
        bytes[2] += 0x40;
    }
    put_long(&mut bytes, 3, sense.information);
    bytes[7] = 0x0C;
    bytes[12] = sense.asc;
    bytes[13] = sense.ascq;
    bytes
}

// "36 bytes, 01h 80h 02h 02h 1Fh, three 00, "TYPEHAUS", "TAPE CARD" padded to 16 with spaces, "0100"." The first is the device's.
pub fn inquiry_data(device_type: u8) -> [u8; INQUIRY_LENGTH] {
    let mut bytes = [0; INQUIRY_LENGTH];
    bytes[..5].copy_from_slice(&[device_type, 0x80, 0x02, 0x02, 0x1F]);
    bytes[8..16].copy_from_slice(b"TYPEHAUS");
    bytes[16..32].copy_from_slice(b"TAPE CARD       ");
    bytes[32..].copy_from_slice(b"0100");
    bytes
}

// "Header 12 bytes: 0 the length after itself, 1 medium type, 2 is 80h if protected."
pub fn mode_header(header: &Header, whole_length: usize) -> [u8; MODE_HEADER_LENGTH] {
    let mut bytes = [0; MODE_HEADER_LENGTH];
    bytes[0] = whole_length as u8 - 1;
    bytes[1] = header.medium_type;
    bytes[2] = if header.protected { 0x80 } else { 0 };
    bytes
}

// "Page 20 bytes: 2Ah 12h; byte 6 08h; byte 7 04h if B is 1024; 8-9 500; 12-13 64; 14-15 speed; 16-17 128; others 0."; 02, A8:
// "Page 2Ah shows LOCK (01h) always and LOCKED (02h) while locked, in byte 6."
pub fn capabilities_page(bug: Bug, header: &Header, state: &State) -> [u8; CAPABILITIES_LENGTH] {
    let mut page = [0; CAPABILITIES_LENGTH];
    page[0] = CAPABILITIES;
    page[1] = CAPABILITIES_LENGTH_BYTE;
    page[6] = 0x08 + door::shown(bug, state);
    page[7] = if header.block_size == 1024 { 0x04 } else { 0 };
    put_word(&mut page, 8, 500);
    put_word(&mut page, 12, 64);
    put_word(&mut page, 14, state.speed);
    put_word(&mut page, 16, 128);
    page
}

/// The speed in a capabilities page.
fn speed_in(page: &[u8]) -> u16 {
    word_at(page, 14)
}

/// Sets the speed as a capabilities page in a list says; "other bytes ignored."
pub fn take_capabilities(bug: Bug, state: &mut State, page: &[u8]) {
    state.speed = speed_in(page);
    if bug == Bug::ListSetsLock {
        state.locked = door::listed(page);
    }
}

// "page bytes 2Ah 12h and speed 0, 62, 125, 250 or 500, else 5/26/00; other bytes ignored."
pub fn capabilities_are_right(page: &[u8]) -> bool {
    page[0] == CAPABILITIES
        && page[1] == CAPABILITIES_LENGTH_BYTE
        && SPEEDS.contains(&speed_in(page))
}
