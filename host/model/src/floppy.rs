//! The floppy tape device over a lent cartridge image, written from request A1 of 02: blocks by number, no filemarks. For all that
//! A1 and 004 leave open 01 holds, as for the stream device.

use crate::bug::{Bug, TWO_TO_THE_32};
use crate::bytes::{long_at, put_word, triple_at, word_at};
use crate::commands::*;
use crate::door;
use crate::image::{Header, Kind};
use crate::reading::{MarksAhead, Reading};
use crate::record::State;
use crate::reply::*;

/// Every opcode that the device knows: those of 004 but ERASE, as 01 leaves erase out, and 1Eh (02, A8).
pub const OPCODES: [u8; 11] = [
    TEST_UNIT_READY,
    REQUEST_SENSE,
    READ,
    WRITE,
    WRITE_FILEMARK,
    INQUIRY,
    MODE_SELECT,
    MODE_SENSE,
    LOAD_UNLOAD,
    PREVENT_ALLOW,
    LOCATE,
];

/// "device type 1Fh" (02, A1).
const DEVICE_TYPE: u8 = 0x1F;
/// The bit in byte 4 of page 2Ah that says floppy tape mode (004).
const FLOPPY_TAPE_MODE: u8 = 0x02;
/// "The Tape Parameters page 2Bh" (02, A1), with its length byte (004).
const PARAMETERS: u8 = 0x2B;
const PARAMETERS_LENGTH_BYTE: u8 = 0x0E;
const PARAMETERS_LENGTH: usize = 16;
const WITH_PARAMETERS: usize = MODE_HEADER_LENGTH + PARAMETERS_LENGTH;
const WITH_CAPABILITIES: usize = MODE_HEADER_LENGTH + CAPABILITIES_LENGTH;
/// WDAM, write deleted address marks (004).
const WDAM: u8 = 0x80;
/// WDAM, RM and FW; "others reserved".
const FLAGS: u8 = WDAM + 0x40 + 0x20;

/// A fresh record over this image; the answer's bytes.
pub fn fresh(record: &mut [u8; 32], image: &[u8]) -> [u8; 16] {
    fresh_with(Bug::None, record, image)
}

pub fn fresh_with(bug: Bug, record: &mut [u8; 32], image: &[u8]) -> [u8; 16] {
    let Some(header) = filled_header(bug, image) else {
        return Reply::refused(2).encoded();
    };
    *record = encoded(&State::fresh(bug), &Parameters::reset_for(&header));
    Reply::good().encoded()
}

/// This cartridge is put in; the answer's bytes.
pub fn change(record: &mut [u8; 32], image: &[u8]) -> [u8; 16] {
    change_with(Bug::None, record, image)
}

pub fn change_with(bug: Bug, record: &mut [u8; 32], image: &[u8]) -> [u8; 16] {
    let Some(header) = filled_header(bug, image) else {
        return Reply::refused(2).encoded();
    };
    let (mut state, mut parameters) = decoded(bug, record);
    state.change_cartridge(bug);
    if bug != Bug::ChangeKeepsParameters {
        parameters = Parameters::reset_for(&header);
    }
    *record = encoded(&state, &parameters);
    Reply::good().encoded()
}

/// One packet; the answer's bytes.
pub fn packet(record: &mut [u8; 32], image: &mut [u8], packet: &[u8], data: &mut [u8]) -> [u8; 16] {
    packet_with(Bug::None, record, image, packet, data).0
}

/// One packet with a planted mistake; the answer's bytes and how it ended.
pub fn packet_with(
    bug: Bug,
    record: &mut [u8; 32],
    image: &mut [u8],
    packet: &[u8],
    data: &mut [u8],
) -> ([u8; 16], Ending) {
    let (state, parameters) = decoded(bug, record);
    let mut drive = Drive {
        bug,
        state,
        parameters,
        image,
        packet,
        data,
    };
    let marks = MarksAhead::of(bug, drive.image, drive.state.position);
    let reply = marks.shown_by_mistake(bug, packet, drive.answered());
    // 01: "A refusal .. alters nothing".
    if !matches!(reply.ending, Ending::Refused(_)) {
        // 01: "Each packet but 03h that isn't refused replaces the sense, with zero where it ends GOOD." (03h clears it.)
        drive.state.sense = reply.sense;
        *record = encoded(&drive.state, &drive.parameters);
    }
    (reply.encoded(), reply.ending)
}

// "over the same image with U = C"; "Refusals: 2 also when U is below C here" (02, A1).
fn filled_header(bug: Bug, image: &[u8]) -> Option<Header> {
    let header = Header::of(image)?;
    let filled = header.recorded == header.capacity || bug == Bug::UnfilledImageTaken;
    filled.then_some(header)
}

/// What the Tape Parameters page holds.
#[derive(Clone, Copy)]
struct Parameters {
    density: u8,
    fill: u8,
    /// BSEG.
    blocks_per_segment: u8,
    /// SEGTRK.
    segments_per_track: u16,
    /// TRKS.
    tracks: u16,
    /// MAXSECT, MAXCYL and MAXHD.
    highest_sector: u8,
    highest_cylinder: u8,
    highest_head: u8,
    /// WDAM, RM and FW where they stand in the page's last byte.
    flags: u8,
}

impl Parameters {
    // "After a load, in a fresh record and after a cartridge change BSEG is 1, SEGTRK C, TRKS 1 and the rest 0" (02, A1).
    fn reset_for(header: &Header) -> Parameters {
        Parameters {
            density: 0,
            fill: 0,
            blocks_per_segment: 1,
            segments_per_track: header.capacity as u16,
            tracks: 1,
            highest_sector: 0,
            highest_cylinder: 0,
            highest_head: 0,
            flags: 0,
        }
    }

    // "BSEG*SEGTRK*TRKS" (02, A1): up to 255 * 65,535 * 65,535, which passes 32 bits.
    fn product(&self, bug: Bug) -> u64 {
        let blocks_per_track =
            u64::from(self.blocks_per_segment) * u64::from(self.segments_per_track);
        let product = blocks_per_track * u64::from(self.tracks);
        if bug == Bug::ProductWraps {
            return product % TWO_TO_THE_32;
        }
        product
    }

    // 004: "2 Density; 4 Format Fill Byte; 5 BSEG; 6-7 SEGTRK; 8-9 TRKS; 10 MAXSECT; 11 MAXCYL; 12 MAXHD; 15 WDAM RM FW".
    fn in_page(bug: Bug, page: &[u8]) -> Parameters {
        Parameters {
            density: page[2],
            fill: page[4],
            blocks_per_segment: page[5],
            segments_per_track: word_at(page, 6),
            tracks: word_at(page, 8),
            highest_sector: page[10],
            highest_cylinder: page[11],
            highest_head: page[12],
            flags: flags_in(bug, page[15]),
        }
    }

    fn page(&self) -> [u8; PARAMETERS_LENGTH] {
        let mut page = [0; PARAMETERS_LENGTH];
        page[0] = PARAMETERS;
        page[1] = PARAMETERS_LENGTH_BYTE;
        page[2] = self.density;
        page[4] = self.fill;
        page[5] = self.blocks_per_segment;
        put_word(&mut page, 6, self.segments_per_track);
        put_word(&mut page, 8, self.tracks);
        page[10] = self.highest_sector;
        page[11] = self.highest_cylinder;
        page[12] = self.highest_head;
        page[15] = self.flags;
        page
    }
}

// Reserved bits are ignored on reading and written as 0.
fn flags_in(bug: Bug, byte: u8) -> u8 {
    if bug == Bug::ReservedFlagsKept {
        return byte;
    }
    byte & FLAGS
}

// "16 density; 17 format fill byte; 18 BSEG; 19 flags; 20-21 SEGTRK; 22-23 TRKS; 24 MAXSECT; 25 MAXCYL; 26 MAXHD; 27-31 zero."
fn decoded(bug: Bug, record: &[u8; 32]) -> (State, Parameters) {
    let mut common = [0; 16];
    common.copy_from_slice(&record[..16]);
    let parameters = Parameters {
        density: record[16],
        fill: record[17],
        blocks_per_segment: record[18],
        segments_per_track: word_at(record, 20),
        tracks: word_at(record, 22),
        highest_sector: record[24],
        highest_cylinder: record[25],
        highest_head: record[26],
        flags: flags_in(bug, record[19]),
    };
    (State::decoded(bug, &common), parameters)
}

fn encoded(state: &State, parameters: &Parameters) -> [u8; 32] {
    let mut record = [0; 32];
    record[..16].copy_from_slice(&state.encoded());
    record[16] = parameters.density;
    record[17] = parameters.fill;
    record[18] = parameters.blocks_per_segment;
    record[19] = parameters.flags;
    put_word(&mut record, 20, parameters.segments_per_track);
    put_word(&mut record, 22, parameters.tracks);
    record[24] = parameters.highest_sector;
    record[25] = parameters.highest_cylinder;
    record[26] = parameters.highest_head;
    record
}

struct Drive<'a> {
    bug: Bug,
    state: State,
    parameters: Parameters,
    image: &'a mut [u8],
    packet: &'a [u8],
    data: &'a mut [u8],
}

impl Drive<'_> {
    // 01: "Packet order: 1, 2, 3, attention, opcode, fields, not ready, protection, 4, list contents, the work."; 02, A8: "53/02
    // stands after the fields check of 1Bh, and 1Eh has no not-ready check."
    fn answered(&mut self) -> Reply {
        if self.packet.len() != PACKET_LENGTH {
            return Reply::refused(1);
        }
        let Some(mut header) = filled_header(self.bug, self.image) else {
            return Reply::refused(2);
        };
        if !self.record_keeps_rules(&header) {
            return Reply::refused(3);
        }
        if let Some(reply) = ended_by_attention(self.bug, &mut self.state, self.packet) {
            return reply;
        }
        if !OPCODES.contains(&self.opcode()) {
            return unknown_opcode();
        }
        if let Some(reply) = self.wrong_field() {
            return reply;
        }
        if let Some(reply) = door::stopped(self.bug, &mut self.state, self.packet) {
            if self.bug == Bug::StoppedUnloadResetsParameters {
                self.parameters = Parameters::reset_for(&header);
            }
            return reply;
        }
        if !self.state.loaded && needs_cartridge(self.bug, self.opcode()) {
            return not_loaded();
        }
        self.protection_and_after(&mut header)
    }

    fn protection_and_after(&mut self, header: &mut Header) -> Reply {
        let minds = minds_protection(self.opcode());
        let ignored = self.bug == Bug::FlushIgnoresProtection && self.opcode() == WRITE_FILEMARK;
        if minds && header.protected && !ignored {
            return write_protected();
        }
        if (self.data.len() as u64) < self.bytes_needed(header) {
            return Reply::refused(4);
        }
        if self.opcode() == MODE_SELECT && !self.list_is_right(header) {
            if self.bug == Bug::LargeListStored && self.packet[4] == 28 {
                self.parameters = self.listed_parameters();
            }
            return bad_list();
        }
        self.work(header)
    }

    fn opcode(&self) -> u8 {
        self.packet[0]
    }

    // "READ, WRITE and LOCATE take the one-byte counts and the block number" (02, A1): byte 4, with bytes 2 and 3 reserved (004).
    fn count(&self) -> u32 {
        if self.bug == Bug::CountOfThreeBytes {
            return triple_at(self.packet, 2);
        }
        u32::from(self.packet[4])
    }

    fn block_number(&self) -> u32 {
        long_at(self.packet, 3)
    }

    fn product(&self) -> u64 {
        self.parameters.product(self.bug)
    }

    // "3 also when the product exceeds C or P exceeds the product" (02, A1); 01: "P > U" (U is C here, and so no less than the
    // product), "a speed outside the five, or a sense key above 15".
    fn record_keeps_rules(&self, header: &Header) -> bool {
        let product_kept = self.product() <= u64::from(header.capacity)
            || self.bug == Bug::ProductAboveCapacityTaken;
        let position_kept = if self.bug == Bug::PositionAtProductRefused {
            u64::from(self.state.position) < self.product()
        } else {
            u64::from(self.state.position) <= self.product()
        };
        product_kept
            && position_kept
            && SPEEDS.contains(&self.state.speed)
            && self.state.sense.key <= 15
    }

    fn wrong_field(&self) -> Option<Reply> {
        let byte_4 = self.packet[4];
        let wrong = match self.opcode() {
            // 01: "byte 1 bit 0 must be 1."
            READ | WRITE => self.packet[1] & 1 == 0,
            // "The Tape Parameters page 2Bh is read and set" (02, A1).
            MODE_SENSE => ![0x00, CAPABILITIES, PARAMETERS].contains(&page_code(self.packet)),
            // 01: "list length (byte 4, a field) 0, 12 or 32, else 5/1A/00."; "its list has 28 bytes" (02, A1).
            MODE_SELECT if ![0, 12, 28, 32].contains(&byte_4) => return Some(bad_list_length()),
            // "LOCATE runs to BSEG*SEGTRK*TRKS - 1"; "a locate past the last block is 5/24/00" (02, A1).
            LOCATE if self.bug == Bug::LocateWaitsForReady && !self.state.loaded => false,
            LOCATE if self.bug == Bug::LocateTakesProduct => {
                u64::from(self.block_number()) > self.product()
            }
            LOCATE => u64::from(self.block_number()) >= self.product(),
            // Bit 2 of byte 4 is reserved here (004).
            LOAD_UNLOAD => {
                self.bug == Bug::LoadMindsEot && door::loads(self.packet) && byte_4 & 4 != 0
            }
            _ => false,
        };
        wrong.then(bad_field)
    }

    // 01: "a lent data buffer is shorter than this transfer needs". N*B passes 32 bits only where a mistake takes N from three bytes.
    fn bytes_needed(&self, header: &Header) -> u64 {
        match self.opcode() {
            REQUEST_SENSE => shortened(self.packet, SENSE_LENGTH) as u64,
            READ | WRITE => u64::from(self.count()) * u64::from(header.block_size),
            INQUIRY => shortened(self.packet, INQUIRY_LENGTH) as u64,
            MODE_SELECT => u64::from(self.packet[4]),
            MODE_SENSE => shortened(self.packet, self.mode_length()) as u64,
            _ => 0,
        }
    }

    fn mode_length(&self) -> usize {
        match page_code(self.packet) {
            CAPABILITIES => WITH_CAPABILITIES,
            PARAMETERS => WITH_PARAMETERS,
            _ => MODE_HEADER_LENGTH,
        }
    }

    fn listed_page(&self) -> &[u8] {
        &self.data[MODE_HEADER_LENGTH..usize::from(self.packet[4])]
    }

    fn listed_parameters(&self) -> Parameters {
        Parameters::in_page(self.bug, self.listed_page())
    }

    // "a list that makes the product exceed C is 5/26/00" (02, A1).
    fn list_is_right(&self, header: &Header) -> bool {
        match self.packet[4] {
            28 => {
                let page = self.listed_page();
                let product = self.listed_parameters().product(self.bug);
                page[0] == PARAMETERS
                    && page[1] == PARAMETERS_LENGTH_BYTE
                    && product <= u64::from(header.capacity)
            }
            32 => capabilities_are_right(self.listed_page()),
            _ => true,
        }
    }

    fn work(&mut self, header: &mut Header) -> Reply {
        match self.opcode() {
            REQUEST_SENSE => fill(self.data, self.packet, &sense_data(&self.state.sense)),
            READ => self.read(header),
            WRITE => self.write(header),
            INQUIRY => fill(self.data, self.packet, &inquiry_data(DEVICE_TYPE)),
            MODE_SELECT => self.mode_select(),
            MODE_SENSE => self.mode_sense(header),
            LOAD_UNLOAD => self.load_unload(header),
            PREVENT_ALLOW => door::prevent_or_allow(self.bug, &mut self.state, self.packet),
            LOCATE => {
                self.state.position = self.block_number();
                Reply::good()
            }
            // "10h flushes and stores nothing" (02, A1). 01: "00h: GOOD."
            _ => Reply::good(),
        }
    }

    // "Reads and writes stop at the product as the stream device does at U and at C" (02, A1).
    fn at_end(&self, header: &Header) -> bool {
        let end = if self.bug == Bug::TransfersEndAtCapacity {
            u64::from(header.capacity)
        } else {
            self.product()
        };
        u64::from(self.state.position) == end
    }

    // 01: "Data: copied, P + 1. .. Unreadable: P + 1, stop, 3/11/00. P = U: stop, 8/00/05, no EOM. A stop is valid with information
    // N minus blocks copied. N = 0 is GOOD." "kind 2 counts as unreadable. Its residue on an unreadable block leaves out the block
    // in error" (02, A1).
    // 02, A6: "READ copies it as data" of a marked block.
    fn read(&mut self, header: &Header) -> Reply {
        let mut reading = Reading::begun(self.bug, header, self.state.position, self.count());
        let mut reply = Reply::good();
        while reading.left() > 0 && reply.ending == Ending::Good {
            if self.at_end(header) {
                reply = self.met_end_of_data(header, reading.left());
                break;
            }
            let element = self.state.position;
            self.state.position += 1;
            match header.kind_of(self.bug, self.image, element) {
                Kind::Marked if self.bug == Bug::ReadSkipsMarked => (),
                Kind::Data | Kind::Marked => reading.copy(self.image, element, self.data),
                kind => reply = self.stopped_at(kind, reading.left()),
            }
        }
        reading.told(self.image, reply)
    }

    // "W plays no part" (02, A1), so A3's EOM is the stream device's alone.
    fn met_end_of_data(&self, header: &Header, residue: u32) -> Reply {
        if self.bug == Bug::FloppyEndShowsEom && header.recorded > header.warning_border() {
            return at_end_of_data_past_warning(residue);
        }
        at_end_of_data(residue)
    }

    fn stopped_at(&self, kind: Kind, residue: u32) -> Reply {
        match self.bug {
            Bug::KindTwoIsFilemark if kind == Kind::Filemark => at_filemark(residue),
            Bug::BlockInErrorInResidue => at_unreadable(residue),
            _ => at_unreadable(residue - 1),
        }
    }

    // 01: "At P = C: stop, key D, EOM, 00/02, valid, information the rest. Else bytes and kind 1 stored, P + 1". "a write leaves U";
    // "W plays no part" (02, A1). 02, A6: "WRITE still stores kind 1.", whatever WDAM says.
    fn write(&mut self, header: &mut Header) -> Reply {
        let size = header.block_size;
        let mut stored = 0;
        let mut reply = Reply::good();
        while stored < self.count() {
            if self.at_end(header) {
                reply = cartridge_full(self.count() - stored);
                break;
            }
            self.store_block(header, stored);
            stored += 1;
        }
        let past_warning = self.state.position > header.warning_border();
        let all_stored = stored >= 1 && reply.ending == Ending::Good;
        if self.bug == Bug::FloppyWarnsEarly && all_stored && past_warning {
            reply = early_warning();
        }
        reply.with_blocks(stored).with_bytes(stored * size)
    }

    fn store_block(&mut self, header: &mut Header, already_stored: u32) {
        let element = self.state.position;
        let at = (already_stored * header.block_size) as usize;
        let bytes = &self.data[at..at + header.block_size as usize];
        header.put_block(self.bug, self.image, element, bytes);
        if self.bug == Bug::WriteFollowsWdam && self.parameters.flags & WDAM != 0 {
            header.put_mark(self.image, element);
        }
        self.state.position += 1;
        if self.bug == Bug::FloppyWriteSetsRecorded {
            header.put_recorded(self.image, self.state.position);
        }
    }

    // "one that puts it below P sets P 0" (02, A1).
    fn mode_select(&mut self) -> Reply {
        let length = u32::from(self.packet[4]);
        match length {
            28 => {
                self.parameters = self.listed_parameters();
                let below = match self.bug {
                    Bug::ListBelowKeepsPosition => false,
                    Bug::ListAtPositionRewinds => self.product() <= u64::from(self.state.position),
                    _ => self.product() < u64::from(self.state.position),
                };
                if below {
                    self.state.position = 0;
                }
            }
            32 => {
                let page = &self.data[MODE_HEADER_LENGTH..];
                take_capabilities(self.bug, &mut self.state, page);
            }
            _ => (),
        }
        Reply::good().with_bytes(length)
    }

    fn mode_sense(&mut self, header: &Header) -> Reply {
        let mut whole = mode_header(header, self.mode_length()).to_vec();
        match page_code(self.packet) {
            CAPABILITIES => {
                let mut page = capabilities_page(self.bug, header, &self.state);
                page[4] = FLOPPY_TAPE_MODE;
                // 004: "This value should be set to BSEG".
                if self.bug != Bug::TransferLimitFixed {
                    put_word(&mut page, 12, u16::from(self.parameters.blocks_per_segment));
                }
                whole.extend_from_slice(&page);
            }
            PARAMETERS => whole.extend_from_slice(&self.parameters.page()),
            _ => (),
        }
        fill(self.data, self.packet, &whole)
    }

    // "After a load .. BSEG is 1, SEGTRK C, TRKS 1 and the rest 0" (02, A1).
    fn load_unload(&mut self, header: &Header) -> Reply {
        let resets = match self.bug {
            Bug::UnloadResetsParameters => true,
            Bug::LoadKeepsParameters => false,
            Bug::LockedLoadKeepsParameters if self.state.locked => false,
            _ => door::loads(self.packet),
        };
        if resets {
            self.parameters = Parameters::reset_for(header);
        }
        door::load_or_unload(self.bug, &mut self.state, self.packet)
    }
}

#[cfg(test)]
mod tests;
