//! The packet drive over a lent cartridge image.

use crate::bug::{Bug, TWO_TO_THE_32};
use crate::bytes::{long_at, put_long, triple_at};
use crate::commands::*;
use crate::door;
use crate::image::{Header, Kind};
use crate::reading::{MarksAhead, Reading};
use crate::record::{Attention, Sense, State};
use crate::reply::*;

pub use crate::commands::SPEEDS;
pub use crate::reply::Ending;

/// Every opcode that the drive knows.
pub const OPCODES: [u8; 14] = [
    TEST_UNIT_READY,
    REWIND,
    REQUEST_SENSE,
    READ,
    WRITE,
    WRITE_FILEMARK,
    SPACE,
    INQUIRY,
    MODE_SELECT,
    MODE_SENSE,
    LOAD_UNLOAD,
    PREVENT_ALLOW,
    LOCATE,
    READ_POSITION,
];

const SPACE_BLOCKS: u8 = 0;
const SPACE_FILEMARKS: u8 = 1;
const SPACE_TO_END: u8 = 3;

/// "01h 80h 02h 02h 1Fh": the first of INQUIRY's bytes.
const DEVICE_TYPE: u8 = 0x01;
const POSITION_LENGTH: usize = 20;
const MODE_WHOLE_LENGTH: usize = MODE_HEADER_LENGTH + CAPABILITIES_LENGTH;

/// A fresh record.
pub fn fresh(record: &mut [u8; 16]) {
    fresh_with(Bug::None, record);
}

pub fn fresh_with(bug: Bug, record: &mut [u8; 16]) {
    *record = State::fresh(bug).encoded();
}

/// Another cartridge is put in.
pub fn change(record: &mut [u8; 16]) {
    change_with(Bug::None, record);
}

pub fn change_with(bug: Bug, record: &mut [u8; 16]) {
    let mut state = State::decoded(bug, record);
    let keeps_reset = bug == Bug::ChangeKeepsReset && state.attention == Attention::Reset;
    // "Changing the cartridge (never refused)".
    state.change_cartridge(bug);
    if keeps_reset {
        state.attention = Attention::Reset;
    }
    *record = state.encoded();
}

/// One packet; the answer's bytes.
pub fn packet(record: &mut [u8; 16], image: &mut [u8], packet: &[u8], data: &mut [u8]) -> [u8; 16] {
    packet_with(Bug::None, record, image, packet, data).0
}

/// One packet with a planted mistake; the answer's bytes and how it ended.
pub fn packet_with(
    bug: Bug,
    record: &mut [u8; 16],
    image: &mut [u8],
    packet: &[u8],
    data: &mut [u8],
) -> ([u8; 16], Ending) {
    let mut drive = Drive {
        bug,
        state: State::decoded(bug, record),
        image,
        packet,
        data,
    };
    let marks = MarksAhead::of(bug, drive.image, drive.state.position);
    let reply = marks.shown_by_mistake(bug, packet, drive.answered());
    if let Ending::Refused(_) = reply.ending {
        // "A refusal returns its number, status 0, 0 blocks and bytes .., and alters nothing".
        if bug == Bug::RefusalClearsSense {
            drive.state.sense = Sense::ZERO;
            *record = drive.state.encoded();
        }
    } else {
        // "Each packet but 03h that isn't refused replaces the sense, with zero where it ends GOOD." (03h clears it.)
        if !(bug == Bug::InquiryKeepsSense && packet[0] == INQUIRY) {
            drive.state.sense = reply.sense;
        }
        *record = drive.state.encoded();
    }
    (reply.encoded(), reply.ending)
}

// "Packet order: 1, 2, 3, ..": the image's header where none of these is given, else the number.
pub(crate) fn header_first(
    bug: Bug,
    state: &State,
    image: &[u8],
    packet: &[u8],
) -> Result<Header, u8> {
    if packet.len() != PACKET_LENGTH {
        return Err(1);
    }
    let header = Header::of_with(bug, image).ok_or(2)?;
    if record_keeps_rules(bug, state, &header) {
        Ok(header)
    } else {
        Err(3)
    }
}

// "packet record has P > U, a speed outside the five, or a sense key above 15".
fn record_keeps_rules(bug: Bug, state: &State, header: &Header) -> bool {
    let position_kept = if bug == Bug::PositionAtEndRefused {
        state.position < header.recorded
    } else {
        state.position <= header.recorded
    };
    position_kept && SPEEDS.contains(&state.speed) && state.sense.key <= 15
}

struct Drive<'a> {
    bug: Bug,
    state: State,
    image: &'a mut [u8],
    packet: &'a [u8],
    data: &'a mut [u8],
}

impl Drive<'_> {
    // "Packet order: 1, 2, 3, attention, opcode, fields, not ready, protection, 4, list contents, the work."; 02, A8: "53/02
    // stands after the fields check of 1Bh, and 1Eh has no not-ready check."
    fn answered(&mut self) -> Reply {
        let mut header = match header_first(self.bug, &self.state, self.image, self.packet) {
            Ok(header) => header,
            Err(number) => return Reply::refused(number),
        };
        if self.bug == Bug::AttentionAfterOpcode && !self.opcode_is_known() {
            return unknown_opcode();
        }
        if let Some(reply) = ended_by_attention(self.bug, &mut self.state, self.packet) {
            return reply;
        }
        if !self.opcode_is_known() {
            return unknown_opcode();
        }
        if let Some(reply) = self.wrong_field() {
            return reply;
        }
        if let Some(reply) = door::stopped(self.bug, &mut self.state, self.packet) {
            return reply;
        }
        if !self.state.loaded && needs_cartridge(self.bug, self.opcode()) {
            return not_loaded();
        }
        self.protection_and_after(&mut header)
    }

    fn protection_and_after(&mut self, header: &mut Header) -> Reply {
        let too_short = (self.data.len() as u64) < self.bytes_needed(header);
        if too_short && self.bug == Bug::ProtectionAfterBuffer {
            return Reply::refused(4);
        }
        let protected = minds_protection(self.opcode()) && header.protected;
        if protected && self.bug != Bug::ProtectionAfterTransfer {
            return write_protected();
        }
        if too_short {
            return Reply::refused(4);
        }
        if self.opcode() == MODE_SELECT && !self.list_is_right() {
            return self.wrong_list();
        }
        let reply = self.work(header);
        if protected {
            return write_protected();
        }
        reply
    }

    fn opcode(&self) -> u8 {
        self.packet[0]
    }

    // N, "count N in bytes 2-4".
    fn count(&self) -> u32 {
        triple_at(self.packet, 2)
    }

    fn opcode_is_known(&self) -> bool {
        OPCODES.contains(&self.opcode())
    }

    fn wrong_field(&self) -> Option<Reply> {
        let byte_1 = self.packet[1];
        let byte_4 = self.packet[4];
        let wrong = match self.opcode() {
            // "byte 1 bit 0 must be 1." "0Ah WRITE, same fields".
            READ | WRITE => byte_1 & 1 == 0,
            // "code in byte 1 bits 0-2 .. Other codes 24/00."
            SPACE => ![SPACE_BLOCKS, SPACE_FILEMARKS, SPACE_TO_END].contains(&(byte_1 % 8)),
            // "page (byte 2, six bits) 00h or 2Ah, else 24/00."
            MODE_SENSE => ![0x00, CAPABILITIES].contains(&page_code(self.packet)),
            // "list length (byte 4, a field) 0, 12 or 32, else 5/1A/00."
            MODE_SELECT if ![0, 12, 32].contains(&byte_4) => {
                return Some(bad_list_length());
            }
            // "byte 4 load 1, retension 2, EOT 4. Load with EOT 24/00."
            LOAD_UNLOAD => door::loads(self.packet) && byte_4 & 4 != 0,
            // "byte 1 bit 1 set 24/00".
            LOCATE => byte_1 & 2 != 0,
            _ => false,
        };
        let locked_load = self.opcode() == LOAD_UNLOAD && self.state.locked;
        if self.bug == Bug::StopBeforeFields && wrong && locked_load {
            return Some(removal_prevented());
        }
        wrong.then(bad_field)
    }

    // "a lent data buffer is shorter than this transfer needs". N*B can pass 32 bits.
    fn bytes_needed(&self, header: &Header) -> u64 {
        match self.opcode() {
            REQUEST_SENSE => shortened(self.packet, SENSE_LENGTH) as u64,
            READ | WRITE => {
                let need = u64::from(self.count()) * u64::from(header.block_size);
                if self.bug == Bug::NeedWraps {
                    need % TWO_TO_THE_32
                } else {
                    need
                }
            }
            INQUIRY => shortened(self.packet, INQUIRY_LENGTH) as u64,
            MODE_SELECT => u64::from(self.packet[4]),
            MODE_SENSE => shortened(self.packet, self.mode_length()) as u64,
            READ_POSITION => POSITION_LENGTH as u64,
            _ => 0,
        }
    }

    // "First min(byte 4, 12 or 32)."
    fn mode_length(&self) -> usize {
        if page_code(self.packet) == 0 {
            MODE_HEADER_LENGTH
        } else {
            MODE_WHOLE_LENGTH
        }
    }

    // "Length 32: page bytes 2Ah 12h and speed 0, 62, 125, 250 or 500, else 5/26/00".
    fn list_is_right(&self) -> bool {
        if self.packet[4] != 32 {
            return true;
        }
        let mut page = self.data[MODE_HEADER_LENGTH..MODE_WHOLE_LENGTH].to_vec();
        if self.bug == Bug::PageCodeMasked {
            page[0] %= 64;
        }
        capabilities_are_right(&page)
    }

    fn wrong_list(&self) -> Reply {
        if self.bug == Bug::WrongListTakesBytes {
            return bad_list().with_bytes(u32::from(self.packet[4]));
        }
        bad_list()
    }

    fn work(&mut self, header: &mut Header) -> Reply {
        match self.opcode() {
            // "00h: GOOD."
            TEST_UNIT_READY => Reply::good(),
            // "01h: P = 0."
            REWIND => {
                self.state.position = 0;
                Reply::good()
            }
            REQUEST_SENSE => self.request_sense(),
            READ => self.read(header),
            WRITE | WRITE_FILEMARK => self.write(header),
            SPACE => self.space(header),
            INQUIRY => self.fill(&inquiry_data(DEVICE_TYPE)),
            MODE_SELECT => self.mode_select(),
            MODE_SENSE => self.mode_sense(header),
            LOAD_UNLOAD => door::load_or_unload(self.bug, &mut self.state, self.packet),
            PREVENT_ALLOW => door::prevent_or_allow(self.bug, &mut self.state, self.packet),
            LOCATE => self.locate(header),
            READ_POSITION => self.read_position(header),
            _ => unreachable!("an unknown opcode ended before"),
        }
    }

    fn fill(&mut self, whole: &[u8]) -> Reply {
        fill(self.data, self.packet, whole)
    }

    // "20 bytes, the first min(byte 4, 20) returned, then sense cleared."
    fn request_sense(&mut self) -> Reply {
        if self.bug == Bug::SenseClearsAttention {
            self.state.attention = Attention::None;
        }
        let bytes = sense_data(&self.state.sense);
        self.fill(&bytes)
    }

    // "08h READ, count N .. Data: copied, P + 1. Filemark: P + 1, stop, key 0, filemark, 00/01. Unreadable: P + 1, stop, 3/11/00.
    // P = U: stop, 8/00/05 .. A stop is valid with information N minus blocks copied. N = 0 is GOOD."
    // 02, A6: "READ copies it as data" of a marked block.
    fn read(&mut self, header: &Header) -> Reply {
        let mut reading = Reading::begun(self.bug, header, self.state.position, self.count());
        let mut reply = Reply::good();
        while reading.left() > 0 && reply.ending == Ending::Good {
            if self.state.position == header.recorded {
                reply = self.met_end_of_data(header, reading.left());
                break;
            }
            let element = self.state.position;
            self.state.position += 1;
            match header.kind_of(self.bug, self.image, element) {
                Kind::Marked if self.bug == Bug::ReadSkipsMarked => (),
                Kind::Data | Kind::Marked => reading.copy(self.image, element, self.data),
                Kind::Filemark => reply = self.met_filemark(reading.left()),
                Kind::Unreadable => reply = at_unreadable(reading.left()),
            }
        }
        if self.bug == Bug::ReadClearsRest {
            self.data[reading.bytes() as usize..].fill(0);
        }
        reading.told(self.image, reply)
    }

    fn met_filemark(&self, residue: u32) -> Reply {
        if self.bug == Bug::ResidueCountsFilemark {
            return at_filemark(residue - 1);
        }
        at_filemark(residue)
    }

    // 02, A3: "So 8/00/05 on READ and SPACE carries EOM when U > C - W. The cases with W 0 stay."
    fn met_end_of_data(&self, header: &Header, residue: u32) -> Reply {
        if self.data_ends_past_warning(header) {
            at_end_of_data_past_warning(residue)
        } else {
            at_end_of_data(residue)
        }
    }

    // "U > C - W" (02, A3).
    fn data_ends_past_warning(&self, header: &Header) -> bool {
        let border = header.warning_border();
        match self.bug {
            Bug::EndOfDataHidesEom => false,
            Bug::EndOfDataShowsEomAtBorder => header.recorded >= border,
            Bug::EndOfDataShowsEomForAnyWarning => header.early_warning != 0,
            Bug::SpaceHidesEom if self.opcode() == SPACE => false,
            _ => header.recorded > border,
        }
    }

    // "0Ah WRITE, same fields, need and N = 0. At P = C: stop, key D, EOM, 00/02, valid, information the rest. Else bytes and kind 1
    // stored, P + 1, U = new P. If all N >= 1 are stored and P > C - W: CHECK CONDITION, key 0, EOM, 00/02, valid, information 0."
    // "10h: N (bytes 2-4) filemarks by WRITE's rules, byte 1 ignored, block bytes untouched; N = 0 GOOD."
    fn write(&mut self, header: &mut Header) -> Reply {
        let mut stored = 0;
        let mut full = false;
        while stored < self.count() && !full {
            if self.state.position == header.capacity {
                full = true;
            } else {
                self.store_element(header, stored);
                stored += 1;
            }
        }
        let reply = if full {
            cartridge_full(self.count() - stored)
        } else if stored >= 1 && self.past_early_warning(header) {
            early_warning()
        } else {
            Reply::good()
        };
        let taken = if self.opcode() == WRITE {
            stored * header.block_size
        } else {
            0
        };
        reply.with_blocks(stored).with_bytes(taken)
    }

    fn store_element(&mut self, header: &mut Header, already_stored: u32) {
        let element = self.state.position;
        if self.opcode() == WRITE {
            let at = (already_stored * header.block_size) as usize;
            let bytes = &self.data[at..at + header.block_size as usize];
            header.put_block(self.bug, self.image, element, bytes);
        } else {
            header.put_filemark(self.bug, self.image, element);
            if self.bug == Bug::FilemarkClearsBlock {
                header.clear_block(self.image, element);
            }
        }
        self.state.position += 1;
        let recorded = if self.bug == Bug::WriteKeepsRecorded {
            self.state.position.max(header.recorded)
        } else {
            self.state.position
        };
        header.put_recorded(self.image, recorded);
    }

    // "P > C - W".
    fn past_early_warning(&self, header: &Header) -> bool {
        let border = header.warning_border();
        if self.bug == Bug::WarningAtBorder {
            return self.state.position >= border;
        }
        self.state.position > border
    }

    // "11h SPACE, code in byte 1 bits 0-2; bytes 2-4 are a signed count, two's complement." "Code 3: P = U."
    fn space(&mut self, header: &Header) -> Reply {
        let code = self.packet[1] % 8;
        if code == SPACE_TO_END {
            self.state.position = header.recorded;
            return Reply::good();
        }
        let forward = self.count() < 0x80_0000;
        let magnitude = if forward {
            self.count()
        } else {
            0x100_0000 - self.count()
        };
        let reply = self.space_elements(header, code, forward, magnitude);
        let ends_on_end_side = self.bug == Bug::SpaceBackEndsBeyond && code == SPACE_FILEMARKS;
        if ends_on_end_side && !forward && reply.ending == Ending::Good {
            self.state.position += 1;
        }
        reply
    }

    // "Code 0 passes blocks, unreadable too; a filemark is crossed and stops it (key 0, filemark, 00/01). Code 1 passes filemarks,
    // ending beyond the last, on the beginning side when going back. End of data 8/00/05; beginning key 0, EOM, 00/04. A stop is
    // valid with information the magnitude asked minus those passed." 02, A6: "SPACE counts it as a block".
    fn space_elements(
        &mut self,
        header: &Header,
        code: u8,
        forward: bool,
        magnitude: u32,
    ) -> Reply {
        let mut passed = 0;
        while passed < magnitude {
            let residue = magnitude - passed;
            let Some(kind) = self.cross_element(header, forward) else {
                return if forward {
                    self.met_end_of_data(header, residue)
                } else {
                    let sense = Sense::of(0, 0, 4).with_eom().with_residue(residue);
                    Reply::ended(Ending::AtBeginning, sense)
                };
            };
            match (code, self.kind_in_space(code, kind)) {
                (SPACE_BLOCKS, Kind::Filemark) => return at_filemark(residue),
                (SPACE_BLOCKS, Kind::Marked) if self.bug == Bug::SpaceSkipsMarked => (),
                (SPACE_BLOCKS, _) | (_, Kind::Filemark) => passed += 1,
                (_, _) => (),
            }
        }
        Reply::good()
    }

    /// The element's kind, or what a mistake takes a marked block for.
    fn kind_in_space(&self, code: u8, kind: Kind) -> Kind {
        match (self.bug, code, kind) {
            (Bug::SpaceStopsAtMarked, SPACE_BLOCKS, Kind::Marked)
            | (Bug::SpaceTakesMarkedForFilemark, SPACE_FILEMARKS, Kind::Marked) => Kind::Filemark,
            _ => kind,
        }
    }

    /// Moves over one element and tells its kind; none is left at the end of data, or at the beginning going back.
    fn cross_element(&mut self, header: &Header, forward: bool) -> Option<Kind> {
        if forward {
            if self.state.position == header.recorded {
                return None;
            }
            self.state.position += 1;
            Some(header.kind_of(self.bug, self.image, self.state.position - 1))
        } else {
            if self.state.position == 0 {
                return None;
            }
            self.state.position -= 1;
            Some(header.kind_of(self.bug, self.image, self.state.position))
        }
    }

    fn mode_select(&mut self) -> Reply {
        let length = usize::from(self.packet[4]);
        if length == MODE_WHOLE_LENGTH {
            let page = &self.data[MODE_HEADER_LENGTH..];
            take_capabilities(self.bug, &mut self.state, page);
        }
        Reply::good().with_bytes(length as u32)
    }

    fn mode_sense(&mut self, header: &Header) -> Reply {
        let length = self.mode_length();
        let mut whole = [0; MODE_WHOLE_LENGTH];
        whole[..MODE_HEADER_LENGTH].copy_from_slice(&mode_header(header, length));
        let page = capabilities_page(self.bug, header, &self.state);
        whole[MODE_HEADER_LENGTH..].copy_from_slice(&page);
        self.fill(&whole[..length])
    }

    // "target in bytes 3-6. Above U: P = U, 8/00/05, not valid. Else P = target." A3 of 02 names READ and SPACE alone: no EOM here.
    fn locate(&mut self, header: &Header) -> Reply {
        let target = long_at(self.packet, 3);
        if target > header.recorded {
            self.state.position = header.recorded;
            let mut sense = Sense::of(8, 0, 5);
            sense.valid = self.bug == Bug::LocateBeyondIsValid;
            sense.eom = self.bug == Bug::LocateShowsEom && self.data_ends_past_warning(header);
            return Reply::ended(Ending::LocatedBeyond, sense);
        }
        self.state.position = target;
        Reply::good()
    }

    // "34h: 20 bytes; byte 0 80h if P = 0, plus 40h if P > C - W; 4-7 and 8-11 P; others 0."
    fn read_position(&mut self, header: &Header) -> Reply {
        let position = self.state.position;
        let mut whole = [0; POSITION_LENGTH];
        if position == 0 {
            whole[0] += 0x80;
        }
        if self.past_early_warning(header) {
            whole[0] += 0x40;
        }
        put_long(&mut whole, 4, position);
        put_long(&mut whole, 8, position);
        self.data[..POSITION_LENGTH].copy_from_slice(&whole);
        Reply::good().with_bytes(POSITION_LENGTH as u32)
    }
}

#[cfg(test)]
mod tests;
