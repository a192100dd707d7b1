//! The plates of the packet drive, and the readings that the interface page settles.

mod locked;
mod marked;

use super::*;
use crate::bytes::{put_word, word_at};

const BLOCK: usize = 512;

/// "Image C 4, B 512, W 0, kinds 1 2 1, U 3, attention cleared".
struct Bench {
    record: [u8; 16],
    image: Vec<u8>,
    data: Vec<u8>,
}

struct Told {
    number: u8,
    status: u8,
    blocks: u32,
    bytes: u32,
    marked: u32,
}

impl Told {
    fn of(answer: [u8; 16]) -> Told {
        assert_eq!(answer[2..4], [0, 0]);
        Told {
            number: answer[0],
            status: answer[1],
            blocks: long_at(&answer, 4),
            bytes: long_at(&answer, 8),
            marked: long_at(&answer, 12),
        }
    }
}

impl Bench {
    fn at(position: u32) -> Bench {
        let mut image = vec![0; 32 + 4 + 4 * BLOCK];
        put_word(&mut image, 0, 32);
        put_word(&mut image, 2, BLOCK as u16);
        put_long(&mut image, 4, 4);
        put_long(&mut image, 8, 3);
        put_long(&mut image, 12, 32);
        put_long(&mut image, 16, 36);
        image[32..36].copy_from_slice(&[1, 2, 1, 0]);
        for element in 0..4 {
            let at = 36 + element * BLOCK;
            image[at..at + BLOCK].fill(0xA0 + element as u8);
        }
        let mut record = [0; 16];
        fresh(&mut record);
        record[5] = 0;
        put_long(&mut record, 0, position);
        let data = vec![0x55; 8 * BLOCK];
        Bench {
            record,
            image,
            data,
        }
    }

    fn with_warning(mut self, warning: u16) -> Bench {
        put_word(&mut self.image, 22, warning);
        self
    }

    fn with_recorded(mut self, recorded: u32) -> Bench {
        put_long(&mut self.image, 8, recorded);
        self
    }

    fn protected(mut self) -> Bench {
        self.image[20] = 1;
        self
    }

    fn unloaded(mut self) -> Bench {
        self.record[4] = 0;
        self
    }

    /// The answer over an image without marked blocks, or to a packet that tells of none.
    fn send(&mut self, bytes: &[u8]) -> Told {
        let room = self.data.len();
        let told = self.send_with_room(bytes, room);
        assert_eq!(told.marked, 0);
        told
    }

    fn send_with_room(&mut self, bytes: &[u8], room: usize) -> Told {
        Told::of(packet(
            &mut self.record,
            &mut self.image,
            bytes,
            &mut self.data[..room],
        ))
    }

    fn position(&self) -> u32 {
        long_at(&self.record, 0)
    }

    fn recorded(&self) -> u32 {
        long_at(&self.image, 8)
    }

    fn triple(&self) -> [u8; 3] {
        [self.record[8], self.record[9], self.record[10]]
    }

    fn sense_bytes(&mut self) -> Vec<u8> {
        let told = self.send(&short(REQUEST_SENSE, 20));
        assert_eq!((told.number, told.status, told.bytes), (0, 0, 20));
        self.data[..20].to_vec()
    }

    fn residue(&self) -> Option<u32> {
        (self.record[11] & 1 != 0).then(|| long_at(&self.record, 12))
    }
}

fn short(opcode: u8, byte_4: u8) -> [u8; 12] {
    [opcode, 0, 0, 0, byte_4, 0, 0, 0, 0, 0, 0, 0]
}

fn counted(opcode: u8, byte_1: u8, count: u32) -> [u8; 12] {
    let [_, high, middle, low] = count.to_be_bytes();
    [opcode, byte_1, high, middle, low, 0, 0, 0, 0, 0, 0, 0]
}

fn spaced(code: u8, count: i32) -> [u8; 12] {
    counted(SPACE, code, count as u32)
}

fn located(byte_1: u8, target: u32) -> [u8; 12] {
    let mut packet = [LOCATE, byte_1, 0, 0, 0, 0, 0, 0, 0, 0, 0, 0];
    put_long(&mut packet, 3, target);
    packet
}

#[test]
fn plate_read_2_at_0_stops_at_the_filemark() {
    let mut bench = Bench::at(0);
    let told = bench.send(&counted(READ, 1, 2));
    assert_eq!((told.number, told.status, told.blocks), (0, 2, 1));
    assert_eq!(told.bytes, 512);
    assert_eq!(bench.position(), 2);
    assert_eq!(bench.data[..BLOCK], [0xA0; BLOCK]);
    assert_eq!(bench.data[BLOCK..], [0x55; 7 * BLOCK]);
    let sense = bench.sense_bytes();
    let plate = [
        0xF0, 0, 0x80, 0, 0, 0, 1, 0x0C, 0, 0, 0, 0, 0, 1, 0, 0, 0, 0, 0, 0,
    ];
    assert_eq!(sense, plate);
}

#[test]
fn plate_then_read_2_stops_at_the_end_of_data() {
    let mut bench = Bench::at(0);
    bench.send(&counted(READ, 1, 2));
    let told = bench.send(&counted(READ, 1, 2));
    assert_eq!((told.status, told.blocks), (2, 1));
    assert_eq!(bench.residue(), Some(1));
    assert_eq!(bench.position(), 3);
    assert_eq!(bench.triple(), [8, 0, 5]);
    assert_eq!(bench.record[11] & 2, 0);
}

/// The packet ends with 8/00/05 at U, with this byte 2 of REQUEST SENSE's data and this residue.
fn ends_at_end_of_data(mut bench: Bench, packet: [u8; 12], byte_2: u8, residue: u8) {
    let told = bench.send(&packet);
    assert_eq!((told.number, told.status), (0, 2));
    assert_eq!(bench.position(), bench.recorded());
    let plate = [
        0xF0, 0, byte_2, 0, 0, 0, residue, 0x0C, 0, 0, 0, 0, 0, 5, 0, 0, 0, 0, 0, 0,
    ];
    assert_eq!(bench.sense_bytes(), plate);
}

/// READ 2 at 2, SPACE 3 blocks at 2 and SPACE 2 filemarks at 0, with early warning W.
fn three_ends_of_data(warning: u16, byte_2: u8) {
    for (position, packet, residue) in [
        (2, counted(READ, 1, 2), 1),
        (2, spaced(SPACE_BLOCKS, 3), 2),
        (0, spaced(SPACE_FILEMARKS, 2), 1),
    ] {
        let bench = Bench::at(position).with_warning(warning);
        assert_eq!(bench.recorded(), 3);
        ends_at_end_of_data(bench, packet, byte_2, residue);
    }
}

/// READ 1, SPACE 1 block and SPACE 1 filemark at P = U, with this U and W.
fn three_ends_of_data_at(recorded: u32, warning: u16, byte_2: u8) {
    for packet in [
        counted(READ, 1, 1),
        spaced(SPACE_BLOCKS, 1),
        spaced(SPACE_FILEMARKS, 1),
    ] {
        let bench = Bench::at(recorded).with_recorded(recorded);
        ends_at_end_of_data(bench.with_warning(warning), packet, byte_2, 1);
    }
}

/// 02, A3: "The cases with W 0 stay."
#[test]
fn plates_the_end_of_data_without_early_warning() {
    three_ends_of_data(0, 0x08);
}

/// 02, A3: "carries EOM when U > C - W", and 3 > 4 - 1 is false.
#[test]
fn plates_the_end_of_data_at_early_warning() {
    three_ends_of_data(1, 0x08);
}

/// 02, A3: "So 8/00/05 on READ and SPACE carries EOM when U > C - W.", and 3 > 4 - 2.
#[test]
fn plates_the_end_of_data_past_early_warning() {
    three_ends_of_data(2, 0x48);
}

/// 0 > 4 - 4 is false.
#[test]
fn plates_the_end_of_data_on_a_blank_tape_that_warns_throughout() {
    three_ends_of_data_at(0, 4, 0x08);
}

/// 4 > 4 - 0 is false, and 4 > 4 - 1.
#[test]
fn plates_the_end_of_data_on_a_full_tape() {
    three_ends_of_data_at(4, 0, 0x08);
    three_ends_of_data_at(4, 1, 0x48);
}

/// 02, A3, names READ and SPACE; 01: LOCATE's 8/00/05 is "not valid", and code 3 of SPACE is GOOD.
#[test]
fn plates_past_early_warning_without_eom() {
    let mut bench = Bench::at(0).with_warning(2);
    assert_eq!(bench.send(&located(0, 4)).status, 2);
    assert_eq!(bench.position(), 3);
    let plate = [
        0x70, 0, 0x08, 0, 0, 0, 0, 0x0C, 0, 0, 0, 0, 0, 5, 0, 0, 0, 0, 0, 0,
    ];
    assert_eq!(bench.sense_bytes(), plate);
    let mut bench = Bench::at(0).with_warning(2);
    assert_eq!(bench.send(&spaced(SPACE_TO_END, 1)).status, 0);
    assert_eq!((bench.position(), bench.record[11]), (3, 0));
}

#[test]
fn plate_write_2_at_3_meets_the_end_of_the_tape() {
    let mut bench = Bench::at(3);
    let told = bench.send(&counted(WRITE, 1, 2));
    assert_eq!((told.status, told.blocks, told.bytes), (2, 1, 512));
    assert_eq!((bench.position(), bench.recorded()), (4, 4));
    assert_eq!(bench.residue(), Some(1));
    assert_eq!(bench.sense_bytes()[2], 0x4D);
}

#[test]
fn plate_write_1_at_3_with_early_warning() {
    let mut bench = Bench::at(3).with_warning(1);
    let told = bench.send(&counted(WRITE, 1, 1));
    assert_eq!((told.status, told.blocks), (2, 1));
    assert_eq!(bench.residue(), Some(0));
    let sense = bench.sense_bytes();
    assert_eq!((sense[0], sense[2], sense[13]), (0xF0, 0x40, 2));
}

#[test]
fn plate_write_1_at_0_cuts_what_is_recorded() {
    let mut bench = Bench::at(0);
    let told = bench.send(&counted(WRITE, 1, 1));
    assert_eq!((told.status, told.blocks), (0, 1));
    assert_eq!(bench.recorded(), 1);
}

#[test]
fn plate_space_back_over_a_filemark_ends_before_it() {
    let mut bench = Bench::at(3);
    let told = bench.send(&spaced(1, -1));
    assert_eq!((told.status, told.blocks, told.bytes), (0, 0, 0));
    assert_eq!(bench.position(), 1);
}

#[test]
fn plate_space_over_a_block_is_stopped_by_a_filemark() {
    let mut bench = Bench::at(1);
    let told = bench.send(&spaced(0, 1));
    assert_eq!(told.status, 2);
    assert_eq!(bench.position(), 2);
    assert_eq!(bench.residue(), Some(1));
    assert_eq!(bench.triple(), [0, 0, 1]);
}

#[test]
fn plate_space_back_at_the_beginning() {
    let mut bench = Bench::at(0);
    let told = bench.send(&spaced(0, -1));
    assert_eq!(told.status, 2);
    assert_eq!(bench.residue(), Some(1));
    assert_eq!(bench.triple(), [0, 0, 4]);
    assert_eq!(bench.record[11], 3);
}

#[test]
fn plate_locate_4_goes_to_the_end_of_data() {
    let mut bench = Bench::at(0);
    let told = bench.send(&located(0, 4));
    assert_eq!(told.status, 2);
    assert_eq!(bench.position(), 3);
    assert_eq!(bench.triple(), [8, 0, 5]);
    assert_eq!(bench.residue(), None);
}

#[test]
fn plate_load_with_eot_is_a_bad_field() {
    let mut bench = Bench::at(2);
    let told = bench.send(&short(LOAD_UNLOAD, 5));
    assert_eq!(told.status, 2);
    assert_eq!(bench.triple(), [5, 0x24, 0]);
    assert_eq!(bench.position(), 2);
}

#[test]
fn plate_packet_of_11_bytes_is_refused_and_of_12_answered() {
    let mut bench = Bench::at(0);
    let before = bench.record;
    for length in [0, 1, 11, 13, 100] {
        let told = bench.send(&vec![0; length]);
        assert_eq!((told.number, told.status), (1, 0));
        assert_eq!(bench.record, before);
    }
    let told = bench.send(&[0; 12]);
    assert_eq!((told.number, told.status), (0, 0));
}

#[test]
fn attention_comes_before_everything_but_sense_and_inquiry() {
    let mut bench = Bench::at(0);
    bench.record[5] = 2;
    assert_eq!(bench.send(&short(INQUIRY, 36)).bytes, 36);
    assert_eq!(bench.send(&short(REQUEST_SENSE, 20)).bytes, 20);
    assert_eq!(bench.record[5], 2);
    assert_eq!(bench.send(&[0xFF; 12]).status, 2);
    assert_eq!(bench.triple(), [6, 0x29, 0]);
    assert_eq!(bench.send(&[0xFF; 12]).status, 2);
    assert_eq!(bench.triple(), [5, 0x20, 0]);
    change(&mut bench.record);
    assert_eq!(bench.send(&short(READ_POSITION, 0)).status, 2);
    assert_eq!(bench.triple(), [6, 0x28, 0]);
    assert_eq!(bench.send(&short(READ_POSITION, 0)).bytes, 20);
}

#[test]
fn a_fresh_record_has_speed_250() {
    let mut record = [0xEE; 16];
    fresh(&mut record);
    assert_eq!(record, [0, 0, 0, 0, 1, 2, 0, 250, 0, 0, 0, 0, 0, 0, 0, 0]);
}

/// 02, A2: "Callers that relied on 0 set it themselves by 15h, and MODE SENSE bytes 14-15 of a fresh drive follow."
#[test]
fn a_fresh_drive_tells_250_until_a_list_sets_0() {
    let mut bench = Bench::at(0);
    fresh(&mut bench.record);
    assert_eq!(bench.send(&short(TEST_UNIT_READY, 0)).status, 2);
    let mut sense = short(MODE_SENSE, 32);
    sense[2] = 0x2A;
    bench.send(&sense);
    assert_eq!(bench.data[26..28], [0x00, 0xFA]);
    bench.data[26..28].fill(0);
    assert_eq!(bench.send(&short(MODE_SELECT, 32)).status, 0);
    change(&mut bench.record);
    assert_eq!(bench.send(&short(TEST_UNIT_READY, 0)).status, 2);
    bench.data[26..28].fill(0x55);
    bench.send(&sense);
    assert_eq!(bench.data[26..28], [0x00, 0x00]);
}

#[test]
fn changing_the_cartridge_keeps_only_the_speed_and_the_lock() {
    for (before, after) in [(0xFF, 3), (0xFD, 1)] {
        let mut record = [0xFF; 16];
        record[4] = before;
        change(&mut record);
        assert_eq!(
            record,
            [0, 0, 0, 0, after, 1, 0xFF, 0xFF, 0, 0, 0, 0, 0, 0, 0, 0]
        );
    }
}

#[test]
fn the_order_of_refusals() {
    let mut bench = Bench::at(4);
    bench.record[5] = 2;
    assert_eq!(bench.send(&short(REQUEST_SENSE, 20)).number, 3);
    bench.image[31] = 1;
    assert_eq!(bench.send(&short(REQUEST_SENSE, 20)).number, 2);
    assert_eq!(bench.send(&[0; 11]).number, 1);
}

#[test]
fn a_short_buffer_is_refused_after_not_ready_and_protection() {
    let read = counted(READ, 1, 1);
    let write = counted(WRITE, 1, 1);
    assert_eq!(Bench::at(0).send_with_room(&read, 511).number, 4);
    assert_eq!(Bench::at(0).send_with_room(&read, 512).number, 0);
    assert_eq!(Bench::at(0).unloaded().send_with_room(&read, 0).status, 2);
    assert_eq!(Bench::at(0).protected().send_with_room(&write, 0).status, 2);
    let most = counted(READ, 1, 0xFF_FFFF);
    assert_eq!(Bench::at(0).send_with_room(&most, 4096).number, 4);
    assert_eq!(
        Bench::at(0)
            .send_with_room(&counted(WRITE_FILEMARK, 0, 1), 0)
            .blocks,
        1
    );
}

#[test]
fn nothing_is_read_or_written_for_a_count_of_0() {
    for opcode in [READ, WRITE, WRITE_FILEMARK] {
        let mut bench = Bench::at(3).with_warning(4);
        let told = bench.send_with_room(&counted(opcode, 1, 0), 0);
        assert_eq!((told.number, told.status, told.blocks), (0, 0, 0));
    }
    let mut bench = Bench::at(0).protected();
    bench.send(&counted(WRITE, 1, 0));
    assert_eq!(bench.triple(), [7, 0x27, 0]);
}

#[test]
fn filemarks_are_stored_without_touching_blocks() {
    let mut bench = Bench::at(2);
    let blocks = bench.image[36..].to_vec();
    let told = bench.send(&counted(WRITE_FILEMARK, 0xFF, 16_777_215));
    assert_eq!((told.status, told.blocks, told.bytes), (2, 2, 0));
    assert_eq!(bench.residue(), Some(16_777_213));
    assert_eq!(bench.image[32..36], [1, 2, 2, 2]);
    assert_eq!(bench.image[36..], blocks);
    assert_eq!(bench.recorded(), 4);
}

#[test]
fn an_unreadable_block_stops_a_read_but_not_a_space() {
    let mut bench = Bench::at(0);
    bench.image[32] = 7;
    bench.send(&counted(READ, 1, 1));
    assert_eq!(bench.triple(), [3, 0x11, 0]);
    assert_eq!((bench.position(), bench.residue()), (1, Some(1)));
    let mut bench = Bench::at(0);
    bench.image[32] = 7;
    assert_eq!(bench.send(&spaced(0, 1)).status, 0);
}

#[test]
fn space_to_the_end_and_past_it() {
    let mut bench = Bench::at(0);
    assert_eq!(bench.send(&spaced(3, -7)).status, 0);
    assert_eq!(bench.position(), 3);
    bench.send(&spaced(1, -0x80_0000));
    assert_eq!(bench.position(), 0);
    assert_eq!(bench.residue(), Some(0x7F_FFFF));
    bench.send(&spaced(1, 0x7F_FFFF));
    assert_eq!(bench.position(), 3);
    assert_eq!(bench.residue(), Some(0x7F_FFFE));
    assert_eq!(bench.triple(), [8, 0, 5]);
    for code in [2, 4, 5, 6, 7] {
        bench.send(&spaced(code, 0));
        assert_eq!(bench.triple(), [5, 0x24, 0]);
    }
}

#[test]
fn mode_pages() {
    let mut bench = Bench::at(0).protected();
    bench.image[21] = 0x42;
    let mut sense = short(MODE_SENSE, 255);
    assert_eq!(bench.send(&sense).bytes, 12);
    assert_eq!(
        bench.data[..12],
        [11, 0x42, 0x80, 0, 0, 0, 0, 0, 0, 0, 0, 0]
    );
    sense[2] = 0xEA;
    assert_eq!(bench.send(&sense).bytes, 32);
    assert_eq!(bench.data[0], 31);
    let page = [
        0x2A, 0x12, 0, 0, 0, 0, 9, 0, 1, 0xF4, 0, 0, 0, 64, 0, 250, 0, 128, 0, 0,
    ];
    assert_eq!(bench.data[12..32], page);
    sense[2] = 1;
    bench.send(&sense);
    assert_eq!(bench.triple(), [5, 0x24, 0]);
}

#[test]
fn mode_select_takes_the_five_speeds() {
    let mut bench = Bench::at(0);
    for speed in 0..=u16::MAX {
        bench.data[12] = 0x2A;
        bench.data[13] = 0x12;
        put_word(&mut bench.data, 26, speed);
        let told = bench.send(&short(MODE_SELECT, 32));
        let taken = SPEEDS.contains(&speed);
        assert_eq!((told.status == 0, told.bytes == 32), (taken, taken));
    }
    assert_eq!(word_at(&bench.record, 6), 500);
    assert_eq!(bench.triple(), [5, 0x26, 0]);
    bench.data[12] = 0xAA;
    put_word(&mut bench.data, 26, 62);
    bench.send(&short(MODE_SELECT, 32));
    assert_eq!(bench.triple(), [5, 0x26, 0]);
    assert_eq!(bench.send(&short(MODE_SELECT, 12)).bytes, 12);
    assert_eq!(bench.send(&short(MODE_SELECT, 0)).bytes, 0);
    bench.send(&short(MODE_SELECT, 31));
    assert_eq!(bench.triple(), [5, 0x1A, 0]);
}

#[test]
fn inquiry_says_who_it_is() {
    let mut bench = Bench::at(0).unloaded();
    assert_eq!(bench.send(&short(INQUIRY, 255)).bytes, 36);
    assert_eq!(
        &bench.data[..36],
        b"\x01\x80\x02\x02\x1F\0\0\0TYPEHAUSTAPE CARD       0100"
    );
    assert_eq!(bench.send(&short(INQUIRY, 5)).bytes, 5);
}

#[test]
fn sense_is_cleared_even_with_no_room_asked_for() {
    let mut bench = Bench::at(0);
    bench.send(&[0xFF; 12]);
    assert_eq!(bench.send(&short(REQUEST_SENSE, 0)).bytes, 0);
    assert_eq!(bench.triple(), [0, 0, 0]);
    bench.send(&[0xFF; 12]);
    assert_eq!(
        bench.send_with_room(&short(REQUEST_SENSE, 20), 19).number,
        4
    );
    assert_eq!(bench.triple(), [5, 0x20, 0]);
}

#[test]
fn unloading_makes_the_drive_not_ready() {
    let mut bench = Bench::at(2);
    assert_eq!(bench.send(&short(LOAD_UNLOAD, 4)).status, 0);
    assert_eq!((bench.position(), bench.record[4]), (0, 0));
    bench.send(&short(TEST_UNIT_READY, 0));
    assert_eq!(bench.triple(), [2, 0x3A, 0]);
    assert_eq!(bench.send(&short(LOAD_UNLOAD, 1)).status, 0);
    assert_eq!(bench.send(&short(TEST_UNIT_READY, 0)).status, 0);
}

#[test]
fn position_shows_beginning_and_early_warning() {
    let mut bench = Bench::at(0).with_warning(4);
    bench.send(&short(READ_POSITION, 0));
    assert_eq!(bench.data[0], 0x80);
    let mut bench = Bench::at(3).with_warning(2);
    bench.send(&short(READ_POSITION, 0));
    let mut expected = [0; 20];
    expected[0] = 0x40;
    expected[7] = 3;
    expected[11] = 3;
    assert_eq!(bench.data[..20], expected);
}

#[test]
fn locate_within_what_is_recorded() {
    let mut bench = Bench::at(0);
    assert_eq!(bench.send(&located(0xFD, 3)).status, 0);
    assert_eq!(bench.position(), 3);
    bench.send(&located(2, 0));
    assert_eq!(bench.triple(), [5, 0x24, 0]);
    bench.send(&located(0, u32::MAX));
    assert_eq!(bench.position(), 3);
}

#[test]
fn an_accepted_packet_writes_the_record_in_its_canonical_form() {
    let mut bench = Bench::at(1);
    bench.record[4] = 0xFF;
    bench.record[5] = 3;
    bench.record[11] = 0xFF;
    bench.send(&[0; 12]);
    assert_eq!(
        bench.record,
        [0, 0, 0, 1, 3, 0, 0, 250, 0, 0, 0, 0, 0, 0, 0, 0]
    );
}
