//! The floppy tape device's plates, each worked out by hand from the words of 02's A1 and of 01.

mod locked;
mod marked;

use super::*;
use crate::bytes::put_long;

const BLOCK: usize = 512;
const SENSE_OF_20: [u8; 12] = [0x03, 0, 0, 0, 20, 0, 0, 0, 0, 0, 0, 0];

/// Image C 4, B 512, W 0, kinds 1 7 1 2, U 4; the fresh record with its attention cleared.
struct Bench {
    record: [u8; 32],
    image: Vec<u8>,
    data: Vec<u8>,
}

/// What an answer tells.
#[derive(Debug, PartialEq, Eq)]
struct Told {
    number: u8,
    status: u8,
    blocks: u32,
    bytes: u32,
    marked: u32,
}

fn told(number: u8, status: u8, blocks: u32, bytes: u32) -> Told {
    Told {
        number,
        status,
        blocks,
        bytes,
        marked: 0,
    }
}

fn good_image() -> Vec<u8> {
    let mut image = vec![
        0, 32, 2, 0, 0, 0, 0, 4, 0, 0, 0, 4, 0, 0, 0, 32, 0, 0, 0, 36, 0, 0x42, 0, 0, 0, 0, 0, 0,
        0, 0, 0, 0, 1, 7, 1, 2,
    ];
    for element in 0..4 {
        image.extend([0xA0 + element; BLOCK]);
    }
    image
}

impl Bench {
    fn at(position: u8) -> Bench {
        let mut bench = Bench {
            record: [0xEE; 32],
            image: good_image(),
            data: vec![0x55; 8 * BLOCK],
        };
        assert_eq!(fresh(&mut bench.record, &bench.image), [0; 16]);
        bench.record[3] = position;
        bench.record[5] = 0;
        bench
    }

    /// BSEG, SEGTRK and TRKS.
    fn with_parameters(mut self, parameters: [u8; 5]) -> Bench {
        self.record[18] = parameters[0];
        self.record[20..24].copy_from_slice(&parameters[1..]);
        self
    }

    fn protected(mut self) -> Bench {
        self.image[20] = 1;
        self
    }

    fn unloaded(mut self) -> Bench {
        self.record[4] = 0;
        self
    }

    fn send(&mut self, packet: &[u8]) -> Told {
        let room = self.data.len();
        self.send_with_room(packet, room)
    }

    fn send_with_room(&mut self, packet: &[u8], room: usize) -> Told {
        let data = &mut self.data[..room];
        let answer = super::packet(&mut self.record, &mut self.image, packet, data);
        assert_eq!(answer[2..4], [0; 2]);
        Told {
            marked: long_at(&answer, 12),
            ..told(
                answer[0],
                answer[1],
                long_at(&answer, 4),
                long_at(&answer, 8),
            )
        }
    }

    /// A MODE SELECT list of 28 bytes with these in its page's places 5 to 9.
    fn select(&mut self, parameters: [u8; 5]) -> Told {
        self.data[..12].fill(0xFF);
        let page = [
            0x2B, 0x0E, 22, 0xFF, 0x6C, 0, 0, 0, 0, 0, 128, 255, 7, 0xFF, 0xFF, 0xBF,
        ];
        self.data[12..28].copy_from_slice(&page);
        self.data[17..22].copy_from_slice(&parameters);
        self.send(&short(0x15, 28))
    }

    fn position(&self) -> u32 {
        long_at(&self.record, 0)
    }

    /// Key, ASC and ASCQ.
    fn triple(&self) -> [u8; 3] {
        [self.record[8], self.record[9], self.record[10]]
    }

    fn sense_bytes(&mut self) -> Vec<u8> {
        assert_eq!(self.send(&SENSE_OF_20), told(0, 0, 0, 20));
        self.data[..20].to_vec()
    }
}

fn short(opcode: u8, byte_4: u8) -> [u8; 12] {
    [opcode, 0, 0, 0, byte_4, 0, 0, 0, 0, 0, 0, 0]
}

fn read(count: u8) -> [u8; 12] {
    [0x08, 1, 0, 0, count, 0, 0, 0, 0, 0, 0, 0]
}

fn write(count: u8) -> [u8; 12] {
    [0x0A, 1, 0, 0, count, 0, 0, 0, 0, 0, 0, 0]
}

fn locate(block: u32) -> [u8; 12] {
    let mut packet = [0x2B, 0, 0, 0, 0, 0, 0, 0, 0, 0, 0, 0];
    put_long(&mut packet, 3, block);
    packet
}

fn mode_sense(page: u8) -> [u8; 12] {
    [0x1A, 0, page, 0, 255, 0, 0, 0, 0, 0, 0, 0]
}

#[test]
fn a_fresh_record() {
    let mut record = [0xEE; 32];
    assert_eq!(fresh(&mut record, &good_image()), [0; 16]);
    let expected = [
        0, 0, 0, 0, 1, 2, 0, 250, 0, 0, 0, 0, 0, 0, 0, 0, 0, 0, 1, 0, 0, 4, 0, 1, 0, 0, 0, 0, 0, 0,
        0, 0,
    ];
    assert_eq!(record, expected);
}

/// 02, A2: "Callers that relied on 0 set it themselves by 15h, and MODE SENSE bytes 14-15 of a fresh drive follow."
#[test]
fn a_fresh_device_tells_250_until_a_list_sets_0() {
    let mut bench = Bench::at(0);
    assert_eq!(fresh(&mut bench.record, &bench.image), [0; 16]);
    assert_eq!(bench.send(&short(0x00, 0)).status, 2);
    bench.send(&mode_sense(0x2A));
    assert_eq!(bench.data[26..28], [0x00, 0xFA]);
    bench.data[26..28].fill(0);
    assert_eq!(bench.send(&short(0x15, 32)), told(0, 0, 0, 32));
    assert_eq!(change(&mut bench.record, &bench.image), [0; 16]);
    assert_eq!(bench.send(&short(0x00, 0)).status, 2);
    bench.data[26..28].fill(0x55);
    bench.send(&mode_sense(0x2A));
    assert_eq!(bench.data[26..28], [0x00, 0x00]);
}

#[test]
fn a_change_keeps_only_the_speed_and_the_lock() {
    for (before, after) in [(0xFF, 3), (0xFD, 1)] {
        let mut record = [0xFF; 32];
        record[4] = before;
        assert_eq!(change(&mut record, &good_image()), [0; 16]);
        let mut expected = [
            0, 0, 0, 0, 0, 1, 0xFF, 0xFF, 0, 0, 0, 0, 0, 0, 0, 0, 0, 0, 1, 0, 0, 4, 0, 1, 0, 0, 0,
            0, 0, 0, 0, 0,
        ];
        expected[4] = after;
        assert_eq!(record, expected);
    }
}

#[test]
fn fresh_change_and_packets_want_u_to_be_c() {
    let refused = [2, 0, 0, 0, 0, 0, 0, 0, 0, 0, 0, 0, 0, 0, 0, 0];
    for (at, value) in [(11, 3), (11, 5), (31, 1), (1, 31), (23, 5)] {
        let mut image = good_image();
        image[at] = value;
        let mut record = [0xEE; 32];
        assert_eq!(fresh(&mut record, &image), refused);
        assert_eq!(change(&mut record, &image), refused);
        assert_eq!(record, [0xEE; 32]);
        let mut bench = Bench::at(0);
        let before = bench.record;
        bench.image[at] = value;
        assert_eq!(bench.send(&short(0x00, 0)), told(2, 0, 0, 0));
        assert_eq!(bench.record, before);
    }
}

#[test]
fn plate_read_3_over_an_unreadable_block_is_one_short() {
    let mut bench = Bench::at(0);
    assert_eq!(bench.send(&read(3)), told(0, 2, 1, 512));
    assert_eq!(bench.position(), 2);
    assert_eq!(bench.data[..BLOCK], [0xA0; BLOCK]);
    assert_eq!(bench.data[BLOCK..], [0x55; 7 * BLOCK]);
    let sense = [
        0xF0, 0, 3, 0, 0, 0, 1, 0x0C, 0, 0, 0, 0, 0x11, 0, 0, 0, 0, 0, 0, 0,
    ];
    assert_eq!(bench.sense_bytes(), sense);
}

#[test]
fn plate_kind_2_is_read_as_unreadable() {
    let mut bench = Bench::at(2);
    assert_eq!(bench.send(&read(2)), told(0, 2, 1, 512));
    assert_eq!(bench.position(), 4);
    let sense = [
        0xF0, 0, 3, 0, 0, 0, 0, 0x0C, 0, 0, 0, 0, 0x11, 0, 0, 0, 0, 0, 0, 0,
    ];
    assert_eq!(bench.sense_bytes(), sense);
}

#[test]
fn plate_read_at_the_product_is_the_end_of_data() {
    let mut bench = Bench::at(0).with_parameters([1, 0, 1, 0, 1]);
    assert_eq!(bench.send(&read(2)), told(0, 2, 1, 512));
    assert_eq!(bench.position(), 1);
    let sense = [
        0xF0, 0, 8, 0, 0, 0, 1, 0x0C, 0, 0, 0, 0, 0, 5, 0, 0, 0, 0, 0, 0,
    ];
    assert_eq!(bench.sense_bytes(), sense);
}

/// "W plays no part" (02, A1): A3's EOM is the stream device's alone.
#[test]
fn plate_read_at_the_product_shows_no_eom_past_early_warning() {
    for (product, warning) in [(1, 1), (1, 4), (4, 1), (4, 4)] {
        let mut bench = Bench::at(product).with_parameters([1, 0, product, 0, 1]);
        bench.image[23] = warning;
        assert_eq!(bench.send(&read(2)), told(0, 2, 0, 0));
        assert_eq!(bench.position(), u32::from(product));
        let sense = [
            0xF0, 0, 8, 0, 0, 0, 2, 0x0C, 0, 0, 0, 0, 0, 5, 0, 0, 0, 0, 0, 0,
        ];
        assert_eq!(bench.sense_bytes(), sense);
    }
}

#[test]
fn plate_write_at_the_product_is_the_end_of_the_tape() {
    let mut bench = Bench::at(2).with_parameters([1, 0, 3, 0, 1]);
    assert_eq!(bench.send(&write(3)), told(0, 2, 1, 512));
    assert_eq!(bench.position(), 3);
    assert_eq!(bench.image[8..12], [0, 0, 0, 4]);
    assert_eq!(bench.image[32..36], [1, 7, 1, 2]);
    assert_eq!(bench.image[36 + 2 * BLOCK..36 + 3 * BLOCK], [0x55; BLOCK]);
    assert_eq!(bench.image[36 + 3 * BLOCK..], [0xA3; BLOCK]);
    let sense = [
        0xF0, 0, 0x4D, 0, 0, 0, 2, 0x0C, 0, 0, 0, 0, 0, 2, 0, 0, 0, 0, 0, 0,
    ];
    assert_eq!(bench.sense_bytes(), sense);
}

#[test]
fn plate_a_write_leaves_u_and_tells_no_early_warning() {
    let mut bench = Bench::at(1);
    bench.image[23] = 4;
    assert_eq!(bench.send(&write(1)), told(0, 0, 1, 512));
    assert_eq!(bench.position(), 2);
    assert_eq!(bench.image[8..12], [0, 0, 0, 4]);
    assert_eq!(bench.image[32..36], [1, 1, 1, 2]);
    assert_eq!(bench.sense_bytes()[..8], [0x70, 0, 0, 0, 0, 0, 0, 0x0C]);
}

#[test]
fn plate_locate_the_last_block_and_one_past_it() {
    let mut bench = Bench::at(1);
    assert_eq!(bench.send(&locate(3)), told(0, 0, 0, 0));
    assert_eq!(bench.position(), 3);
    for past in [4, 5, 0x100, u32::MAX] {
        assert_eq!(bench.send(&locate(past)), told(0, 2, 0, 0));
        assert_eq!(bench.triple(), [5, 0x24, 0]);
        assert_eq!((bench.record[11], bench.position()), (0, 3));
    }
    let mut with_every_other_bit = locate(2);
    with_every_other_bit[1..3].fill(0xFF);
    with_every_other_bit[7..].fill(0xFF);
    assert_eq!(bench.send(&with_every_other_bit), told(0, 0, 0, 0));
    assert_eq!(bench.position(), 2);
}

#[test]
fn plate_a_locate_past_the_last_block_is_told_before_not_ready() {
    let mut bench = Bench::at(1).unloaded();
    bench.send(&locate(4));
    assert_eq!(bench.triple(), [5, 0x24, 0]);
    bench.send(&locate(3));
    assert_eq!(bench.triple(), [2, 0x3A, 0]);
}

#[test]
fn plate_a_list_below_the_position_goes_to_0() {
    let mut bench = Bench::at(3);
    assert_eq!(bench.select([1, 0, 3, 0, 1]), told(0, 0, 0, 28));
    assert_eq!(bench.position(), 3);
    assert_eq!(bench.select([1, 0, 1, 0, 2]), told(0, 0, 0, 28));
    assert_eq!(bench.position(), 0);
    let parameters = [22, 0x6C, 1, 0xA0, 0, 1, 0, 2, 128, 255, 7, 0, 0, 0, 0, 0];
    assert_eq!(bench.record[16..], parameters);
}

#[test]
fn plate_a_list_above_the_capacity_is_wrong() {
    let mut bench = Bench::at(3);
    let parameters = bench.record[16..].to_vec();
    for above in [
        [1, 0, 5, 0, 1],
        [5, 0, 1, 0, 1],
        [1, 0, 1, 0, 5],
        [2, 0, 3, 0, 1],
        [4, 0x80, 0, 0x80, 0],
        [255, 0xFF, 0xFF, 0xFF, 0xFF],
    ] {
        assert_eq!(bench.select(above), told(0, 2, 0, 0));
        assert_eq!(bench.triple(), [5, 0x26, 0]);
        assert_eq!((bench.record[11], bench.position()), (0, 3));
        assert_eq!(bench.record[16..], parameters);
    }
    assert_eq!(bench.select([2, 0, 2, 0, 1]), told(0, 0, 0, 28));
    assert_eq!(bench.position(), 3);
}

#[test]
fn plate_the_parameters_page_of_a_fresh_record() {
    let mut bench = Bench::at(0);
    assert_eq!(bench.send(&mode_sense(0x2B)), told(0, 0, 0, 28));
    let page = [
        27, 0x42, 0, 0, 0, 0, 0, 0, 0, 0, 0, 0, 0x2B, 0x0E, 0, 0, 0, 1, 0, 4, 0, 1, 0, 0, 0, 0, 0,
        0,
    ];
    assert_eq!(bench.data[..28], page);
    assert_eq!(bench.data[28..], [0x55; 8 * BLOCK - 28]);
}

#[test]
fn plate_the_parameters_page_after_a_list() {
    let mut bench = Bench::at(0).protected();
    bench.select([2, 0, 1, 0, 2]);
    assert_eq!(bench.send(&mode_sense(0xEB)), told(0, 0, 0, 28));
    let page = [
        27, 0x42, 0x80, 0, 0, 0, 0, 0, 0, 0, 0, 0, 0x2B, 0x0E, 22, 0, 0x6C, 2, 0, 1, 0, 2, 128,
        255, 7, 0, 0, 0xA0,
    ];
    assert_eq!(bench.data[..28], page);
}

#[test]
fn plate_the_capabilities_page() {
    let mut bench = Bench::at(0);
    assert_eq!(bench.send(&mode_sense(0x2A)), told(0, 0, 0, 32));
    let page = [
        31, 0x42, 0, 0, 0, 0, 0, 0, 0, 0, 0, 0, 0x2A, 0x12, 0, 0, 2, 0, 9, 0, 1, 0xF4, 0, 0, 0, 1,
        0, 250, 0, 0x80, 0, 0,
    ];
    assert_eq!(bench.data[..32], page);
    bench.select([3, 0, 1, 0, 1]);
    bench.send(&mode_sense(0x2A));
    assert_eq!(bench.data[24..26], [0, 3]);
    assert_eq!(bench.send(&mode_sense(0x00)), told(0, 0, 0, 12));
    assert_eq!(bench.data[..12], [11, 0x42, 0, 0, 0, 0, 0, 0, 0, 0, 0, 0]);
    bench.send(&mode_sense(0x29));
    assert_eq!(bench.triple(), [5, 0x24, 0]);
}

#[test]
fn plate_inquiry() {
    let mut bench = Bench::at(0).unloaded();
    assert_eq!(bench.send(&short(0x12, 255)), told(0, 0, 0, 36));
    assert_eq!(
        &bench.data[..36],
        b"\x1F\x80\x02\x02\x1F\0\0\0TYPEHAUSTAPE CARD       0100"
    );
}

#[test]
fn plate_a_load_resets_and_an_unload_keeps_the_parameters() {
    let reset = [0, 0, 1, 0, 0, 4, 0, 1, 0, 0, 0, 0, 0, 0, 0, 0];
    let listed = [22, 0x6C, 1, 0xA0, 0, 2, 0, 1, 128, 255, 7, 0, 0, 0, 0, 0];
    for (byte_4, loaded, parameters) in [
        (0, 0, listed),
        (1, 1, reset),
        (2, 0, listed),
        (3, 1, reset),
        (4, 0, listed),
        (5, 1, reset),
        (0xFE, 0, listed),
        (0xFF, 1, reset),
    ] {
        let mut bench = Bench::at(1);
        bench.record[6..8].copy_from_slice(&[0, 62]);
        bench.select([1, 0, 2, 0, 1]);
        assert_eq!(bench.send(&short(0x1B, byte_4)), told(0, 0, 0, 0));
        assert_eq!((bench.position(), bench.record[4]), (0, loaded));
        assert_eq!(bench.record[6..8], [0, 62]);
        assert_eq!(bench.record[16..], parameters);
    }
}

#[test]
fn plate_opcodes_of_the_stream_device_are_unknown() {
    for opcode in [0x01, 0x11, 0x34, 0x19, 0x1F, 0xFF] {
        let mut bench = Bench::at(2);
        assert_eq!(bench.send(&short(opcode, 0)), told(0, 2, 0, 0));
        assert_eq!(bench.triple(), [5, 0x20, 0]);
        assert_eq!(bench.position(), 2);
    }
}

#[test]
fn plate_10h_stores_nothing_and_minds_protection() {
    let flush = [0x10, 0xFF, 0xFF, 0xFF, 0xFF, 0, 0, 0, 0, 0, 0, 0];
    let mut bench = Bench::at(2);
    assert_eq!(bench.send_with_room(&flush, 0), told(0, 0, 0, 0));
    assert_eq!((bench.position(), bench.triple()), (2, [0, 0, 0]));
    assert_eq!(bench.image, good_image());
    let mut bench = Bench::at(2).protected();
    assert_eq!(bench.send(&short(0x10, 0)), told(0, 2, 0, 0));
    assert_eq!(bench.triple(), [7, 0x27, 0]);
    let mut bench = Bench::at(2).protected().unloaded();
    bench.send(&flush);
    assert_eq!(bench.triple(), [2, 0x3A, 0]);
}

#[test]
fn plate_a_product_of_0() {
    let mut bench = Bench::at(0).with_parameters([1, 0xFF, 0xFF, 0, 0]);
    assert_eq!(bench.send(&read(1)), told(0, 2, 0, 0));
    assert_eq!(bench.triple(), [8, 0, 5]);
    assert_eq!(bench.record[11..16], [1, 0, 0, 0, 1]);
    assert_eq!(bench.send(&locate(0)), told(0, 2, 0, 0));
    assert_eq!(bench.triple(), [5, 0x24, 0]);
    assert_eq!(bench.send(&write(1)), told(0, 2, 0, 0));
    assert_eq!(bench.triple(), [0xD, 0, 2]);
    assert_eq!(bench.record[11..16], [3, 0, 0, 0, 1]);
    assert_eq!(bench.send(&read(0)), told(0, 0, 0, 0));
}

#[test]
fn plate_a_record_with_a_product_beyond_32_bits_is_refused() {
    for parameters in [
        [255, 0xFF, 0xFF, 0xFF, 0xFF],
        [4, 0x80, 0, 0x80, 0],
        [1, 1, 0, 1, 0],
        [1, 0, 5, 0, 1],
    ] {
        let mut bench = Bench::at(0).with_parameters(parameters);
        let before = bench.record;
        for packet in [SENSE_OF_20, short(0x12, 36), short(0x1B, 1), read(1)] {
            assert_eq!(bench.send(&packet), told(3, 0, 0, 0));
            assert_eq!(bench.record, before);
        }
        assert_eq!(change(&mut bench.record, &bench.image), [0; 16]);
        assert_eq!(bench.send(&SENSE_OF_20).number, 0);
    }
}

#[test]
fn a_position_above_the_product_is_refused() {
    for (position, number) in [(0, 0), (2, 0), (3, 3), (4, 3), (255, 3)] {
        let mut bench = Bench::at(position).with_parameters([2, 0, 1, 0, 1]);
        assert_eq!(bench.send(&SENSE_OF_20).number, number);
    }
    let mut bench = Bench::at(0);
    bench.record[7] = 1;
    assert_eq!(bench.send(&SENSE_OF_20).number, 3);
    let mut bench = Bench::at(0);
    bench.record[8] = 16;
    assert_eq!(bench.send(&SENSE_OF_20).number, 3);
}

#[test]
fn a_count_is_one_byte() {
    let mut bench = Bench::at(0);
    let mut packet = read(1);
    packet[1..4].fill(0xFF);
    assert_eq!(bench.send_with_room(&packet, 512), told(0, 0, 1, 512));
    packet[4] = 0;
    assert_eq!(bench.send_with_room(&packet, 0), told(0, 0, 0, 0));
    packet[0] = 0x0A;
    assert_eq!(bench.send_with_room(&packet, 0), told(0, 0, 0, 0));
    for opcode in [0x08, 0x0A] {
        packet[0] = opcode;
        packet[1] = 0xFE;
        bench.send(&packet);
        assert_eq!(bench.triple(), [5, 0x24, 0]);
    }
}

#[test]
fn a_short_buffer_is_refused_after_not_ready_and_protection() {
    let mut list = short(0x15, 28);
    for (packet, need) in [(read(2), 1024), (write(2), 1024), (list, 28)] {
        let mut bench = Bench::at(2);
        let before = (bench.record, bench.image.clone());
        assert_eq!(bench.send_with_room(&packet, need - 1), told(4, 0, 0, 0));
        assert_eq!((bench.record, bench.image), before);
        assert_eq!(Bench::at(2).send_with_room(&packet, need).number, 0);
    }
    list[4] = 32;
    assert_eq!(Bench::at(2).send_with_room(&list, 31).number, 4);
    let mut bench = Bench::at(0).protected();
    assert_eq!(bench.send_with_room(&write(2), 0), told(0, 2, 0, 0));
    assert_eq!(bench.triple(), [7, 0x27, 0]);
    let mut bench = Bench::at(0).unloaded();
    assert_eq!(bench.send_with_room(&read(2), 0), told(0, 2, 0, 0));
    assert_eq!(bench.triple(), [2, 0x3A, 0]);
}

#[test]
fn lists_of_every_length() {
    for length in 0..=255 {
        let mut bench = Bench::at(3).unloaded();
        bench.data[12..14].copy_from_slice(&[0x2A, 0x12]);
        bench.data[26..28].copy_from_slice(&[0, 125]);
        let answer = bench.send(&short(0x15, length));
        match length {
            0 | 12 | 32 => assert_eq!(answer, told(0, 0, 0, u32::from(length))),
            28 => assert_eq!(bench.triple(), [5, 0x26, 0]),
            _ => assert_eq!(bench.triple(), [5, 0x1A, 0]),
        }
        let speed = if length == 32 { 125 } else { 250 };
        assert_eq!((bench.record[7], bench.position()), (speed, 3));
    }
}

#[test]
fn a_page_has_its_own_code_and_length_exactly() {
    for (code, length) in [(0xAB, 0x0E), (0x6B, 0x0E), (0x2A, 0x12), (0x2B, 0x0F)] {
        let mut bench = Bench::at(3);
        bench.data[12..28].fill(0);
        bench.data[12] = code;
        bench.data[13] = length;
        assert_eq!(bench.send(&short(0x15, 28)), told(0, 2, 0, 0));
        assert_eq!((bench.triple(), bench.position()), ([5, 0x26, 0], 3));
    }
}

#[test]
fn attention_comes_before_the_opcode_and_after_the_refusals() {
    let mut bench = Bench::at(0);
    bench.record[5] = 2;
    assert_eq!(bench.send(&[0; 11]).number, 1);
    assert_eq!(bench.send(&short(0x12, 36)).bytes, 36);
    assert_eq!(bench.sense_bytes()[2], 0);
    assert_eq!(bench.send(&locate(9)), told(0, 2, 0, 0));
    assert_eq!(bench.triple(), [6, 0x29, 0]);
    bench.send(&locate(9));
    assert_eq!(bench.triple(), [5, 0x24, 0]);
    change(&mut bench.record, &bench.image);
    bench.send(&short(0x34, 0));
    assert_eq!(bench.triple(), [6, 0x28, 0]);
}

#[test]
fn an_accepted_packet_writes_the_record_in_its_canonical_form() {
    let mut bench = Bench::at(1);
    bench.record[4] = 0xFF;
    bench.record[5] = 3;
    bench.record[11] = 0xFF;
    bench.record[19] = 0xFF;
    bench.record[27..].fill(0xFF);
    assert_eq!(bench.send(&[0; 12]), told(0, 0, 0, 0));
    let expected = [
        0, 0, 0, 1, 3, 0, 0, 250, 0, 0, 0, 0, 0, 0, 0, 0, 0, 0, 1, 0xE0, 0, 4, 0, 1, 0, 0, 0, 0, 0,
        0, 0, 0,
    ];
    assert_eq!(bench.record, expected);
}
