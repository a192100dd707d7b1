//! The filemark index, each case worked out by hand from the words of 02's A4.

use super::*;
use crate::bytes::{long_at, put_long, put_word};
use crate::commands::*;

const BLOCK: usize = 512;
const C: usize = 6;
const LENGTH: usize = 4 * C;
const BEYOND: [u8; 5] = [0xEE; 5];
const SPACE_FILEMARKS: u8 = 1;

/// C 6, B 512, W 0, U 5: a block, a filemark, a block, two filemarks; above U what would be a filemark.
const KINDS: [u8; C] = [1, 2, 1, 2, 2, 2];

/// The index of these places with five bytes beyond.
fn index_of(places: &[u32]) -> Vec<u8> {
    let mut index = vec![0xFF; LENGTH];
    for (slot, &place) in places.iter().enumerate() {
        index[4 * slot..4 * slot + 4].copy_from_slice(&[0, 0, 0, place as u8]);
    }
    index.extend(BEYOND);
    index
}

fn tape(kinds: [u8; C], recorded: u32) -> Vec<u8> {
    let mut image = vec![0x77; 32 + C + C * BLOCK];
    image[..32].fill(0);
    put_word(&mut image, 0, 32);
    put_word(&mut image, 2, BLOCK as u16);
    put_long(&mut image, 4, C as u32);
    put_long(&mut image, 8, recorded);
    put_long(&mut image, 12, 32);
    put_long(&mut image, 16, 32 + C as u32);
    image[32..32 + C].copy_from_slice(&kinds);
    image
}

struct Bench {
    record: [u8; 16],
    image: Vec<u8>,
    index: Vec<u8>,
    data: Vec<u8>,
}

impl Bench {
    /// A loaded drive without attention at this place, and the right index.
    fn at(place: u32) -> Bench {
        let mut record = [0; 16];
        crate::packet::fresh(&mut record);
        record[5] = 0;
        put_long(&mut record, 0, place);
        Bench {
            record,
            image: tape(KINDS, 5),
            index: index_of(&[1, 3, 4]),
            data: vec![0x55; 3 * BLOCK],
        }
    }

    /// Sends the packet: number, status and blocks.
    fn send(&mut self, sent: &[u8]) -> (u8, u8, u32) {
        let Bench {
            record,
            image,
            index,
            data,
        } = self;
        let answer = packet(record, image, index, sent, data);
        (answer[0], answer[1], long_at(&answer, 4))
    }

    /// Sends the packet, which is refused with this number and changes nothing.
    fn is_refused(&mut self, sent: &[u8], number: u8) {
        let before = (self.record, self.image.clone(), self.index.clone());
        assert_eq!(self.send(sent), (number, 0, 0));
        let after = (self.record, self.image.clone(), self.index.clone());
        assert!(after == before, "nothing is altered");
        assert!(self.data.iter().all(|&byte| byte == 0x55));
    }

    /// The place, key, ASCQ, flags (1 valid, 2 EOM, 4 filemark) and information.
    fn told(&self) -> (u32, u8, u8, u8, u32) {
        let record = &self.record;
        (
            long_at(record, 0),
            record[8],
            record[10],
            record[11],
            long_at(record, 12),
        )
    }
}

/// A count in bytes 2-4, negative ones in two's complement.
fn counted(opcode: u8, byte_1: u8, count: i32) -> [u8; 12] {
    let [_, high, middle, low] = count.to_be_bytes();
    [opcode, byte_1, high, middle, low, 0, 0, 0, 0, 0, 0, 0]
}

#[test]
fn plate_an_index_of_three_filemarks() {
    let mut index = vec![0x99; LENGTH + 2];
    let answer = make(&tape(KINDS, 5), &mut index);
    assert_eq!(answer, [0, 0, 0, 0, 0, 0, 0, 3, 0, 0, 0, 24, 0, 0, 0, 0]);
    assert_eq!(index[..12], [0, 0, 0, 1, 0, 0, 0, 3, 0, 0, 0, 4]);
    assert_eq!(index[12..24], [0xFF; 12]);
    assert_eq!(index[24..], [0x99; 2]);
}

/// "Below U, .. 2 a filemark": no other kind, and none at U and above.
#[test]
fn filemarks_below_the_end_of_data_alone() {
    for (kinds, recorded, expected) in [
        ([2; C], 0, &[][..]),
        ([2; C], 1, &[0]),
        ([2; C], 6, &[0, 1, 2, 3, 4, 5]),
        ([1; C], 6, &[]),
        ([0, 1, 3, 4, 5, 255], 6, &[]),
        ([2, 4, 4, 4, 4, 2], 6, &[0, 5]),
        ([2, 4, 4, 4, 4, 2], 5, &[0]),
    ] {
        let mut index = index_of(&[]);
        let answer = make(&tape(kinds, recorded), &mut index);
        assert_eq!(index, index_of(expected));
        assert_eq!(long_at(&answer, 4) as usize, expected.len());
    }
}

/// "four bytes for each": a place that needs two of them.
#[test]
fn places_are_big_endian() {
    let capacity = 300;
    let mut image = vec![1; 32 + capacity + capacity * BLOCK];
    image[..32].copy_from_slice(&tape(KINDS, 5)[..32]);
    put_long(&mut image, 4, capacity as u32);
    put_long(&mut image, 8, capacity as u32);
    put_long(&mut image, 16, 32 + capacity as u32);
    image[32 + 258] = 2;
    let mut index = vec![0; 4 * capacity];
    let answer = make(&image, &mut index);
    assert_eq!(answer[4..12], [0, 0, 0, 1, 0, 0, 0x04, 0xB0]);
    assert_eq!(index[..8], [0, 0, 1, 2, 0xFF, 0xFF, 0xFF, 0xFF]);
}

/// "9, index buffer shorter than four times the capacity", after 2; refused, the index stays.
#[test]
fn refusals_of_make() {
    let mut damaged = tape(KINDS, 5);
    damaged[31] = 1;
    for (image, length, number) in [
        (&damaged, LENGTH, 2),
        (&damaged, 0, 2),
        (&tape(KINDS, 5), 0, 9),
        (&tape(KINDS, 5), LENGTH - 1, 9),
    ] {
        let mut index = vec![0x99; length];
        let mut expected = [0; 16];
        expected[0] = number;
        assert_eq!(make(image, &mut index), expected);
        assert_eq!(index, vec![0x99; length]);
    }
    assert_eq!(make(&tape(KINDS, 5), &mut [0; LENGTH])[0], 0);
}

/// "10, index differs from a fresh one": in any of its bytes, for every packet, known or not; bytes beyond are no part of it.
#[test]
fn every_byte_of_the_index_counts() {
    for opcode in 0..=255 {
        let packet = counted(opcode, 1, 0);
        for at in 0..LENGTH {
            let mut bench = Bench::at(2);
            bench.index[at] ^= 1;
            bench.is_refused(&packet, 10);
        }
        let mut bench = Bench::at(2);
        bench.index[LENGTH] = 0;
        assert_eq!(bench.send(&packet).0, 0);
        assert_eq!(bench.index[LENGTH..], [0, 0xEE, 0xEE, 0xEE, 0xEE]);
        bench.index.truncate(LENGTH);
        assert_eq!(bench.send(&packet).0, 0);
        bench.index.truncate(LENGTH - 1);
        bench.data.fill(0x55);
        bench.is_refused(&packet, 9);
    }
}

/// An index of another tape: one filemark too few, one too many, in another order, or none at all.
#[test]
fn an_index_of_another_tape_is_refused() {
    for places in [
        &[1, 3][..],
        &[1, 3, 4, 5],
        &[3, 4],
        &[1, 4, 3],
        &[],
        &[1, 1, 3, 4],
    ] {
        let mut bench = Bench::at(0);
        bench.index = index_of(places);
        bench.is_refused(&counted(REQUEST_SENSE, 0, 20), 10);
        bench.is_refused(&counted(INQUIRY, 0, 36), 10);
        bench.is_refused(&counted(WRITE_FILEMARK, 0, 1), 10);
    }
}

/// "in that order after 3", and before all else: attention, opcode, fields, not ready, protection, 4.
#[test]
fn the_order_of_the_numbers() {
    let mut bench = Bench::at(2);
    bench.image[20] = 1;
    bench.record[4] = 0;
    bench.record[5] = 2;
    bench.data.clear();
    let good = (bench.image.clone(), bench.record);
    bench.index = vec![0; LENGTH - 1];
    bench.image[31] = 1;
    bench.record[8] = 16;
    let write = counted(WRITE, 0, 3);
    bench.is_refused(&write[..11], 1);
    bench.is_refused(&write, 2);
    bench.image = good.0;
    bench.is_refused(&write[..11], 1);
    bench.is_refused(&write, 3);
    bench.record = good.1;
    bench.is_refused(&write, 9);
    bench.index.push(0);
    bench.is_refused(&write, 10);
    bench.is_refused(&counted(0xEE, 0, 0), 10);
    bench.index = index_of(&[1, 3, 4]);
    assert_eq!(bench.send(&write), (0, 2, 0));
    assert_eq!(bench.record[8..11], [6, 0x29, 0]);
    bench.image[20] = 0;
    bench.record[4] = 1;
    bench.is_refused(&counted(WRITE, 1, 3), 4);
    bench.index[0] = 1;
    bench.is_refused(&counted(WRITE, 1, 3), 10);
}

/// "After every packet not refused it equals the index made afresh from the image".
#[test]
fn what_is_written_is_indexed() {
    for (place, opcode, count, recorded, places) in [
        (0, WRITE, 1, 1, &[][..]),
        (1, WRITE, 1, 2, &[]),
        (2, WRITE, 1, 3, &[1]),
        (2, WRITE, 2, 4, &[1]),
        (4, WRITE, 1, 5, &[1, 3]),
        (5, WRITE, 1, 6, &[1, 3, 4]),
        (5, WRITE, 3, 6, &[1, 3, 4]),
        (4, WRITE, 3, 6, &[1, 3]),
        (2, WRITE, 0, 5, &[1, 3, 4]),
        (0, WRITE_FILEMARK, 1, 1, &[0]),
        (1, WRITE_FILEMARK, 1, 2, &[1]),
        (2, WRITE_FILEMARK, 1, 3, &[1, 2]),
        (2, WRITE_FILEMARK, 3, 5, &[1, 2, 3, 4]),
        (3, WRITE_FILEMARK, 9, 6, &[1, 3, 4, 5]),
        (5, WRITE_FILEMARK, 1, 6, &[1, 3, 4, 5]),
        (0, WRITE_FILEMARK, 6, 6, &[0, 1, 2, 3, 4, 5]),
        (0, WRITE_FILEMARK, 0, 5, &[1, 3, 4]),
    ] {
        let mut bench = Bench::at(place);
        assert_eq!(bench.send(&counted(opcode, 1, count)).0, 0);
        assert_eq!(long_at(&bench.image, 8), recorded);
        let context = format!("{opcode:02X}h of {count} at {place}");
        assert_eq!(bench.index, index_of(places), "{context}");
    }
}

/// Where every element is a filemark, each has its entry and there is no rest.
#[test]
fn a_full_index_has_no_rest() {
    let mut bench = Bench::at(6);
    bench.image = tape([2; C], 6);
    bench.index = index_of(&[0, 1, 2, 3, 4, 5]);
    assert_eq!(bench.send(&counted(WRITE_FILEMARK, 0, 1)), (0, 2, 0));
    assert_eq!(bench.index, index_of(&[0, 1, 2, 3, 4, 5]));
    assert_eq!(bench.send(&counted(SPACE, SPACE_FILEMARKS, -6)), (0, 0, 0));
    assert_eq!(bench.told(), (0, 0, 0, 0, 0));
}

/// Early warning tells of a store that was made.
#[test]
fn what_is_written_past_early_warning_is_indexed() {
    let mut bench = Bench::at(2);
    bench.image[23] = 6;
    assert_eq!(bench.send(&counted(WRITE_FILEMARK, 0, 1)), (0, 2, 1));
    assert_eq!(bench.told(), (3, 0, 2, 3, 0));
    assert_eq!(bench.index, index_of(&[1, 2]));
}

/// What writes nothing leaves the index: protection, no room, an attention, an unload, a READ over filemarks.
#[test]
fn what_is_not_written_is_not_indexed() {
    let mut bench = Bench::at(2);
    bench.image[20] = 1;
    assert_eq!(bench.send(&counted(WRITE_FILEMARK, 0, 1)), (0, 2, 0));
    assert_eq!(bench.send(&counted(WRITE, 1, 1)), (0, 2, 0));
    bench.image[20] = 0;
    bench.record[5] = 1;
    assert_eq!(bench.send(&counted(WRITE_FILEMARK, 0, 1)), (0, 2, 0));
    bench.is_refused(&counted(WRITE, 1, 4), 4);
    assert_eq!(bench.send(&counted(READ, 1, 3)), (0, 2, 1));
    assert_eq!(bench.told(), (4, 0, 1, 5, 2));
    assert_eq!(bench.send(&counted(LOAD_UNLOAD, 0, 0)), (0, 0, 0));
    assert_eq!(bench.index, index_of(&[1, 3, 4]));
}

/// "SPACE over filemarks through the index gives the same answer, sense and position as without it."
#[test]
fn spacing_over_filemarks() {
    let good = |place| (place, 0, 0, 0, 0);
    let end = |residue| (5, 8, 5, 1, residue);
    let beginning = |residue| (0, 0, 4, 3, residue);
    for (place, count, told) in [
        (0, 1, good(2)),
        (0, 2, good(4)),
        (0, 3, good(5)),
        (0, 4, end(1)),
        (1, 1, good(2)),
        (2, 1, good(4)),
        (3, 1, good(4)),
        (4, 1, good(5)),
        (5, 1, end(1)),
        (3, 0, good(3)),
        (5, -1, good(4)),
        (4, -1, good(3)),
        (3, -1, good(1)),
        (2, -1, good(1)),
        (1, -1, beginning(1)),
        (5, -3, good(1)),
        (5, -5, beginning(2)),
        (0, -1, beginning(1)),
        (5, 8_388_607, end(8_388_607)),
        (5, -8_388_608, beginning(8_388_605)),
    ] {
        let mut bench = Bench::at(place);
        let status = if told.3 == 0 { 0 } else { 2 };
        assert_eq!(
            bench.send(&counted(SPACE, SPACE_FILEMARKS, count)),
            (0, status, 0)
        );
        assert_eq!(bench.told(), told, "{count} from {place}");
        assert_eq!(bench.index, index_of(&[1, 3, 4]));
    }
}

/// The end of data is U, not the last filemark; the beginning is 0, not the first.
#[test]
fn spacing_past_both_ends() {
    let mut bench = Bench::at(0);
    bench.image = tape([1, 2, 1, 1, 1, 1], 5);
    bench.index = index_of(&[1]);
    bench.send(&counted(SPACE, SPACE_FILEMARKS, 2));
    assert_eq!(bench.told(), (5, 8, 5, 1, 1));
    bench.send(&counted(SPACE, SPACE_FILEMARKS, -3));
    assert_eq!(bench.told(), (0, 0, 4, 3, 2));
}

/// "A pending attention ends any packet but 03h and 12h", "Not loaded 2/3A/00" (01): SPACE too.
#[test]
fn spacing_that_is_not_begun() {
    for (at, value, key) in [(5, 1, 6), (5, 2, 6), (4, 0, 2)] {
        let mut bench = Bench::at(5);
        bench.record[at] = value;
        assert_eq!(bench.send(&counted(SPACE, SPACE_FILEMARKS, -1)), (0, 2, 0));
        assert_eq!(bench.told(), (5, key, 0, 0, 0));
    }
}

/// 02, A3: EOM "when U > C - W", through the index too; U is 5 and C 6.
#[test]
fn the_end_of_data_past_early_warning() {
    for (warning, flags) in [(0, 1), (1, 1), (2, 3), (6, 3)] {
        let mut bench = Bench::at(3);
        bench.image[23] = warning;
        bench.send(&counted(SPACE, SPACE_FILEMARKS, 3));
        assert_eq!(bench.told(), (5, 8, 5, flags, 1));
    }
}
