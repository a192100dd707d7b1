//! 02, A4: "only entries from the old position on are rewritten". No buffer shows whether a byte was stored again as it was, so the
//! entries before the position lie in a page that is closed for writing.

mod pages;

use compare::{Random, Shape};
use pages::{PAGE, Pages};
use tapecard::bytes::{kind, opcode, put_count, put_long, space};
use tapecard::raw;

/// Entries in a page.
const ENTRIES: usize = PAGE / 4;

/// A tape whose every `step`th element is a filemark, as many as two pages have entries.
fn tape(step: usize) -> Vec<u8> {
    let capacity = 2 * ENTRIES * step;
    let shape = Shape::plain(512, capacity as u32, capacity as u32);
    let mut image = shape.image(&mut Random::new(15));
    for (element, place) in image[32..][..capacity].iter_mut().zip(0..) {
        let filemark = place % step == 0;
        *element = if filemark { kind::FILEMARK } else { kind::DATA };
    }
    image
}

fn counted(opcode: u8, byte_1: u8, count: i32) -> [u8; 12] {
    let mut packet = [0; 12];
    packet[..2].copy_from_slice(&[opcode, byte_1]);
    put_count(&mut packet, 2, count as u32);
    packet
}

/// The entries of a page from this one on.
fn entries(first: usize, step: usize) -> Vec<u8> {
    let places = (first..first + ENTRIES).map(|entry| (entry * step) as u32);
    places.flat_map(u32::to_be_bytes).collect()
}

/// Sends the packet at the place before which the entries fill the first page: the second page afterwards.
fn second_page_after(packet: &[u8; 12], step: usize) -> Vec<u8> {
    let mut image = tape(step);
    let mut index = Pages::new(2 * step);
    let (mut record, mut answer) = ([0; 16], [0; 16]);
    put_long(&mut record, 0, (ENTRIES * step) as u32);
    record[4] = 1;
    raw::index_make(&image, index.bytes_mut(), &mut answer);
    assert_eq!(answer[0], 0);
    index.close_first(1);
    let mut data = [0x44; 3 * 512];
    raw::index_packet(
        &mut record,
        &mut image,
        index.bytes_mut(),
        packet,
        &mut data,
        &mut answer,
    );
    assert_eq!(answer[0], 0);
    assert_eq!(index.bytes_mut()[..PAGE], entries(0, step));
    index.bytes_mut()[PAGE..2 * PAGE].to_vec()
}

#[test]
fn entries_before_the_old_position_are_only_read() {
    for step in [1, 2] {
        let blank = vec![0xFF; PAGE];
        let untouched = entries(ENTRIES, step);
        let place = (ENTRIES * step) as u32;
        let marked = [place, place + 1, place + 2].map(u32::to_be_bytes).concat();
        let written = [&marked, &blank[marked.len()..]].concat();
        for (packet, expected) in [
            (counted(opcode::WRITE, 1, 1), &blank),
            (counted(opcode::WRITE, 1, 3), &blank),
            (counted(opcode::WRITE, 1, 0), &untouched),
            (counted(opcode::WRITE_FILEMARK, 0, 3), &written),
            (counted(opcode::READ, 1, 1), &untouched),
            (counted(opcode::SPACE, space::FILEMARKS, 7), &untouched),
            (counted(opcode::SPACE, space::FILEMARKS, -7), &untouched),
            (counted(opcode::REWIND, 0, 0), &untouched),
            (counted(opcode::LOAD_UNLOAD, 0, 0), &untouched),
        ] {
            assert_eq!(second_page_after(&packet, step), *expected);
        }
    }
}
