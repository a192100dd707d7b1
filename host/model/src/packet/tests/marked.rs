//! Marked blocks on the stream device, each case worked out by hand from the words of 02's A6.

use super::*;

impl Bench {
    /// With these kinds, the last ones above U where it is below 4.
    fn with_kinds(mut self, kinds: [u8; 4], recorded: u32) -> Bench {
        self.image[32..36].copy_from_slice(&kinds);
        self.with_recorded(recorded)
    }

    fn kinds(&self) -> &[u8] {
        &self.image[32..36]
    }

    /// A READ of so many blocks, with room for them: status, blocks and how many of these were marked.
    fn read(&mut self, count: u32) -> (u8, u32, u32) {
        let told = self.send_with_room(&counted(READ, 1, count), 8 * BLOCK);
        assert_eq!(told.number, 0);
        assert_eq!(told.bytes, told.blocks * 512);
        (told.status, told.blocks, told.marked)
    }
}

/// "READ copies it as data .. and a READ's answer also says how many of the blocks copied were marked."
#[test]
fn a_read_copies_marked_blocks_and_counts_them() {
    let mut bench = Bench::at(0).with_kinds([4, 1, 4, 0], 3);
    assert_eq!(bench.read(3), (0, 3, 2));
    assert_eq!((bench.position(), bench.triple()), (3, [0, 0, 0]));
    let copied = [[0xA0; BLOCK], [0xA1; BLOCK], [0xA2; BLOCK]].concat();
    assert_eq!(bench.data[..3 * BLOCK], copied);
    assert_eq!(bench.data[3 * BLOCK..], [0x55; 5 * BLOCK]);
}

#[test]
fn a_read_of_plain_blocks_or_of_none_counts_none() {
    let mut bench = Bench::at(1).with_kinds([4, 1, 1, 4], 4);
    assert_eq!(bench.read(2), (0, 2, 0));
    assert_eq!(bench.read(0), (0, 0, 0));
}

/// Two are copied before the filemark; the marked block behind it is not.
#[test]
fn a_read_that_stops_at_a_filemark_counts_those_before_it() {
    let mut bench = Bench::at(0).with_kinds([4, 4, 2, 4], 4);
    assert_eq!(bench.read(4), (2, 2, 2));
    assert_eq!((bench.position(), bench.residue()), (3, Some(2)));
    assert_eq!(bench.triple(), [0, 0, 1]);
    let mut bench = Bench::at(2).with_kinds([4, 4, 2, 4], 4);
    assert_eq!(bench.read(2), (2, 0, 0));
}

#[test]
fn a_read_that_stops_at_an_unreadable_block_counts_those_before_it() {
    for unreadable in [0, 3, 5, 255] {
        let mut bench = Bench::at(0).with_kinds([4, 1, unreadable, 4], 4);
        assert_eq!(bench.read(3), (2, 2, 1));
        assert_eq!((bench.position(), bench.residue()), (3, Some(1)));
        assert_eq!(bench.triple(), [3, 0x11, 0]);
    }
}

/// "Kinds at U and above mean nothing" (01), 4 too; nor does the one before the READ count.
#[test]
fn a_read_that_meets_the_end_of_data_counts_those_before_it() {
    let mut bench = Bench::at(1).with_kinds([4, 1, 4, 4], 3);
    assert_eq!(bench.read(4), (2, 2, 1));
    assert_eq!((bench.position(), bench.residue()), (3, Some(2)));
    assert_eq!(bench.triple(), [8, 0, 5]);
    assert_eq!(bench.read(1), (2, 0, 0));
}

/// The record of a READ over marked blocks is that of one over plain blocks.
#[test]
fn a_mark_is_told_in_the_answer_alone() {
    for count in 0..=4 {
        let mut marked = Bench::at(0).with_kinds([4, 4, 4, 4], 3);
        let mut plain = Bench::at(0).with_kinds([1, 1, 1, 1], 3);
        marked.read(count);
        plain.read(count);
        assert_eq!(marked.record, plain.record);
        assert_eq!(marked.data, plain.data);
        assert_eq!(marked.kinds(), [4, 4, 4, 4]);
    }
}

/// "SPACE counts it as a block".
#[test]
fn space_passes_marked_blocks_as_blocks() {
    let kinds = [4, 4, 2, 4];
    for (from, packet, status, place, residue) in [
        (0, spaced(SPACE_BLOCKS, 2), 0, 2, None),
        (0, spaced(SPACE_BLOCKS, 3), 2, 3, Some(1)),
        (3, spaced(SPACE_BLOCKS, 1), 0, 4, None),
        (3, spaced(SPACE_BLOCKS, 2), 2, 4, Some(1)),
        (2, spaced(SPACE_BLOCKS, -2), 0, 0, None),
        (4, spaced(SPACE_BLOCKS, -2), 2, 2, Some(1)),
        (0, spaced(SPACE_FILEMARKS, 1), 0, 3, None),
        (0, spaced(SPACE_FILEMARKS, 2), 2, 4, Some(1)),
        (4, spaced(SPACE_FILEMARKS, -1), 0, 2, None),
        (4, spaced(SPACE_FILEMARKS, -2), 2, 0, Some(1)),
    ] {
        let mut bench = Bench::at(from).with_kinds(kinds, 4);
        assert_eq!(bench.send(&packet).status, status, "from {from}");
        assert_eq!((bench.position(), bench.residue()), (place, residue));
    }
}

/// "WRITE still stores kind 1."
#[test]
fn a_write_over_a_marked_block_stores_a_plain_one() {
    let mut bench = Bench::at(1).with_kinds([4, 4, 4, 4], 4);
    let told = bench.send(&counted(WRITE, 1, 2));
    assert_eq!((told.status, told.blocks, told.bytes), (0, 2, 1024));
    assert_eq!(bench.kinds(), [4, 1, 1, 4]);
    assert_eq!(bench.recorded(), 3);
    assert_eq!(bench.send(&short(REWIND, 0)).status, 0);
    assert_eq!(bench.read(3), (0, 3, 1));
}

#[test]
fn a_filemark_over_a_marked_block_is_a_filemark() {
    let mut bench = Bench::at(0).with_kinds([4, 4, 4, 4], 4);
    let blocks = bench.image[36..].to_vec();
    assert_eq!(bench.send(&counted(WRITE_FILEMARK, 0, 1)).blocks, 1);
    assert_eq!(bench.kinds(), [2, 4, 4, 4]);
    assert_eq!((bench.recorded(), &bench.image[36..]), (1, &blocks[..]));
}

/// The count is the last READ's own: no packet behind it tells it again.
#[test]
fn no_other_packet_tells_of_marked_blocks() {
    let mut sense = short(MODE_SENSE, 32);
    sense[2] = 0x2A;
    for other in [
        short(TEST_UNIT_READY, 0),
        short(REWIND, 0),
        short(REQUEST_SENSE, 20),
        counted(WRITE, 1, 1),
        counted(WRITE_FILEMARK, 0, 1),
        spaced(SPACE_BLOCKS, 2),
        spaced(SPACE_FILEMARKS, 1),
        spaced(SPACE_TO_END, 0),
        short(INQUIRY, 36),
        short(MODE_SELECT, 12),
        sense,
        short(LOAD_UNLOAD, 1),
        located(0, 0),
        short(READ_POSITION, 0),
        short(0xFF, 0),
        counted(READ, 0, 1),
    ] {
        let mut bench = Bench::at(0).with_kinds([4, 4, 4, 4], 4);
        assert_eq!(bench.read(1), (0, 1, 1));
        assert_eq!(bench.send(&other).number, 0, "{:02X}h", other[0]);
    }
}

/// "Refusals: none new.", and a refusal tells of no block.
#[test]
fn a_refused_read_tells_of_none() {
    let read = counted(READ, 1, 2);
    let refused = |number: u8| {
        let mut answer = [0; 16];
        answer[0] = number;
        answer
    };
    let mut bench = Bench::at(0).with_kinds([4, 4, 4, 4], 4);
    let mut ask = |packet_length: usize, position: u32, room: usize| {
        put_long(&mut bench.record, 0, position);
        let bytes = &read[..packet_length];
        packet(
            &mut bench.record,
            &mut bench.image,
            bytes,
            &mut bench.data[..room],
        )
    };
    assert_eq!(ask(11, 0, 1024), refused(1));
    assert_eq!(ask(12, 5, 1024), refused(3));
    assert_eq!(ask(12, 0, 1023), refused(4));
}
