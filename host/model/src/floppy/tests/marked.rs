//! Marked blocks on the floppy tape device, each case worked out by hand from the words of 02's A6.

use super::*;

impl Bench {
    fn with_kinds(mut self, kinds: [u8; 4]) -> Bench {
        self.image[32..36].copy_from_slice(&kinds);
        self
    }

    fn kinds(&self) -> &[u8] {
        &self.image[32..36]
    }
}

/// A READ that copied so many blocks, so many of them marked.
fn copied(status: u8, blocks: u32, marked: u32) -> Told {
    Told {
        marked,
        ..told(0, status, blocks, 512 * blocks)
    }
}

/// "READ copies it as data .. and a READ's answer also says how many of the blocks copied were marked."
#[test]
fn a_read_copies_marked_blocks_and_counts_them() {
    let mut bench = Bench::at(0).with_kinds([4, 1, 4, 4]);
    assert_eq!(bench.send(&read(4)), copied(0, 4, 3));
    assert_eq!((bench.position(), bench.triple()), (4, [0, 0, 0]));
    assert_eq!(bench.data[..4 * BLOCK], bench.image[36..]);
    let mut bench = Bench::at(1).with_kinds([4, 1, 4, 4]);
    assert_eq!(bench.send(&read(2)), copied(0, 2, 1));
    assert_eq!(bench.send(&read(0)), copied(0, 0, 0));
}

/// "kind 2 counts as unreadable. Its residue on an unreadable block leaves out the block in error" (02, A1).
#[test]
fn a_read_that_stops_at_an_unreadable_block_counts_those_before_it() {
    for unreadable in [0, 2, 3, 5, 255] {
        let mut bench = Bench::at(0).with_kinds([4, unreadable, 4, 4]);
        assert_eq!(bench.send(&read(4)), copied(2, 1, 1));
        assert_eq!((bench.position(), bench.triple()), (2, [3, 0x11, 0]));
        assert_eq!(bench.record[11..16], [1, 0, 0, 0, 2]);
    }
}

#[test]
fn a_read_that_meets_the_end_of_the_tape_counts_those_before_it() {
    let bench = Bench::at(1).with_kinds([4, 4, 1, 4]);
    let mut bench = bench.with_parameters([1, 0, 3, 0, 1]);
    assert_eq!(bench.send(&read(4)), copied(2, 2, 1));
    assert_eq!((bench.position(), bench.triple()), (3, [8, 0, 5]));
    assert_eq!(bench.record[11..16], [1, 0, 0, 0, 2]);
}

/// "WRITE still stores kind 1.", with WDAM as after a load and with WDAM set by a list.
#[test]
fn a_write_stores_plain_blocks_whatever_wdam_says() {
    for wdam in [false, true] {
        let mut bench = Bench::at(1).with_kinds([4, 4, 1, 4]);
        if wdam {
            assert_eq!(bench.select([1, 0, 4, 0, 1]), told(0, 0, 0, 28));
        }
        assert_eq!(bench.record[19] & 0x80 != 0, wdam);
        assert_eq!(bench.send(&write(2)), told(0, 0, 2, 1024));
        assert_eq!(bench.kinds(), [4, 1, 1, 4]);
        assert_eq!(bench.send(&locate(0)), told(0, 0, 0, 0));
        assert_eq!(bench.send(&read(4)), copied(0, 4, 2));
    }
}

#[test]
fn a_flush_leaves_marked_blocks() {
    let mut bench = Bench::at(0).with_kinds([4, 4, 4, 4]);
    assert_eq!(bench.send(&short(0x10, 1)), told(0, 0, 0, 0));
    assert_eq!(bench.kinds(), [4, 4, 4, 4]);
}

/// The count is the last READ's own: no packet behind it tells it again, nor do the two calls that begin.
#[test]
fn nothing_else_tells_of_marked_blocks() {
    for other in [
        short(0x00, 0),
        SENSE_OF_20,
        write(1),
        short(0x10, 1),
        short(0x12, 36),
        short(0x15, 12),
        mode_sense(0x2A),
        mode_sense(0x2B),
        short(0x1B, 1),
        locate(0),
        short(0x11, 1),
        short(0x08, 1),
    ] {
        let mut bench = Bench::at(0).with_kinds([4, 4, 4, 4]);
        assert_eq!(bench.send(&read(1)), copied(0, 1, 1));
        assert_eq!(bench.send(&other).marked, 0, "{:02X}h", other[0]);
    }
    let mut bench = Bench::at(0).with_kinds([4, 4, 4, 4]);
    assert_eq!(fresh(&mut bench.record, &bench.image), [0; 16]);
    assert_eq!(change(&mut bench.record, &bench.image), [0; 16]);
}

/// "Refusals: none new.", and a refusal tells of no block.
#[test]
fn a_refused_read_tells_of_none() {
    let mut bench = Bench::at(0).with_kinds([4, 4, 4, 4]);
    assert_eq!(bench.send_with_room(&read(2), 1023), told(4, 0, 0, 0));
    assert_eq!(bench.send(&read(2)[..11]), told(1, 0, 0, 0));
    bench.record[3] = 5;
    assert_eq!(bench.send(&read(2)), told(3, 0, 0, 0));
}
