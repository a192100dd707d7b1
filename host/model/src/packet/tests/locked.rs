//! The locked door of the stream device, each case worked out by hand from the words of 02's A8.

use super::*;

/// Byte 4 of the record: 1 is loaded, 2 is locked.
const EMPTY: u8 = 0;
const LOADED: u8 = 1;
const EMPTY_LOCKED: u8 = 2;
const LOADED_LOCKED: u8 = 3;
const DOORS: [u8; 4] = [EMPTY, LOADED, EMPTY_LOCKED, LOADED_LOCKED];

/// The bytes of REQUEST SENSE after 5/53/02: not valid, no filemark, no EOM, no information.
const PREVENTED: [u8; 20] = [
    0x70, 0, 5, 0, 0, 0, 0, 0x0C, 0, 0, 0, 0, 0x53, 2, 0, 0, 0, 0, 0, 0,
];

impl Bench {
    fn with_door(mut self, door: u8) -> Bench {
        self.record[4] = door;
        self
    }

    /// With the sense of a READ that stopped at a filemark, 7 blocks short.
    fn with_old_sense(mut self) -> Bench {
        self.record[8..].copy_from_slice(&[0, 0, 1, 5, 0, 0, 0, 7]);
        self
    }

    fn with_attention(mut self, attention: u8) -> Bench {
        self.record[5] = attention;
        self
    }

    /// Sends the packet, which needs no room: its status, and then the position, byte 4 of the record and the sense.
    fn ends(&mut self, packet: &[u8]) -> (u8, u32, u8, [u8; 3]) {
        let told = self.send_with_room(packet, 0);
        assert_eq!((told.number, told.blocks, told.bytes), (0, 0, 0));
        assert_eq!(self.record[11..], [0; 5], "no flag, no information");
        (told.status, self.position(), self.record[4], self.triple())
    }
}

/// "Unloading while locked ends with 5/53/02; the position stays."
#[test]
fn plate_lock_unload_unlock_unload() {
    let mut bench = Bench::at(2);
    assert_eq!(
        bench.ends(&short(PREVENT_ALLOW, 1)),
        (0, 2, LOADED_LOCKED, [0, 0, 0])
    );
    let stopped = (2, 2, LOADED_LOCKED, [5, 0x53, 2]);
    assert_eq!(bench.ends(&short(LOAD_UNLOAD, 0)), stopped);
    assert_eq!(bench.sense_bytes(), PREVENTED);
    assert_eq!(
        bench.ends(&short(PREVENT_ALLOW, 0)),
        (0, 2, LOADED, [0, 0, 0])
    );
    assert_eq!(bench.ends(&short(LOAD_UNLOAD, 0)), (0, 0, EMPTY, [0, 0, 0]));
}

/// "PREVENT/ALLOW MEDIUM REMOVAL (1Eh, byte 4 bit 0)": it sets the flag and the sense, whatever they were, and nothing else.
#[test]
fn bit_0_of_byte_4_alone_locks() {
    for (byte_4, locked) in [(0, 0), (1, 2), (2, 0), (3, 2), (0xFE, 0), (0xFF, 2)] {
        for door in DOORS {
            let mut with_every_other_bit = [0xFF; 12];
            with_every_other_bit[0] = PREVENT_ALLOW;
            with_every_other_bit[4] = byte_4;
            for packet in [short(PREVENT_ALLOW, byte_4), with_every_other_bit] {
                let mut bench = Bench::at(3).with_door(door).with_old_sense();
                let mut expected = bench.record;
                expected[4] = door % 2 + locked;
                expected[8..].fill(0);
                assert_eq!(bench.ends(&packet).0, 0);
                assert_eq!(bench.record, expected);
            }
        }
    }
}

/// "1Eh has no not-ready check", and the lock holds where nothing is loaded.
#[test]
fn plate_a_drive_that_is_not_loaded() {
    let mut bench = Bench::at(1).with_door(EMPTY);
    assert_eq!(
        bench.ends(&short(PREVENT_ALLOW, 1)),
        (0, 1, EMPTY_LOCKED, [0, 0, 0])
    );
    let stopped = (2, 1, EMPTY_LOCKED, [5, 0x53, 2]);
    assert_eq!(bench.ends(&short(LOAD_UNLOAD, 0)), stopped);
    let not_ready = (2, 1, EMPTY_LOCKED, [2, 0x3A, 0]);
    assert_eq!(bench.ends(&short(TEST_UNIT_READY, 0)), not_ready);
    assert_eq!(
        bench.ends(&short(LOAD_UNLOAD, 1)),
        (0, 0, LOADED_LOCKED, [0, 0, 0])
    );
}

/// "Unloading": a load goes through and the lock stays; "53/02 stands after the fields check of 1Bh".
#[test]
fn the_lock_stops_unloads_alone() {
    for door in [EMPTY_LOCKED, LOADED_LOCKED] {
        for byte_4 in 0..=255 {
            let expected = match byte_4 % 8 {
                1 | 3 => (0, 0, LOADED_LOCKED, [0, 0, 0]),
                5 | 7 => (2, 2, door, [5, 0x24, 0]),
                _ => (2, 2, door, [5, 0x53, 2]),
            };
            let mut bench = Bench::at(2).with_door(door).with_old_sense();
            assert_eq!(
                bench.ends(&short(LOAD_UNLOAD, byte_4)),
                expected,
                "{byte_4}"
            );
        }
    }
}

/// "A pending attention ends any packet but 03h and 12h" (01): 1Eh too, which then changes no lock, and it is told before 53/02.
#[test]
fn plate_a_pending_attention_comes_first() {
    for (attention, asc) in [(1, 0x28), (2, 0x29)] {
        for door in DOORS {
            let bench = || Bench::at(2).with_door(door).with_attention(attention);
            let told = (2, 2, door, [6, asc, 0]);
            for packet in [
                short(PREVENT_ALLOW, 0),
                short(PREVENT_ALLOW, 1),
                short(LOAD_UNLOAD, 0),
            ] {
                assert_eq!(bench().ends(&packet), told);
            }
        }
        let mut bench = Bench::at(2).with_door(LOADED_LOCKED);
        bench = bench.with_attention(attention);
        bench.ends(&short(LOAD_UNLOAD, 0));
        assert_eq!(bench.record[5], 0);
        let stopped = (2, 2, LOADED_LOCKED, [5, 0x53, 2]);
        assert_eq!(bench.ends(&short(LOAD_UNLOAD, 0)), stopped);
    }
}

/// "The packet record gains a locked flag, false when fresh and kept through a cartridge change."
#[test]
fn plate_the_lock_through_a_fresh_record_and_a_change() {
    let mut bench = Bench::at(0);
    assert_eq!(
        bench.ends(&short(PREVENT_ALLOW, 1)),
        (0, 0, LOADED_LOCKED, [0, 0, 0])
    );
    change(&mut bench.record);
    assert_eq!(bench.record[4], LOADED_LOCKED);
    let told = (2, 0, LOADED_LOCKED, [6, 0x28, 0]);
    assert_eq!(bench.ends(&short(LOAD_UNLOAD, 0)), told);
    let stopped = (2, 0, LOADED_LOCKED, [5, 0x53, 2]);
    assert_eq!(bench.ends(&short(LOAD_UNLOAD, 0)), stopped);
    fresh(&mut bench.record);
    assert_eq!(bench.record[4], LOADED);
}

/// "Page 2Ah shows LOCK (01h) always and LOCKED (02h) while locked, in byte 6.", beside 01's 08h.
#[test]
fn page_2ah_shows_the_lock_and_a_list_sets_none() {
    let mut sense = short(MODE_SENSE, 32);
    sense[2] = 0x2A;
    for (door, byte_6) in [(0, 0x09), (1, 0x09), (2, 0x0B), (3, 0x0B)] {
        let mut bench = Bench::at(1).with_door(door);
        assert_eq!(bench.send(&sense).bytes, 32);
        assert_eq!(bench.data[12 + 6], byte_6);
        for listed in 0..=255 {
            bench.data[12 + 6] = listed;
            assert_eq!(bench.send(&short(MODE_SELECT, 32)).status, 0);
            assert_eq!(bench.record[4], door);
        }
    }
}

/// Every other packet does with a locked door what it does with an open one, and leaves the lock.
#[test]
fn no_other_packet_looks_at_the_lock() {
    for packet in [
        short(TEST_UNIT_READY, 0),
        short(REWIND, 0),
        short(REQUEST_SENSE, 20),
        counted(READ, 1, 2),
        counted(WRITE, 1, 2),
        counted(WRITE_FILEMARK, 0, 1),
        spaced(SPACE_BLOCKS, -1),
        spaced(SPACE_TO_END, 0),
        short(INQUIRY, 36),
        short(MODE_SELECT, 12),
        short(MODE_SENSE, 12),
        located(0, 0),
        short(READ_POSITION, 0),
        short(0x1D, 1),
        short(0x1F, 1),
    ] {
        for loaded in [EMPTY, LOADED] {
            let mut open = Bench::at(2).with_door(loaded).with_old_sense();
            let mut locked = Bench::at(2).with_door(loaded + 2).with_old_sense();
            let answers = [&mut open, &mut locked].map(|bench| {
                let Bench {
                    record,
                    image,
                    data,
                } = bench;
                super::packet(record, image, &packet, data)
            });
            assert_eq!(answers[0], answers[1], "{:02X}h", packet[0]);
            assert_eq!((open.image, open.data), (locked.image, locked.data));
            open.record[4] += 2;
            assert_eq!(open.record, locked.record, "{:02X}h", packet[0]);
        }
    }
}

/// A refused packet neither locks nor unlocks, and is refused where it would be stopped.
#[test]
fn refused_packets_leave_the_door() {
    for packet in [
        short(PREVENT_ALLOW, 0),
        short(PREVENT_ALLOW, 1),
        short(LOAD_UNLOAD, 0),
    ] {
        for door in DOORS {
            let mut bench = Bench::at(4).with_door(door + 0xF0);
            let before = bench.record;
            assert_eq!(bench.send(&packet[..11]).number, 1);
            assert_eq!(bench.send(&packet).number, 3);
            bench.image[31] = 1;
            assert_eq!(bench.send(&packet).number, 2);
            assert_eq!(bench.record, before);
        }
    }
}
