//! The locked door of the floppy tape device, each case worked out by hand from the words of 02's A8.

use super::*;

/// Byte 4 of the record: 1 is loaded, 2 is locked.
const LOCKED: u8 = 2;
const LOADED_LOCKED: u8 = 3;

/// BSEG 1, SEGTRK 3, TRKS 1 and every other tape parameter set: a record that a load would change.
const LISTED: [u8; 16] = [22, 0x6C, 1, 0xE0, 0, 3, 0, 1, 128, 255, 7, 0, 0, 0, 0, 0];
/// "After a load .. BSEG is 1, SEGTRK C, TRKS 1 and the rest 0" (02, A1).
const RESET: [u8; 16] = [0, 0, 1, 0, 0, 4, 0, 1, 0, 0, 0, 0, 0, 0, 0, 0];

/// At place 2, with this byte 4, an old sense with a residue of 7, and tape parameters that a list has set.
fn listed(door: u8) -> Bench {
    let mut bench = Bench::at(2);
    bench.record[4] = door;
    bench.record[8..16].copy_from_slice(&[3, 0x11, 0, 1, 0, 0, 0, 7]);
    bench.record[16..].copy_from_slice(&LISTED);
    bench
}

impl Bench {
    /// Sends the packet, which needs no room, and holds the whole record to these parts of it.
    fn leaves(&mut self, packet: &[u8], after: &After) {
        let sent = self.send_with_room(packet, 0);
        assert_eq!(sent, told(0, after.status, 0, 0));
        let mut record = [0; 32];
        record[3] = after.position;
        record[4] = after.door;
        record[7] = 250;
        record[8..11].copy_from_slice(&after.sense);
        record[16..].copy_from_slice(&after.tape);
        assert_eq!(self.record, record, "{packet:02X?}");
    }
}

/// What a packet without attention leaves: no flag of the sense, no information, the speed as it was.
struct After {
    status: u8,
    position: u8,
    door: u8,
    sense: [u8; 3],
    tape: [u8; 16],
}

/// It ended with this sense and nothing else is new.
fn stopped(door: u8, sense: [u8; 3]) -> After {
    After {
        status: 2,
        position: 2,
        door,
        sense,
        tape: LISTED,
    }
}

/// It was GOOD and left this byte 4, and all else as it was.
fn set(door: u8) -> After {
    After {
        status: 0,
        ..stopped(door, [0, 0, 0])
    }
}

fn loaded_or_unloaded(door: u8, tape: [u8; 16]) -> After {
    After {
        position: 0,
        tape,
        ..set(door)
    }
}

/// "Unloading while locked ends with 5/53/02; the position stays." So do the tape parameters.
#[test]
fn plate_lock_unload_unlock_unload() {
    let mut bench = listed(1);
    bench.leaves(&short(0x1E, 1), &set(LOADED_LOCKED));
    bench.leaves(&short(0x1B, 0), &stopped(LOADED_LOCKED, [5, 0x53, 2]));
    let sense = [
        0x70, 0, 5, 0, 0, 0, 0, 0x0C, 0, 0, 0, 0, 0x53, 2, 0, 0, 0, 0, 0, 0,
    ];
    assert_eq!(bench.sense_bytes(), sense);
    bench.leaves(&short(0x1E, 0), &set(1));
    bench.leaves(&short(0x1B, 0), &loaded_or_unloaded(0, LISTED));
}

/// "PREVENT/ALLOW MEDIUM REMOVAL (1Eh, byte 4 bit 0)", with no not-ready check.
#[test]
fn bit_0_of_byte_4_alone_locks() {
    for (byte_4, locked) in [(0, 0), (1, 2), (2, 0), (3, 2), (0xFE, 0), (0xFF, 2)] {
        for door in 0..4 {
            let mut with_every_other_bit = [0xFF; 12];
            with_every_other_bit[0] = 0x1E;
            with_every_other_bit[4] = byte_4;
            for packet in [short(0x1E, byte_4), with_every_other_bit] {
                listed(door).leaves(&packet, &set(door % 2 + locked));
            }
        }
    }
}

/// EOT is reserved here (02, A1), so every load goes through, resets the tape parameters and leaves the lock.
#[test]
fn the_lock_stops_unloads_alone() {
    for door in [LOCKED, LOADED_LOCKED] {
        for byte_4 in 0..=255 {
            let after = if byte_4 % 2 == 1 {
                loaded_or_unloaded(LOADED_LOCKED, RESET)
            } else {
                stopped(door, [5, 0x53, 2])
            };
            listed(door).leaves(&short(0x1B, byte_4), &after);
        }
    }
}

/// "A pending attention ends any packet but 03h and 12h" (01): 1Eh too, which then changes no lock, and it is told before 53/02.
#[test]
fn plate_a_pending_attention_comes_first() {
    for (attention, asc) in [(1, 0x28), (2, 0x29)] {
        for door in 0..4 {
            for packet in [short(0x1E, 0), short(0x1E, 1), short(0x1B, 0)] {
                let mut bench = listed(door);
                bench.record[5] = attention;
                bench.leaves(&packet, &stopped(door, [6, asc, 0]));
            }
        }
        let mut bench = listed(LOADED_LOCKED);
        bench.record[5] = attention;
        bench.leaves(&short(0x1B, 0), &stopped(LOADED_LOCKED, [6, asc, 0]));
        bench.leaves(&short(0x1B, 0), &stopped(LOADED_LOCKED, [5, 0x53, 2]));
    }
}

/// "a locked flag, false when fresh and kept through a cartridge change", which is refused with 2 alone and then keeps all.
#[test]
fn plate_the_lock_through_a_fresh_record_and_a_change() {
    for door in 0..4 {
        let mut bench = listed(door);
        assert_eq!(change(&mut bench.record, &bench.image), [0; 16]);
        assert_eq!(bench.record[4], door / 2 * 2 + 1);
        let before = bench.record;
        bench.image[11] = 3;
        assert_eq!(change(&mut bench.record, &bench.image)[0], 2);
        assert_eq!(bench.record, before);
        bench.image[11] = 4;
        assert_eq!(fresh(&mut bench.record, &bench.image), [0; 16]);
        assert_eq!(bench.record[4], 1);
    }
    let mut bench = listed(LOADED_LOCKED);
    change(&mut bench.record, &bench.image);
    bench.send(&short(0x1B, 0));
    assert_eq!(bench.triple(), [6, 0x28, 0]);
    bench.send(&short(0x1B, 0));
    assert_eq!((bench.triple(), bench.record[4]), ([5, 0x53, 2], 3));
}

/// "Page 2Ah shows LOCK (01h) always and LOCKED (02h) while locked, in byte 6.", beside 01's 08h; page 2Bh tells nothing of it.
#[test]
fn page_2ah_shows_the_lock_and_a_list_sets_none() {
    for (door, byte_6) in [(0, 0x09), (1, 0x09), (2, 0x0B), (3, 0x0B)] {
        let mut bench = listed(door);
        bench.send(&mode_sense(0x2A));
        assert_eq!(bench.data[12 + 6], byte_6);
        for listed in 0..=255 {
            bench.data[12 + 6] = listed;
            assert_eq!(bench.send(&short(0x15, 32)), told(0, 0, 0, 32));
            assert_eq!(bench.record[4], door);
        }
        assert_eq!(bench.select([1, 0, 4, 0, 1]), told(0, 0, 0, 28));
        assert_eq!(bench.record[4], door);
        bench.send(&mode_sense(0x2B));
        assert_eq!(bench.data[12 + 6..12 + 8], [0, 4], "SEGTRK");
    }
}

/// Every other packet does with a locked door what it does with an open one, and leaves the lock.
#[test]
fn no_other_packet_looks_at_the_lock() {
    for packet in [
        short(0x00, 0),
        SENSE_OF_20,
        read(1),
        write(1),
        short(0x10, 1),
        short(0x12, 36),
        short(0x15, 12),
        mode_sense(0x00),
        mode_sense(0x2B),
        locate(0),
        short(0x1D, 1),
        short(0x1F, 1),
    ] {
        for loaded in 0..2 {
            let (mut open, mut locked) = (listed(loaded), listed(loaded + LOCKED));
            assert_eq!(open.send(&packet), locked.send(&packet));
            assert_eq!((open.image, open.data), (locked.image, locked.data));
            open.record[4] += LOCKED;
            assert_eq!(open.record, locked.record, "{:02X}h", packet[0]);
        }
    }
}

/// A refused packet neither locks nor unlocks, and is refused where it would be stopped.
#[test]
fn refused_packets_leave_the_door() {
    for packet in [short(0x1E, 0), short(0x1E, 1), short(0x1B, 0)] {
        for door in 0..4 {
            let mut bench = listed(door + 0xF0);
            bench.record[3] = 4;
            let before = bench.record;
            assert_eq!(bench.send(&packet[..11]), told(1, 0, 0, 0));
            assert_eq!(bench.send(&packet), told(3, 0, 0, 0));
            bench.image[11] = 3;
            assert_eq!(bench.send(&packet), told(2, 0, 0, 0));
            assert_eq!(bench.record, before);
        }
    }
}
