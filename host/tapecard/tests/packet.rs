//! The packet drive through its typed interface.

use tapecard::bytes::{kind, length, opcode, page, space, triple};
use tapecard::packet::{Answer, Attention, CHECK_CONDITION, GOOD, Record, Sense, packet};
use tapecard::{Device, Refusal, sense_words};

/// C 4, B 512, W 0, kinds 1 2 1, U 3.
fn image() -> Vec<u8> {
    let mut image = vec![0; 36 + 4 * 512];
    image[1] = 32;
    image[2] = 2;
    image[7] = 4;
    image[11] = 3;
    image[15] = 32;
    image[19] = 36;
    image[32..35].copy_from_slice(&[1, 2, 1]);
    for (element, block) in image[36..].chunks_mut(512).enumerate() {
        block.fill(0xB0 + element as u8);
    }
    image
}

fn told_of_the_reset(image: &mut [u8]) -> Record {
    let mut record = Record::fresh();
    let answer = packet(&mut record, image, &[0; 12], &mut []).expect("a whole packet");
    assert_eq!(answer.status, CHECK_CONDITION);
    let told = sense_words::sense(&record.sense());
    assert_eq!(told, "UNIT ATTENTION: power on or reset (6/29/00)");
    record
}

fn refused_with(number: u8) -> Result<Answer, Refusal> {
    let device = Device::Stream;
    Err(Refusal { number, device })
}

fn counted(opcode: u8, byte_1: u8, count: u8) -> [u8; 12] {
    [opcode, byte_1, 0, 0, count, 0, 0, 0, 0, 0, 0, 0]
}

fn read_2() -> [u8; 12] {
    counted(opcode::READ, 1, 2)
}

#[test]
fn a_fresh_record() {
    let record = Record::fresh();
    assert_eq!(record.position(), 0);
    assert_eq!((record.loaded(), record.locked()), (true, false));
    assert_eq!(record.attention(), Attention::Reset);
    assert_eq!(record.speed(), 250);
    assert_eq!(record.sense(), Sense::default());
}

#[test]
fn a_changed_cartridge() {
    let mut record = Record::fresh();
    record.0[7] = 125;
    record.0[4] = 2;
    record.change();
    assert_eq!(record.attention(), Attention::MediumChanged);
    assert_eq!(record.speed(), 125);
    assert_eq!((record.loaded(), record.locked()), (true, true));
}

#[test]
fn two_reads_and_their_sense() {
    let mut image = image();
    let mut record = told_of_the_reset(&mut image);
    let mut room = [0x55; 1024];
    let answer = packet(&mut record, &mut image, &read_2(), &mut room);
    let one_block = Answer {
        status: CHECK_CONDITION,
        blocks: 1,
        bytes: 512,
        marked: 0,
    };
    assert_eq!(answer, Ok(one_block));
    assert_eq!(record.position(), 2);
    assert_eq!(room[..512], [0xB0; 512]);
    assert_eq!(room[512..], [0x55; 512]);
    let filemark = Sense {
        ascq: 1,
        filemark: true,
        valid: true,
        information: 1,
        ..Sense::default()
    };
    assert_eq!(record.sense(), filemark);

    let answer = packet(&mut record, &mut image, &read_2(), &mut room);
    assert_eq!(answer, Ok(one_block));
    assert_eq!(room[..512], [0xB2; 512]);
    let told = sense_words::sense(&record.sense());
    assert_eq!(told, "BLANK CHECK: end of data (8/00/05), residue 1");
}

/// 02, A3: "So 8/00/05 on READ and SPACE carries EOM when U > C - W."
#[test]
fn the_end_of_data_near_the_end_of_tape() {
    for (warning, eom) in [(0, false), (1, false), (2, true)] {
        let mut image = image();
        image[23] = warning;
        let mut record = told_of_the_reset(&mut image);
        let end = Sense {
            key: 8,
            ascq: 5,
            eom,
            valid: true,
            information: 1,
            ..Sense::default()
        };
        for far in [
            counted(opcode::SPACE, space::FILEMARKS, 2),
            counted(opcode::SPACE, space::BLOCKS, 1),
            counted(opcode::READ, 1, 1),
        ] {
            let answer = packet(&mut record, &mut image, &far, &mut [0; 512]);
            assert!(answer.is_ok_and(|answer| !answer.is_good()));
            assert_eq!((record.position(), record.sense()), (3, end));
        }
    }
}

/// 02, A6: "READ copies it as data, SPACE counts it as a block, and a READ's answer also says how many of the blocks copied were
/// marked." "WRITE still stores kind 1."
#[test]
fn marked_blocks_are_read_counted_and_written_over() {
    let mut image = image();
    image[32..35].copy_from_slice(&[kind::MARKED, kind::DATA, kind::MARKED]);
    let mut record = told_of_the_reset(&mut image);
    let read_4 = counted(opcode::READ, 1, 4);
    let mut room = [0; 4 * 512];
    let mut send = |packet_bytes: &[u8; 12]| {
        packet(&mut record, &mut image, packet_bytes, &mut room).expect("a whole packet")
    };
    let three_blocks = Answer {
        status: CHECK_CONDITION,
        blocks: 3,
        bytes: 3 * 512,
        marked: 2,
    };
    assert_eq!(send(&read_4), three_blocks);
    send(&counted(opcode::REWIND, 0, 0));
    let spaced = send(&counted(opcode::SPACE, space::BLOCKS, 2));
    assert_eq!((spaced.status, spaced.marked), (GOOD, 0));
    let written = send(&counted(opcode::WRITE, 1, 1));
    assert_eq!((written.blocks, written.marked), (1, 0));
    send(&counted(opcode::REWIND, 0, 0));
    let fewer = Answer {
        marked: 1,
        ..three_blocks
    };
    assert_eq!(send(&read_4), fewer);
    assert_eq!(image[32..35], [kind::MARKED, kind::DATA, kind::DATA]);
}

/// 02, A8: "Unloading while locked ends with 5/53/02; the position stays." "Page 2Ah shows LOCK (01h) always and LOCKED (02h)
/// while locked, in byte 6."
#[test]
fn a_locked_door_keeps_the_cartridge_in() {
    let mut image = image();
    let mut record = told_of_the_reset(&mut image);
    let mut page = [0; length::MODE_WITH_PAGE];
    let mut send = |record: &mut Record, opcode, byte_4| {
        let mut packet_bytes = counted(opcode, 0, byte_4);
        packet_bytes[2] = page::CODE; // looked at by MODE SENSE alone
        let answer = packet(record, &mut image, &packet_bytes, &mut page);
        let door = page[length::MODE_HEADER + page::DOOR_AT];
        (answer.expect("a whole packet").is_good(), door)
    };
    let told = |record: &Record| (record.position(), record.loaded(), record.locked());
    record.0[3] = 2;
    for (byte_4, locked, door) in [(1, true, page::DOOR_LOCKED), (0, false, page::DOOR_OPEN)] {
        assert!(send(&mut record, opcode::PREVENT_ALLOW, byte_4).0);
        assert_eq!(told(&record), (2, true, locked));
        let asked = send(&mut record, opcode::MODE_SENSE, 32);
        assert_eq!(asked, (true, door));
        let unloaded = send(&mut record, opcode::LOAD_UNLOAD, 0).0;
        assert_eq!(unloaded, !locked);
        if locked {
            assert_eq!(record.sense().triple(), triple::REMOVAL_PREVENTED);
            assert_eq!(told(&record), (2, true, true));
        }
    }
    assert_eq!(told(&record), (0, false, false));
}

#[test]
fn refused_packets_change_nothing() {
    let mut image = image();
    let mut record = told_of_the_reset(&mut image);
    let before = (record, image.clone());
    let cut = packet(&mut record, &mut image, &[0; 11], &mut []);
    assert_eq!(cut, refused_with(1));
    let mut short = [0x55; 1023];
    let refused = packet(&mut record, &mut image, &read_2(), &mut short);
    assert_eq!(refused, refused_with(4));
    assert_eq!(short, [0x55; 1023]);
    assert_eq!((record, image.clone()), before);
    let mut damaged = image.clone();
    damaged[31] = 1;
    let refused = packet(&mut record, &mut damaged, &[0; 12], &mut []);
    assert_eq!(refused, refused_with(2));
    let mut lost = Record::fresh();
    lost.0[3] = 4;
    let refused = packet(&mut lost, &mut image, &[0; 12], &mut []);
    assert_eq!(refused, refused_with(3));
}

#[test]
fn a_speed_is_selected() {
    let mut image = image();
    let mut record = told_of_the_reset(&mut image);
    let mut list = [0; 32];
    list[12] = page::CODE;
    list[13] = page::LENGTH;
    list[27] = 125;
    let select = counted(opcode::MODE_SELECT, 0, 32);
    let answer = packet(&mut record, &mut image, &select, &mut list).expect("a right list");
    assert_eq!((answer.status, answer.bytes), (GOOD, 32));
    assert!(answer.is_good());
    assert_eq!(record.speed(), 125);
}
