//! The floppy device through its typed interface.

use tapecard::bytes::{kind, length, opcode, page, triple};
use tapecard::floppy::{Record, Tape, packet};
use tapecard::packet::{Answer, Attention, CHECK_CONDITION, GOOD, Sense};
use tapecard::{Device, Refusal};

const BLOCK: usize = 512;
const BLOCKS_AT: usize = 36;

/// C 4, B 512, W 0, every element a block: U 4.
fn image() -> Vec<u8> {
    let mut image = vec![0; BLOCKS_AT + 4 * BLOCK];
    image[1] = 32;
    image[2] = 2;
    image[7] = 4;
    image[11] = 4;
    image[15] = 32;
    image[19] = BLOCKS_AT as u8;
    image[32..BLOCKS_AT].fill(1);
    for (element, block) in image[BLOCKS_AT..].chunks_mut(BLOCK).enumerate() {
        block.fill(0xB0 + element as u8);
    }
    image
}

/// A device that has told of its reset.
fn ready(image: &mut [u8]) -> Record {
    let mut record = Record::fresh(image).expect("a whole image");
    let told = packet(&mut record, image, &[0; 12], &mut []).expect("a whole packet");
    assert_eq!(told.status, CHECK_CONDITION);
    assert_eq!(record.sense().triple(), triple::RESET);
    record
}

fn with_byte_4(opcode: u8, byte_4: u8) -> [u8; 12] {
    [opcode, 1, 0, 0, byte_4, 0, 0, 0, 0, 0, 0, 0]
}

fn locate(block: u8) -> [u8; 12] {
    [opcode::LOCATE, 0, 0, 0, 0, 0, block, 0, 0, 0, 0, 0]
}

fn refused_with<T>(number: u8) -> Result<T, Refusal> {
    let device = Device::Floppy;
    Err(Refusal { number, device })
}

#[test]
fn a_fresh_record_has_a_tape_as_long_as_the_image() {
    let record = Record::fresh(&image()).expect("a whole image");
    assert_eq!((record.position(), record.loaded()), (0, true));
    assert!(!record.locked());
    assert_eq!(record.attention(), Attention::Reset);
    assert_eq!((record.speed(), record.sense()), (250, Sense::default()));
    let tape = Tape {
        bseg: 1,
        segtrk: 4,
        trks: 1,
        ..Tape::default()
    };
    assert_eq!((record.tape(), tape.product()), (tape, 4));
}

#[test]
fn an_image_that_is_not_full_is_refused() {
    let mut short = image();
    short[11] = 3;
    assert_eq!(Record::fresh(&short), refused_with(2));
    assert_eq!(Record::fresh(&[]), refused_with(2));
    let mut record = ready(&mut image());
    let before = record;
    assert_eq!(record.change(&short), refused_with(2));
    let answer = packet(&mut record, &mut short, &[0; 12], &mut []);
    assert_eq!(answer, refused_with(2));
    assert_eq!(record, before);
}

#[test]
fn a_changed_cartridge_sets_the_tape_back() {
    let mut record = ready(&mut image());
    record.0[7] = 125;
    record.0[4] = 2;
    record.0[16] = 44;
    record.0[18] = 2;
    assert_eq!(record.change(&image()), Ok(()));
    assert_eq!((record.loaded(), record.locked()), (true, true));
    assert_eq!(record.attention(), Attention::MediumChanged);
    assert_eq!(record.speed(), 125);
    let fresh = Record::fresh(&image()).expect("a whole image");
    assert_eq!(record.tape(), fresh.tape());
}

#[test]
fn a_block_is_rewritten_in_place() {
    let mut image = image();
    let mut record = ready(&mut image);
    let mut expected = image.clone();
    expected[BLOCKS_AT + BLOCK..BLOCKS_AT + 2 * BLOCK].fill(0xEE);
    let there = packet(&mut record, &mut image, &locate(1), &mut []);
    assert!(there.is_ok_and(|answer| answer.is_good()));
    let write = with_byte_4(opcode::WRITE, 1);
    let answer = packet(&mut record, &mut image, &write, &mut [0xEE; BLOCK]);
    let one_block = Answer {
        status: GOOD,
        blocks: 1,
        bytes: BLOCK as u32,
        marked: 0,
    };
    assert_eq!((answer, record.position()), (Ok(one_block), 2));
    assert_eq!(image, expected);
}

#[test]
fn an_unreadable_block_is_left_out_of_the_residue() {
    let mut image = image();
    image[33] = 2;
    let mut record = ready(&mut image);
    let read = with_byte_4(opcode::READ, 4);
    let answer = packet(&mut record, &mut image, &read, &mut [0; 4 * BLOCK]);
    assert_eq!(answer.map(|answer| answer.blocks), Ok(1));
    let sense = record.sense();
    assert_eq!(sense.triple(), triple::UNREADABLE);
    assert_eq!((sense.valid, sense.information), (true, 2));
    assert_eq!(record.position(), 2);
}

/// 02, A6: "a READ's answer also says how many of the blocks copied were marked." "WRITE still stores kind 1.", with WDAM too.
#[test]
fn marked_blocks_are_read_counted_and_written_over() {
    for flags in [0x00, 0x80] {
        let mut image = image();
        image[32..34].fill(kind::MARKED);
        let mut record = ready(&mut image);
        record.0[19] = flags;
        let mut room = [0xEE; 4 * BLOCK];
        let mut send = |packet_bytes: &[u8; 12]| {
            packet(&mut record, &mut image, packet_bytes, &mut room).expect("a whole packet")
        };
        let whole = Answer {
            status: GOOD,
            blocks: 4,
            bytes: 4 * BLOCK as u32,
            marked: 2,
        };
        assert_eq!(send(&with_byte_4(opcode::READ, 4)), whole);
        assert_eq!(send(&locate(0)).marked, 0);
        let written = send(&with_byte_4(opcode::WRITE, 1));
        assert_eq!((written.blocks, written.marked), (1, 0));
        assert_eq!(send(&locate(0)).marked, 0);
        let fewer = Answer { marked: 1, ..whole };
        assert_eq!(send(&with_byte_4(opcode::READ, 4)), fewer);
        assert_eq!(image[32..34], [kind::DATA, kind::MARKED]);
    }
}

/// 02, A8: "Unloading while locked ends with 5/53/02; the position stays.", and the tape parameters too, which a load sets back.
#[test]
fn a_locked_door_keeps_the_cartridge_in() {
    let mut image = image();
    let mut record = ready(&mut image);
    record.0[16] = 44;
    let mut send = |record: &mut Record, opcode, byte_4| {
        packet(record, &mut image, &with_byte_4(opcode, byte_4), &mut []).expect("a whole packet")
    };
    record.0[3] = 3;
    assert!(send(&mut record, opcode::PREVENT_ALLOW, 1).is_good());
    let locked = record;
    assert!(locked.locked());
    assert!(!send(&mut record, opcode::LOAD_UNLOAD, 0).is_good());
    assert_eq!(record.sense().triple(), triple::REMOVAL_PREVENTED);
    assert!(send(&mut record, opcode::TEST_UNIT_READY, 0).is_good());
    assert_eq!(record, locked, "only the sense was new");
    assert!(send(&mut record, opcode::LOAD_UNLOAD, 1).is_good());
    assert_eq!((record.position(), record.tape().density), (0, 0));
    assert!(record.locked());
    assert!(send(&mut record, opcode::PREVENT_ALLOW, 0).is_good());
    assert!(send(&mut record, opcode::LOAD_UNLOAD, 0).is_good());
    assert_eq!((record.loaded(), record.locked()), (false, false));
}

/// What is set is what the record has, what MODE SENSE tells, and where transfers and LOCATE end.
#[test]
fn the_tape_is_set_and_told() {
    let mut image = image();
    let mut record = ready(&mut image);
    let tape = Tape {
        density: 44,
        fill: 0x6B,
        bseg: 1,
        segtrk: 1,
        trks: 3,
        max_sector: 128,
        max_cylinder: 254,
        max_head: 7,
        wdam: true,
        rm: false,
        fw: true,
    };
    let select = with_byte_4(opcode::MODE_SELECT, length::MODE_WITH_TAPE_PAGE as u8);
    let answer = packet(&mut record, &mut image, &select, &mut tape.list());
    assert!(answer.is_ok_and(|answer| answer.is_good() && answer.bytes == 28));
    assert_eq!((record.tape(), tape.flags()), (tape, 0xA0));
    let mut sense = with_byte_4(opcode::MODE_SENSE, 255);
    sense[2] = page::TAPE_CODE;
    let mut told = [0; length::MODE_WITH_TAPE_PAGE];
    let answer = packet(&mut record, &mut image, &sense, &mut told);
    assert!(answer.is_ok_and(|answer| answer.is_good()));
    assert_eq!(told[12..], tape.list()[12..]);
    let read = with_byte_4(opcode::READ, 4);
    let answer = packet(&mut record, &mut image, &read, &mut [0; 4 * BLOCK]);
    assert_eq!(answer.map(|answer| answer.blocks), Ok(3));
    assert_eq!(record.sense().triple(), triple::END_OF_DATA);
    let beyond = packet(&mut record, &mut image, &locate(3), &mut []);
    assert!(beyond.is_ok_and(|answer| !answer.is_good()));
    assert_eq!(record.sense().triple(), triple::BAD_FIELD);
}

#[test]
fn a_product_has_room_for_the_largest_numbers() {
    let tape = Tape {
        bseg: 255,
        segtrk: 65_535,
        trks: 65_535,
        ..Tape::default()
    };
    assert_eq!(tape.product(), 255 * 65_535 * 65_535);
}

#[test]
fn a_record_that_is_not_of_the_image_is_refused() {
    let mut image = image();
    let mut record = ready(&mut image);
    for (at, value) in [(18, 2), (21, 5), (3, 5)] {
        let mut wrong = record;
        wrong.0[at] = value;
        let answer = packet(&mut wrong, &mut image, &[0; 12], &mut []);
        assert_eq!(answer, refused_with(3), "byte {at}");
    }
    let cut = packet(&mut record, &mut image, &[0; 11], &mut []);
    assert_eq!(cut, refused_with(1));
    let read = with_byte_4(opcode::READ, 2);
    let answer = packet(&mut record, &mut image, &read, &mut [0; 2 * BLOCK - 1]);
    assert_eq!(answer, refused_with(4));
}

#[test]
fn the_devices_by_their_names() {
    let devices = [Device::Stream, Device::Floppy, Device::Pulse];
    assert_eq!(devices.map(Device::record_length), [16, 32, 32]);
    let names = devices.map(|device| device.to_string());
    assert_eq!(names, ["stream device", "floppy device", "pulse drive"]);
    let mut floppy = opcode::ALL.to_vec();
    floppy.retain(|code| ![opcode::REWIND, opcode::SPACE, opcode::READ_POSITION].contains(code));
    assert_eq!(Device::Floppy.opcodes(), floppy);
    assert!(Device::Pulse.opcodes().is_empty());
}
