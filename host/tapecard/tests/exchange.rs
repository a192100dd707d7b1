//! SIMH tape files, through their typed interface.

use tapecard::bytes::{kind, opcode, triple};
use tapecard::exchange::{
    END_MARK, Exported, Imported, TAPE_MARK, UNREADABLE, WORD_LENGTH, export, import, most_bytes,
};
use tapecard::packet::{Attention, CHECK_CONDITION, Record, packet};
use tapecard::{Device, Refusal};

const C: usize = 4;
const BLOCK: usize = 512;
const KINDS_AT: usize = 32;
const BLOCKS_AT: usize = KINDS_AT + C;
const BEYOND: [u8; 3] = [0xEE; 3];

/// C 4, B 512, W 0, U 3; block i holds i + 1 throughout.
fn image(kinds: [u8; C]) -> Vec<u8> {
    let mut image = vec![0; BLOCKS_AT + C * BLOCK];
    image[1] = 32;
    image[2] = 2;
    image[7] = C as u8;
    image[11] = 3;
    image[15] = KINDS_AT as u8;
    image[19] = BLOCKS_AT as u8;
    image[KINDS_AT..BLOCKS_AT].copy_from_slice(&kinds);
    for (element, block) in image[BLOCKS_AT..].chunks_mut(BLOCK).enumerate() {
        block.fill(element as u8 + 1);
    }
    image
}

/// A record of this byte throughout between two words, in the bytes of a file.
fn record_of(flag: u32, byte: u8) -> Vec<u8> {
    let word = (BLOCK as u32 + flag).to_le_bytes();
    [&word[..], &[byte; BLOCK], &word].concat()
}

/// A marked block, a filemark and an unreadable block.
fn file() -> Vec<u8> {
    [
        record_of(0, 1),
        TAPE_MARK.to_le_bytes().to_vec(),
        record_of(UNREADABLE, 3),
        END_MARK.to_le_bytes().to_vec(),
    ]
    .concat()
}

fn refused_with<T>(number: u8) -> Result<T, Refusal> {
    let device = Device::Exchange;
    Err(Refusal { number, device })
}

#[test]
fn an_image_is_written_out() {
    let mut room = vec![0x99; file().len()];
    room.extend(BEYOND);
    let exported = Exported {
        elements: 3,
        bytes: file().len() as u32,
    };
    let image = image([kind::MARKED, kind::FILEMARK, 7, kind::DATA]);
    assert_eq!(export(&image, &mut room), Ok(exported));
    assert_eq!(room[..file().len()], file());
    assert_eq!(room[file().len()..], BEYOND);
}

/// No filemark makes the file as long as it can be.
#[test]
fn most_bytes_are_always_enough() {
    assert_eq!(most_bytes(0, 512), WORD_LENGTH);
    assert_eq!(most_bytes(3, 512), 1564);
    assert_eq!(most_bytes(65_535, 1024), 67_632_124);
    let mut room = vec![0; most_bytes(3, BLOCK as u16)];
    let longest = image([kind::DATA; C]);
    let bytes = export(&longest, &mut room).map(|exported| exported.bytes);
    assert_eq!(bytes, Ok(room.len() as u32));
    assert_eq!(export(&longest, &mut room[1..]), refused_with(4));
}

#[test]
fn a_file_is_read_in() {
    let mut image = image([kind::FILEMARK; C]);
    image[11] = 0;
    let mut record = Record([0xFF; 16]);
    let imported = Imported {
        elements: 3,
        bytes: file().len() as u32,
    };
    assert_eq!(import(&mut record, &mut image, &file()), Ok(imported));
    assert_eq!(image[11], 3);
    assert_eq!(image[KINDS_AT..BLOCKS_AT], [1, 2, 0, 2]);
    assert_eq!(image[BLOCKS_AT + BLOCK..][..BLOCK], [2; BLOCK]);
    assert_eq!(record.position(), 0);
    assert_eq!(record.attention(), Attention::MediumChanged);
    assert_eq!((record.loaded(), record.locked()), (true, true));
    assert_eq!(record.speed(), 0xFFFF);
}

/// The next packet tells of the change, and then the elements are read.
#[test]
fn the_drive_tells_of_the_change() {
    let mut image = image([kind::FILEMARK; C]);
    let mut record = Record::fresh();
    assert!(import(&mut record, &mut image, &file()).is_ok());
    let read = [opcode::READ, 1, 0, 0, 1, 0, 0, 0, 0, 0, 0, 0];
    let mut data = [0; BLOCK];
    let told = packet(&mut record, &mut image, &read, &mut data);
    assert!(told.is_ok_and(|answer| answer.status == CHECK_CONDITION));
    assert_eq!(record.sense().triple(), triple::MEDIUM_CHANGED);
    let copied = packet(&mut record, &mut image, &read, &mut data);
    assert!(copied.is_ok_and(|answer| answer.is_good() && answer.blocks == 1));
    assert_eq!(data, [1; BLOCK]);
}

/// Each refusal by its number, with the exchange as its giver; nothing changes.
#[test]
fn refused_nothing_changes() {
    let before = image([kind::DATA; C]);
    let mut broken = before.clone();
    broken[31] = 1;
    let mut of_511 = record_of(0, 1);
    of_511[..2].copy_from_slice(&[0xFF, 0x01]);
    of_511[516..518].copy_from_slice(&[0xFF, 0x01]);
    for (image, file, number) in [
        (&broken, file(), 2),
        (&before, file()[..1047].to_vec(), 11),
        (&before, of_511, 12),
        (&before, vec![0; WORD_LENGTH * (C + 1)], 13),
    ] {
        let (mut after, mut record) = (image.clone(), Record::fresh());
        assert_eq!(import(&mut record, &mut after, &file), refused_with(number));
        assert_eq!((&after, record), (image, Record::fresh()));
    }
    let mut room = [0x99; 16];
    assert_eq!(export(&broken, &mut room), refused_with(2));
    assert_eq!(export(&before, &mut room), refused_with(4));
    assert_eq!(room, [0x99; 16]);
}
