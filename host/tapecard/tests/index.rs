//! The stream device with a filemark index, through its typed interface.

use tapecard::bytes::{kind, opcode, space, triple};
use tapecard::index::{ENTRY_LENGTH, Made, NO_FILEMARK, make, packet, places};
use tapecard::packet::{Answer, CHECK_CONDITION, GOOD, Record};
use tapecard::{Device, Refusal};

const C: usize = 6;
const KINDS_AT: usize = 32;
const BLOCKS_AT: usize = KINDS_AT + C;
const BEYOND: [u8; 3] = [0xEE; 3];

/// C 6, B 512, W 0, kinds 1 2 1 2 1 and one above U that would be a filemark, U 5.
fn image() -> Vec<u8> {
    let mut image = vec![0; BLOCKS_AT + C * 512];
    image[1] = 32;
    image[2] = 2;
    image[7] = C as u8;
    image[11] = 5;
    image[15] = KINDS_AT as u8;
    image[19] = BLOCKS_AT as u8;
    image[KINDS_AT..BLOCKS_AT].copy_from_slice(&[1, 2, 1, 2, 1, 2]);
    image
}

/// An image, its index with three bytes beyond, and a drive that has told of its reset.
fn ready() -> (Vec<u8>, Vec<u8>, Record) {
    let mut image = image();
    let mut index = vec![0xEE; ENTRY_LENGTH * C + BEYOND.len()];
    make(&image, &mut index).expect("a whole image and room enough");
    let mut record = Record::fresh();
    let answer = packet(&mut record, &mut image, &mut index, &[0; 12], &mut []);
    assert!(answer.is_ok_and(|answer| answer.status == CHECK_CONDITION));
    assert_eq!(record.sense().triple(), triple::RESET);
    (image, index, record)
}

fn refused_with<T>(number: u8) -> Result<T, Refusal> {
    let device = Device::Stream;
    Err(Refusal { number, device })
}

fn counted(opcode: u8, byte_1: u8, count: i8) -> [u8; 12] {
    let [high, middle, low] = match count {
        0.. => [0, 0, count as u8],
        _ => [0xFF, 0xFF, count as u8],
    };
    [opcode, byte_1, high, middle, low, 0, 0, 0, 0, 0, 0, 0]
}

fn filemarks(count: i8) -> [u8; 12] {
    counted(opcode::SPACE, space::FILEMARKS, count)
}

#[test]
fn an_index_is_made() {
    let mut index = vec![0xEE; ENTRY_LENGTH * C + BEYOND.len()];
    let made = Made {
        filemarks: 2,
        bytes: 24,
    };
    assert_eq!(make(&image(), &mut index), Ok(made));
    assert_eq!(index[..8], [0, 0, 0, 1, 0, 0, 0, 3]);
    assert_eq!(index[8..24], [0xFF; 16]);
    assert_eq!(index[24..], BEYOND);
    assert_eq!(places(&index).collect::<Vec<u32>>(), [1, 3]);
}

/// Behind the last entry of a full index nothing says that there is no more but the length.
#[test]
fn places_end_at_the_first_entry_without_a_filemark() {
    let entries = [7, NO_FILEMARK, 9].map(u32::to_be_bytes).concat();
    assert_eq!(places(&entries).collect::<Vec<u32>>(), [7]);
    assert_eq!(places(&entries[..4]).collect::<Vec<u32>>(), [7]);
    assert_eq!(places(&entries[..3]).count(), 0);
    assert_eq!(places(&entries[4..]).count(), 0);
}

#[test]
fn spacing_goes_by_the_entries() {
    let (mut image, mut index, mut record) = ready();
    let before = index.clone();
    let mut space = |count| {
        let sent = filemarks(count);
        let answer = packet(&mut record, &mut image, &mut index, &sent, &mut []);
        let status = answer.expect("a whole index").status;
        (status, record.position(), record.sense().information)
    };
    assert_eq!(space(1), (GOOD, 2, 0));
    assert_eq!(space(2), (CHECK_CONDITION, 5, 1));
    assert_eq!(space(-2), (GOOD, 1, 0));
    assert_eq!(space(-1), (CHECK_CONDITION, 0, 1));
    assert_eq!(index, before);
}

/// 02, A4: "After every packet not refused it equals the index made afresh from the image".
#[test]
fn writing_keeps_the_index() {
    let (mut image, mut index, mut record) = ready();
    let mut send = |sent: &[u8; 12]| {
        let answer = packet(&mut record, &mut image, &mut index, sent, &mut [0x44; 512]);
        let found = places(&index[..ENTRY_LENGTH * C]).collect::<Vec<u32>>();
        (answer.expect("a whole index").blocks, found)
    };
    assert_eq!(send(&filemarks(1)), (0, vec![1, 3]));
    assert_eq!(send(&counted(opcode::WRITE, 1, 1)), (1, vec![1]));
    assert_eq!(
        send(&counted(opcode::WRITE_FILEMARK, 0, 2)),
        (2, vec![1, 3, 4])
    );
    assert_eq!(send(&counted(opcode::REWIND, 0, 0)), (0, vec![1, 3, 4]));
    let all = (6, vec![0, 1, 2, 3, 4, 5]);
    assert_eq!(send(&counted(opcode::WRITE_FILEMARK, 0, 7)), all);
    assert_eq!(image[KINDS_AT..BLOCKS_AT], [kind::FILEMARK; C]);
    assert_eq!(index[ENTRY_LENGTH * C..], BEYOND);
}

#[test]
fn a_refused_packet_changes_nothing() {
    let (mut image, index, mut record) = ready();
    let before = (record, image.clone());
    let mut last_wrong = index.clone();
    last_wrong[23] = 5;
    for (index, number) in [
        (&index[..23], 9),
        (&[], 9),
        (&last_wrong[..], 10),
        (&last_wrong[..23], 9),
        (&[0; 24], 10),
    ] {
        let mut lent = index.to_vec();
        for opcode in [opcode::REQUEST_SENSE, opcode::INQUIRY, opcode::READ] {
            let sent = counted(opcode, 1, 0);
            let answer = packet(&mut record, &mut image, &mut lent, &sent, &mut []);
            assert_eq!(answer, refused_with(number));
        }
        assert_eq!(
            (record, image.clone(), &lent[..]),
            (before.0, before.1.clone(), index)
        );
    }
}

#[test]
fn the_numbers_come_in_their_order() {
    let (mut image, _, record) = ready();
    let mut lost = record;
    lost.0[3] = 6;
    let mut none = [];
    let mut wrong = [0; ENTRY_LENGTH * C];
    let cut = [0; 11];
    let whole = counted(opcode::READ, 1, 1);
    let mut damaged = image.clone();
    damaged[31] = 1;
    assert_eq!(
        packet(&mut lost, &mut damaged, &mut none, &cut, &mut []),
        refused_with(1)
    );
    assert_eq!(
        packet(&mut lost, &mut damaged, &mut none, &whole, &mut []),
        refused_with(2)
    );
    assert_eq!(
        packet(&mut lost, &mut image, &mut none, &whole, &mut []),
        refused_with(3)
    );
    let mut record = record;
    assert_eq!(
        packet(&mut record, &mut image, &mut none, &whole, &mut []),
        refused_with(9)
    );
    assert_eq!(
        packet(&mut record, &mut image, &mut wrong, &whole, &mut []),
        refused_with(10)
    );
    make(&image, &mut wrong).expect("room enough");
    assert_eq!(
        packet(&mut record, &mut image, &mut wrong, &whole, &mut []),
        refused_with(4)
    );
    assert_eq!(make(&damaged, &mut none), refused_with(2));
    assert_eq!(make(&image, &mut wrong[..23]), refused_with(9));
}

/// Bytes beyond four times the capacity are no part of the index, whatever they hold.
#[test]
fn bytes_beyond_are_not_looked_at() {
    let (mut image, mut index, mut record) = ready();
    index[ENTRY_LENGTH * C..].fill(0x11);
    let answer = packet(&mut record, &mut image, &mut index, &filemarks(2), &mut []);
    let done = Answer {
        status: GOOD,
        blocks: 0,
        bytes: 0,
        marked: 0,
    };
    assert_eq!((answer, record.position()), (Ok(done), 4));
    assert_eq!(index[ENTRY_LENGTH * C..], [0x11; 3]);
}
