//! Small tapes with their indexes, records and packets.

use compare::{IndexBench, Random, Shape, StreamBench};
use model::Bug;
use tapecard::bytes::triple::{self, Triple};
use tapecard::bytes::{kind, opcode, put_count, put_long, space};

pub const D: u8 = kind::DATA;
pub const F: u8 = kind::FILEMARK;
pub const KINDS_AT: usize = 32;
/// What is lent beyond an index.
pub const BEYOND: [u8; 6] = [0xEE, 0, 0, 0, 9, 0xFF];

/// A block, a filemark, a block, two filemarks, and above U what would be one more: C 6, U 5.
pub const SMALL: [u8; 6] = [D, F, D, F, F, F];
pub const SMALL_PLACES: [usize; 3] = [1, 3, 4];

pub fn small() -> Vec<u8> {
    tape(&SMALL, 5, 0)
}

/// As many elements as there are kinds, of 512 bytes.
pub fn tape(kinds: &[u8], recorded: usize, warning: usize) -> Vec<u8> {
    let mut shape = Shape::plain(512, kinds.len() as u32, recorded as u32);
    shape.warning = warning as u16;
    let mut image = shape.image(&mut Random::new(14));
    image[KINDS_AT..][..kinds.len()].copy_from_slice(kinds);
    image
}

/// Every tape of so many blocks and filemarks with every U and every place up to it.
pub fn places_of_tapes(capacity: usize) -> impl Iterator<Item = (Vec<u8>, usize, usize)> {
    tapes_of(capacity).flat_map(move |kinds| {
        let places =
            (0..=capacity).flat_map(|recorded| (0..=recorded).map(move |at| (recorded, at)));
        places.map(move |(recorded, place)| (kinds.clone(), recorded, place))
    })
}

/// Every tape of so many blocks and filemarks.
pub fn tapes_of(capacity: usize) -> impl Iterator<Item = Vec<u8>> {
    (0..1 << capacity).map(move |bits: usize| {
        let kind_at = |element| if bits >> element & 1 == 1 { F } else { D };
        (0..capacity).map(kind_at).collect()
    })
}

/// The filemarks among the first elements.
pub fn filemarks(kinds: &[u8], recorded: usize) -> Vec<usize> {
    (0..recorded).filter(|&place| kinds[place] == F).collect()
}

/// The index of these places on a tape of so many elements, and nothing beyond.
pub fn index_of(capacity: usize, places: &[usize]) -> Vec<u8> {
    let mut index = vec![0xFF; 4 * capacity];
    for (entry, place) in index.chunks_mut(4).zip(places) {
        entry.copy_from_slice(&[0, 0, (place / 256) as u8, (place % 256) as u8]);
    }
    index
}

/// The same with bytes beyond.
pub fn long_index_of(capacity: usize, places: &[usize]) -> Vec<u8> {
    [&index_of(capacity, places), &BEYOND[..]].concat()
}

/// Loaded, no attention, speed 125, an old sense with a residue of 7.
pub fn record(place: usize) -> [u8; 16] {
    let mut record = [0, 0, 0, 0, 1, 0, 0, 125, 3, 0x11, 0, 1, 0, 0, 0, 7];
    put_long(&mut record, 0, place as u32);
    record
}

/// The same record with one other byte.
pub fn record_with(place: usize, at: usize, value: u8) -> [u8; 16] {
    let mut record = record(place);
    record[at] = value;
    record
}

/// A triple, its flags and its information.
pub type Sense = (Triple, u8, u32);
pub const GOOD: Sense = (triple::NOTHING, 0, 0);
/// The flags.
pub const VALID: u8 = 1;
pub const EOM: u8 = 2;

/// The record at another place with another sense and no attention.
pub fn record_after(before: &[u8; 16], place: usize, (sense, flags, residue): Sense) -> [u8; 16] {
    let mut after = *before;
    put_long(&mut after, 0, place as u32);
    after[5] = 0;
    after[8..11].copy_from_slice(&sense);
    after[11] = flags;
    put_long(&mut after, 12, residue);
    after
}

pub fn counted(opcode: u8, byte_1: u8, count: i32) -> [u8; 12] {
    let mut packet = [0; 12];
    packet[..2].copy_from_slice(&[opcode, byte_1]);
    put_count(&mut packet, 2, count as u32);
    packet
}

pub fn over_filemarks(count: i32) -> [u8; 12] {
    counted(opcode::SPACE, space::FILEMARKS, count)
}

pub fn new_bench() -> IndexBench {
    IndexBench::new(Bug::None, 0)
}

/// A bench over this record, this tape and this index.
pub fn bench_with(record: &[u8; 16], image: &[u8], index: &[u8]) -> IndexBench {
    let mut bench = new_bench();
    set(&mut bench, record, image, index);
    bench
}

pub fn set(bench: &mut IndexBench, record: &[u8; 16], image: &[u8], index: &[u8]) {
    bench.begin(record, image);
    bench.set_index(index);
}

/// The answer of a refusal.
pub fn refusal(number: u8) -> [u8; 16] {
    let mut answer = [0; 16];
    answer[0] = number;
    answer
}

/// The packet left this record and this index, and its answer tells of no block and of no byte.
pub fn leaves(bench: &IndexBench, record: &[u8; 16], index: &[u8]) {
    assert_eq!(bench.record(), record);
    assert!(bench.index() == index, "{:?} for {index:?}", bench.index());
    let mut answer = [0; 16];
    let sense = &record[8..];
    answer[1] = if sense == [0; 8] { 0 } else { 2 };
    assert_eq!(bench.answer(), &answer);
}
