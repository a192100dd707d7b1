//! Marked blocks (02, A6) at their borders, on both packet devices: every kind at every place of a small tape with every packet that
//! asks for kinds, what is read back afterwards, every value of a kind, the endings without a count, the largest counts.

use std::iter::repeat_n;

use compare::floppy_sessions::{Factors, put_factors};
use compare::{Difference, FloppyBench, ImageBench, PacketBench, Random, Shape, agree, say};
use model::Bug;
use model::packet::Ending;
use tapecard::bytes::{kind, long_at, opcode, put_count, put_long, space};

type Outcome = Result<(), Box<Difference>>;

/// Those with a meaning of their own, and the unreadable ones beside them.
const KINDS: [u8; 7] = [0, 1, 2, 3, 4, 5, 255];
/// Elements of the small tape.
const C: usize = 3;
const KINDS_AT: usize = 32;
/// Where a record has its flags: WDAM is the highest.
const FLAGS_AT: usize = 19;

fn tape(kinds: &[u8], recorded: usize) -> Vec<u8> {
    let shape = Shape::plain(512, kinds.len() as u32, recorded as u32);
    let mut image = shape.image(&mut Random::new(11));
    image[KINDS_AT..][..kinds.len()].copy_from_slice(kinds);
    image
}

/// Every way to choose a kind for each element.
fn all_kinds() -> impl Iterator<Item = [u8; C]> {
    let count = KINDS.len();
    (0..count.pow(3))
        .map(move |n| [n % count, n / count % count, n / count / count].map(|k| KINDS[k]))
}

/// Loaded, no attention, at this position.
fn stream_record(position: usize) -> [u8; 16] {
    let mut record = [0; 16];
    put_long(&mut record, 0, position as u32);
    record[4] = 1;
    record
}

fn floppy_record(position: usize, factors: Factors, flags: u8) -> [u8; 32] {
    let mut record = [0; 32];
    record[..16].copy_from_slice(&stream_record(position));
    put_factors(&mut record, factors);
    record[FLAGS_AT] = flags;
    record
}

fn counted(opcode: u8, byte_1: u8, count: u32) -> [u8; 12] {
    let mut packet = [0; 12];
    packet[0] = opcode;
    packet[1] = byte_1;
    put_count(&mut packet, 2, count);
    packet
}

fn read(count: usize) -> [u8; 12] {
    counted(opcode::READ, 1, count as u32)
}

fn write(count: usize) -> [u8; 12] {
    counted(opcode::WRITE, 1, count as u32)
}

fn locate_0() -> [u8; 12] {
    counted(opcode::LOCATE, 0, 0)
}

/// Of the answer: blocks, and how many of these were marked.
fn counts<const RECORD: usize>(bench: &ImageBench<RECORD>) -> (usize, usize) {
    let answer = bench.answer();
    (long_at(answer, 4) as usize, long_at(answer, 12) as usize)
}

/// "READ copies it as data .. and a READ's answer also says how many of the blocks copied were marked.": what a READ answers that has
/// these kinds ahead of it.
fn copied(ahead: &[u8], asked: usize) -> (usize, usize) {
    let data = |kind: &&u8| [kind::DATA, kind::MARKED].contains(*kind);
    let blocks: Vec<&u8> = ahead.iter().take(asked).take_while(data).collect();
    let marked = blocks.iter().filter(|kind| ***kind == kind::MARKED).count();
    (blocks.len(), marked)
}

/// A READ of the whole tape from its beginning finds the kinds that the image has.
fn reads_back<const RECORD: usize>(bench: &mut ImageBench<RECORD>, end: usize) -> Outcome {
    bench.send(&locate_0(), &[])?;
    bench.send(&read(C), &[0x33; C * 512])?;
    let kinds = &kinds_in(bench.image())[..end];
    assert_eq!(counts(bench), copied(kinds, C), "kinds {kinds:?}");
    Ok(())
}

fn kinds_in(image: &[u8]) -> &[u8] {
    &image[KINDS_AT..][..C]
}

/// The image's kinds, but for elements of this kind stored from a place on.
fn stored(image: &[u8], from: usize, end: usize, kind: u8) -> Vec<u8> {
    let mut kinds = kinds_in(image).to_vec();
    kinds[from..end].fill(kind);
    kinds
}

#[test]
fn every_kind_at_every_place_of_the_stream_device() {
    let mut bench = PacketBench::new(Bug::None, 0);
    for kinds in all_kinds() {
        for recorded in 0..=C {
            let image = tape(&kinds, recorded);
            for from in 0..=recorded {
                agree(stream_reads(
                    &mut bench,
                    &image,
                    &kinds[from..recorded],
                    from,
                ));
                agree(stream_stores(&mut bench, &image, from));
                agree(stream_spaces(&mut bench, &image, from));
            }
        }
    }
    say(&format!(
        "marked blocks of the stream device: {} calls compared",
        bench.seen.calls
    ));
}

/// READs of every length; kinds at U and above mean nothing, 4 too.
fn stream_reads(bench: &mut PacketBench, image: &[u8], ahead: &[u8], from: usize) -> Outcome {
    for count in 0..=C + 1 {
        bench.begin(&stream_record(from), image);
        bench.send(&read(count), &[0x33; (C + 1) * 512])?;
        assert_eq!(counts(bench), copied(ahead, count));
    }
    Ok(())
}

/// "WRITE still stores kind 1.", and WRITE FILEMARK kind 2, over whatever stood there; neither tells of marked blocks.
fn stream_stores(bench: &mut PacketBench, image: &[u8], from: usize) -> Outcome {
    for (opcode, kind) in [
        (opcode::WRITE, kind::DATA),
        (opcode::WRITE_FILEMARK, kind::FILEMARK),
    ] {
        for count in 1..=C {
            bench.begin(&stream_record(from), image);
            bench.send(&counted(opcode, 1, count as u32), &[0x44; C * 512])?;
            let end = (from + count).min(C);
            assert_eq!(counts(bench), (end - from, 0));
            assert_eq!(kinds_in(bench.image()), stored(image, from, end, kind));
            reads_back(bench, end)?;
        }
    }
    Ok(())
}

/// "SPACE counts it as a block": over marked blocks it does what it does over plain ones, and tells of none.
fn stream_spaces(bench: &mut PacketBench, image: &[u8], from: usize) -> Outcome {
    let plain = unmarked(image);
    for packet in spaces() {
        bench.begin(&stream_record(from), &plain);
        bench.send(&packet, &[])?;
        let expected = (*bench.record(), *bench.answer());
        bench.begin(&stream_record(from), image);
        bench.send(&packet, &[])?;
        assert_eq!((*bench.record(), *bench.answer()), expected);
        assert_eq!(counts(bench), (0, 0));
    }
    Ok(())
}

/// The same image with data for every marked block.
fn unmarked(image: &[u8]) -> Vec<u8> {
    let mut plain = image.to_vec();
    for element in &mut plain[KINDS_AT..][..C] {
        if *element == kind::MARKED {
            *element = kind::DATA;
        }
    }
    plain
}

/// Over blocks and over filemarks, one to four on and back.
fn spaces() -> impl Iterator<Item = [u8; 12]> {
    let counts = (1..=4).chain(0xFF_FFFC..=0xFF_FFFF);
    counts.flat_map(|count| {
        [space::BLOCKS, space::FILEMARKS].map(|code| counted(opcode::SPACE, code, count))
    })
}

#[test]
fn every_kind_at_every_place_of_the_floppy_device() {
    let mut bench = FloppyBench::new(Bug::None, 0);
    for kinds in all_kinds() {
        let image = tape(&kinds, C);
        for (product, from, record) in floppy_records() {
            let ahead = &kinds[from..product];
            agree(floppy_reads(&mut bench, &image, &record, ahead));
            agree(floppy_stores(&mut bench, &image, &record, product));
        }
        agree(floppy_starts(&mut bench, &image));
    }
    say(&format!(
        "marked blocks of the floppy device: {} calls compared",
        bench.seen.calls
    ));
}

/// Records at every place of tapes of no block, of two and of three, with WDAM clear and set: the product, the place, the record.
fn floppy_records() -> Vec<(usize, usize, [u8; 32])> {
    let mut records = Vec::new();
    for (product, factors) in [(0, (0, 1, 1)), (2, (1, 2, 1)), (3, (3, 1, 1))] {
        for from in 0..=product {
            for flags in [0x00, 0x80] {
                records.push((product, from, floppy_record(from, factors, flags)));
            }
        }
    }
    records
}

fn floppy_reads(bench: &mut FloppyBench, image: &[u8], record: &[u8; 32], ahead: &[u8]) -> Outcome {
    for count in 0..=C + 1 {
        bench.begin(record, image);
        bench.send(&read(count), &[0x33; (C + 1) * 512])?;
        assert_eq!(counts(bench), copied(ahead, count));
    }
    Ok(())
}

/// "WRITE still stores kind 1.", whatever WDAM says; 10h, which flushes, leaves every kind.
fn floppy_stores(
    bench: &mut FloppyBench,
    image: &[u8],
    record: &[u8; 32],
    product: usize,
) -> Outcome {
    let from = long_at(record, 0) as usize;
    for count in 1..=C {
        bench.begin(record, image);
        bench.send(&write(count), &[0x44; C * 512])?;
        let end = (from + count).min(product);
        assert_eq!(counts(bench), (end - from, 0));
        let kinds = stored(image, from, end, kind::DATA);
        assert_eq!(kinds_in(bench.image()), kinds);
        if product > 0 {
            reads_back(bench, product)?;
        }
    }
    bench.begin(record, image);
    bench.send(&counted(opcode::WRITE_FILEMARK, 0, 1), &[])?;
    assert_eq!((counts(bench), bench.image()), ((0, 0), image));
    Ok(())
}

/// The answers of the two calls that begin are 0 throughout.
fn floppy_starts(bench: &mut FloppyBench, image: &[u8]) -> Outcome {
    bench.begin(&floppy_record(0, (3, 1, 1), 0x80), image);
    bench.fresh()?;
    assert_eq!(bench.answer(), &[0; 16]);
    bench.change()?;
    assert_eq!(bench.answer(), &[0; 16]);
    Ok(())
}

/// "01's "every other value" no longer takes in 4", and only 4.
#[test]
fn every_value_of_a_kind() {
    let mut stream = PacketBench::new(Bug::None, 0);
    let mut floppy = FloppyBench::new(Bug::None, 0);
    for value in 0..=255 {
        let image = tape(&[value], 1);
        let (ending, of_the_floppy) = match value {
            kind::DATA | kind::MARKED => (Ending::Good, Ending::Good),
            kind::FILEMARK => (Ending::AtFilemark, Ending::AtUnreadable),
            _ => (Ending::AtUnreadable, Ending::AtUnreadable),
        };
        stream.begin(&stream_record(0), &image);
        assert_eq!(agree(stream.send(&read(1), &[0; 512])), ending, "{value}");
        assert_eq!(counts(&stream), copied(&[value], 1));
        floppy.begin(&floppy_record(0, (1, 1, 1), 0), &image);
        let ended = agree(floppy.send(&read(1), &[0; 512]));
        assert_eq!(ended, of_the_floppy, "{value}");
        assert_eq!(counts(&floppy), copied(&[value], 1));
    }
}

/// READs over marked blocks that copy none, refused, ended before the work, or of 0 blocks, each with its number and status.
#[test]
fn a_read_that_copies_nothing_counts_nothing() {
    let image = tape(&[kind::MARKED; C], C);
    let mut damaged = image.clone();
    damaged[31] = 1;
    let record = |at: usize, value: u8| {
        let mut record = floppy_record(0, (3, 1, 1), 0);
        record[at] = value;
        record
    };
    let good = record(4, 1);
    let bad_field = counted(opcode::READ, 0, 3);
    for (record, image, packet, room, number, status) in [
        (good, &image, &read(3)[..11], 3 * 512, 1, 0),
        (good, &damaged, &read(3)[..], 3 * 512, 2, 0),
        (record(3, 4), &image, &read(3), 3 * 512, 3, 0),
        (good, &image, &read(3), 3 * 512 - 1, 4, 0),
        (record(5, 1), &image, &read(3), 3 * 512, 0, 2),
        (record(5, 2), &image, &read(3), 3 * 512, 0, 2),
        (record(4, 0), &image, &read(3), 3 * 512, 0, 2),
        (good, &image, &bad_field, 3 * 512, 0, 2),
        (good, &image, &read(0), 0, 0, 0),
    ] {
        let mut expected = [0; 16];
        expected[..2].copy_from_slice(&[number, status]);
        let mut floppy = FloppyBench::new(Bug::None, 0);
        floppy.begin(&record, image);
        agree(floppy.send(packet, &vec![0; room]));
        assert_eq!(floppy.answer(), &expected);
        let mut stream = PacketBench::new(Bug::None, 0);
        stream.begin(record.first_chunk().expect("16 of 32 bytes"), image);
        agree(stream.send(packet, &vec![0; room]));
        assert_eq!(stream.answer(), &expected);
    }
}

/// As many marked blocks as a cartridge can hold, and about as many as one byte can tell: no count is cut.
#[test]
fn the_largest_counts() {
    let all: Vec<u8> = repeat_n(kind::MARKED, 65_535).collect();
    let mut stream = PacketBench::new(Bug::None, 0);
    stream.begin(&stream_record(0), &tape(&all, 65_535));
    let room = vec![0; 65_535 * 512];
    assert_eq!(agree(stream.send(&read(65_535), &room)), Ending::Good);
    assert_eq!(counts(&stream), (65_535, 65_535));
    let mut floppy = FloppyBench::new(Bug::None, 0);
    for marked in [254, 255, 256, 257] {
        let kinds: Vec<u8> = repeat_n(kind::MARKED, marked)
            .chain(repeat_n(kind::DATA, 3))
            .collect();
        let image = tape(&kinds, kinds.len());
        stream.begin(&stream_record(0), &image);
        agree(stream.send(&read(300), &room[..300 * 512]));
        assert_eq!(counts(&stream), (marked + 3, marked));
        floppy.begin(&floppy_record(0, (1, kinds.len() as u16, 1), 0), &image);
        agree(floppy.send(&read(255), &room[..255 * 512]));
        assert_eq!(counts(&floppy), (255, marked.min(255)));
    }
}
