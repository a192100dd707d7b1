//! The packet drive at its borders: every header rule, buffer length, opcode and field, a small world in full, the largest images.

use std::collections::BTreeSet;

use compare::{Difference, PacketBench, Random, Shape, agree, say};
use model::Bug;
use model::packet::Ending;
use tapecard::bytes::{opcode, page, put_count, put_long, put_word, space, triple};

type Outcome = Result<(), Box<Difference>>;

const TOUCHED: [u8; 12] = [0x5C; 12];

/// Loaded, no attention, at this position.
fn record_at(position: u32) -> [u8; 16] {
    let mut record = [0; 16];
    put_long(&mut record, 0, position);
    record[4] = 1;
    record
}

fn plain(opcode: u8, byte_1: u8, count: u32) -> [u8; 12] {
    let mut packet = [0; 12];
    packet[0] = opcode;
    packet[1] = byte_1;
    put_count(&mut packet, 2, count);
    packet
}

fn locate(target: u32) -> [u8; 12] {
    let mut packet = [0; 12];
    packet[0] = opcode::LOCATE;
    put_long(&mut packet, 3, target);
    packet
}

/// Whether the image is refused, asked by packets that answer in very different ways.
fn image_is_refused(bench: &mut PacketBench, image: &[u8]) -> Result<bool, Box<Difference>> {
    bench.begin(&record_at(0), image);
    let mut refused = Vec::new();
    for packet in [
        plain(opcode::REQUEST_SENSE, 0, 20),
        plain(opcode::READ, 1, 1),
        plain(opcode::WRITE, 1, 1),
    ] {
        let ending = bench.send(&packet, &[0x11; 1024])?;
        refused.push(ending == Ending::Refused(2));
    }
    assert!(refused.iter().all(|&r| r == refused[0]));
    Ok(refused[0])
}

#[test]
fn every_header_rule() {
    let mut bench = PacketBench::new(Bug::None, 0);
    for size in [512, 1024] {
        for (gap, tail) in [(0, 0), (5, 0), (0, 3)] {
            agree(header_rules(&mut bench, size, gap, tail));
        }
    }
    say(&format!(
        "header rules: {} calls compared",
        bench.seen.calls
    ));
}

fn header_rules(bench: &mut PacketBench, size: u16, gap: usize, tail: usize) -> Outcome {
    let base = Shape {
        kinds_gap: gap,
        blocks_gap: gap,
        tail,
        ..Shape::plain(size, 3, 2)
    };
    let good = base.image(&mut Random::new(1));
    let slack = gap as u32;
    let end = 32 + 2 * slack + 3 + 3 * u32::from(size);
    let longs: [(usize, u32, bool); 20] = [
        (4, 0, true),
        (4, 1, true),
        (4, 65_535, true),
        (4, 65_536, true),
        (4, u32::MAX, true),
        (8, 0, false),
        (8, 3, false),
        (8, 4, true),
        (8, u32::MAX, true),
        (12, 0, true),
        (12, 31, true),
        (12, 32, false),
        (12, 32 + 2 * slack, false),
        (12, 33 + 2 * slack, true),
        (12, u32::MAX - 2, true),
        (12, u32::MAX, true),
        (16, 34 + slack, true),
        (16, end - 3 * u32::from(size) + tail as u32 + 1, true),
        (16, u32::MAX - 3 * u32::from(size) + 1, true),
        (16, u32::MAX, true),
    ];
    for (at, value, refused) in longs {
        let mut image = good.clone();
        put_long(&mut image, at, value);
        assert_eq!(image_is_refused(bench, &image)?, refused, "{at}: {value}");
    }
    for (at, value, refused) in [
        (0, 31, true),
        (0, 33, true),
        (2, 0, true),
        (2, 511, true),
        (2, 513, true),
        (2, 1023, true),
        (2, 1025, true),
        (22, 3, false),
        (22, 4, true),
        (22, 0xFFFF, true),
    ] {
        let mut image = good.clone();
        put_word(&mut image, at, value);
        assert_eq!(image_is_refused(bench, &image)?, refused, "{at}: {value}");
    }
    header_bytes(bench, &good)?;
    image_lengths(bench, &good, end as usize)
}

fn header_bytes(bench: &mut PacketBench, good: &[u8]) -> Outcome {
    for value in 0..=255 {
        let mut image = good.to_vec();
        image[20] = value;
        assert_eq!(image_is_refused(bench, &image)?, value > 1);
        let mut image = good.to_vec();
        image[21] = value;
        assert!(!image_is_refused(bench, &image)?);
        for at in 24..32 {
            let mut image = good.to_vec();
            image[at] = value;
            assert_eq!(image_is_refused(bench, &image)?, value != 0);
        }
    }
    Ok(())
}

fn image_lengths(bench: &mut PacketBench, good: &[u8], needed: usize) -> Outcome {
    for length in (0..=40).chain([needed - 1, needed, needed + 1]) {
        let mut image = good.to_vec();
        image.resize(length, 0);
        assert_eq!(image_is_refused(bench, &image)?, length < needed);
    }
    Ok(())
}

#[test]
fn every_buffer_length() {
    let mut bench = PacketBench::new(Bug::None, 0);
    for size in [512, 1024] {
        let image = Shape::plain(size, 5, 5).image(&mut Random::new(2));
        for opcode in [opcode::READ, opcode::WRITE] {
            for count in 0..=6 {
                let need = count as usize * usize::from(size);
                let packet = plain(opcode, 1, count);
                agree(lengths_around(&mut bench, &image, &packet, need));
            }
        }
        for (opcode, whole) in [
            (opcode::REQUEST_SENSE, 20),
            (opcode::INQUIRY, 36),
            (opcode::MODE_SENSE, 12),
        ] {
            for asked in 0..=255u8 {
                let need = usize::from(asked).min(whole);
                let packet = plain(opcode, 0, u32::from(asked));
                agree(lengths_around(&mut bench, &image, &packet, need));
            }
        }
        for asked in 0..=255u8 {
            let packet = plain(opcode::MODE_SENSE, 0, 0x2A_0000 + u32::from(asked));
            let need = usize::from(asked).min(32);
            agree(lengths_around(&mut bench, &image, &packet, need));
            let packet = plain(opcode::MODE_SELECT, 0, u32::from(asked));
            agree(lengths_around(
                &mut bench,
                &image,
                &packet,
                usize::from(asked),
            ));
        }
        agree(lengths_around(
            &mut bench,
            &image,
            &plain(opcode::READ_POSITION, 0, 0),
            20,
        ));
        agree(huge_counts(&mut bench, &image, size));
    }
    say(&format!(
        "buffer lengths: {} calls compared",
        bench.seen.calls
    ));
}

fn lengths_around(
    bench: &mut PacketBench,
    image: &[u8],
    packet: &[u8; 12],
    need: usize,
) -> Outcome {
    for length in [0, need.saturating_sub(1), need, need + 1, need + 77] {
        bench.begin(&record_at(0), image);
        let mut data = vec![0x77; length];
        if packet[0] == opcode::MODE_SELECT && length >= 32 {
            data[12..14].copy_from_slice(&[page::CODE, page::LENGTH]);
            put_word(&mut data, 26, 125);
        }
        let ending = bench.send(packet, &data)?;
        let wrong_field = ending == Ending::BadListLength;
        assert!(wrong_field || (ending == Ending::Refused(4)) == (length < need));
    }
    Ok(())
}

/// N * B passes 32 bits.
fn huge_counts(bench: &mut PacketBench, image: &[u8], size: u16) -> Outcome {
    let wraps = 0x1_0000_0000 / u64::from(size);
    for opcode in [opcode::READ, opcode::WRITE] {
        for count in [0xFF_FFFF, 0x80_0000, wraps as u32, wraps as u32 + 1] {
            for length in [0, 512, 1024, 4096] {
                bench.begin(&record_at(5), image);
                let ending = bench.send(&plain(opcode, 1, count), &vec![0x33; length])?;
                assert_eq!(ending, Ending::Refused(4));
            }
        }
    }
    bench.begin(&record_at(0), image);
    bench.send(&plain(opcode::WRITE_FILEMARK, 0, 0xFF_FFFF), &[])?;
    Ok(())
}

#[test]
fn every_opcode_and_field_byte() {
    let mut bench = PacketBench::new(Bug::None, 0);
    let image = Shape::plain(512, 4, 3).image(&mut Random::new(3));
    for opcode in 0..=255 {
        for byte in 0..=255 {
            for field in [1, 2, 4] {
                let mut packet = plain(opcode, 1, 0);
                packet[field] = byte;
                bench.begin(&record_at(2), &image);
                agree(bench.send(&packet, &[0x99; 600]).map(|_| ()));
            }
        }
        for reserved in 5..12 {
            let mut packet = plain(opcode, 1, 1);
            packet[reserved] = 0xFF;
            bench.begin(&record_at(2), &image);
            agree(bench.send(&packet, &[0x99; 600]).map(|_| ()));
        }
    }
    say(&format!("fields: {} calls compared", bench.seen.calls));
}

/// Three elements, every kind, U, W and P, and every packet that moves or transfers.
#[test]
fn a_small_world_in_full() {
    let mut bench = PacketBench::new(Bug::None, 0);
    for recorded in 0..=3 {
        for warning in 0..=3 {
            let met = agree(small_world(&mut bench, recorded, warning));
            let eom = recorded > 3 - u32::from(warning);
            assert_eq!(met, ends_of_data(eom), "U {recorded}, W {warning}");
        }
    }
    say(&format!("small world: {} calls compared", bench.seen.calls));
}

/// The packets that met the end of data, by their first two bytes, with the EOM that the engine's record then had.
type EndsOfData = BTreeSet<(u8, u8, bool)>;

/// 02, A3: "So 8/00/05 on READ and SPACE carries EOM when U > C - W."; LOCATE's never does.
fn ends_of_data(eom: bool) -> EndsOfData {
    BTreeSet::from([
        (opcode::READ, 1, eom),
        (opcode::SPACE, space::BLOCKS, eom),
        (opcode::SPACE, space::FILEMARKS, eom),
        (opcode::LOCATE, 0, false),
    ])
}

/// Every kind, P and packet, with this U and W.
fn small_world(
    bench: &mut PacketBench,
    recorded: u32,
    warning: u16,
) -> Result<EndsOfData, Box<Difference>> {
    let packets = moving_packets();
    let mut met = BTreeSet::new();
    for kinds in 0..27 {
        let image = small_image(kinds, recorded, warning);
        for position in 0..=recorded {
            for packet in &packets {
                bench.begin(&record_at(position), &image);
                bench.send(packet, &[0x42; 6 * 512])?;
                met.extend(end_of_data_met(bench, packet));
            }
        }
    }
    Ok(met)
}

fn end_of_data_met(bench: &PacketBench, packet: &[u8; 12]) -> Option<(u8, u8, bool)> {
    let met = bench.record()[8..11] == triple::END_OF_DATA;
    met.then(|| (packet[0], packet[1], bench.record()[11] & 2 != 0))
}

fn small_image(kinds: u8, recorded: u32, warning: u16) -> Vec<u8> {
    let mut image = Shape::plain(512, 3, recorded).image(&mut Random::new(4));
    image[32] = kinds % 3;
    image[33] = kinds / 3 % 3;
    image[34] = kinds / 9;
    put_word(&mut image, 22, warning);
    image
}

fn moving_packets() -> Vec<[u8; 12]> {
    let mut packets = Vec::new();
    for count in 0..=5 {
        packets.push(plain(opcode::READ, 1, count));
        packets.push(plain(opcode::WRITE, 1, count));
        packets.push(plain(opcode::WRITE_FILEMARK, 0, count));
        packets.push(locate(count));
    }
    for code in [0, 1, 3] {
        for count in 0..=5 {
            packets.push(plain(opcode::SPACE, code, count));
            packets.push(plain(opcode::SPACE, code, 0xFF_FFFF - count));
        }
        packets.push(plain(opcode::SPACE, code, 0x80_0000));
    }
    packets.push(plain(opcode::REWIND, 0, 0));
    packets.push(plain(opcode::READ_POSITION, 0, 0));
    packets
}

/// Every record rule at its border, with a packet that needs nothing else.
#[test]
fn every_record_rule() {
    let mut bench = PacketBench::new(Bug::None, 0);
    let image = Shape::plain(512, 4, 3).image(&mut Random::new(5));
    for speed in 0..=u16::MAX {
        let mut record = record_at(3);
        put_word(&mut record, 6, speed);
        let refused = ![0, 62, 125, 250, 500].contains(&speed);
        bench.begin(&record, &image);
        let ending = bench.send(&plain(opcode::TEST_UNIT_READY, 0, 0), &[]);
        agree(ending.map(|ending| assert_eq!(ending == Ending::Refused(3), refused)));
    }
    for key in 0..=255 {
        let mut record = record_at(3);
        record[8] = key;
        agree(refused_by_3(&mut bench, &image, &record, key > 15));
    }
    for (position, refused) in [(0, false), (3, false), (4, true), (u32::MAX, true)] {
        let record = record_at(position);
        agree(refused_by_3(&mut bench, &image, &record, refused));
    }
    for byte in [4, 5, 9, 10, 11] {
        for value in 0..=255 {
            let mut record = record_at(3);
            record[byte] = value;
            agree(refused_by_3(&mut bench, &image, &record, false));
        }
    }
    say(&format!(
        "record rules: {} calls compared",
        bench.seen.calls
    ));
}

fn refused_by_3(
    bench: &mut PacketBench,
    image: &[u8],
    record: &[u8; 16],
    refused: bool,
) -> Outcome {
    for opcode in [
        opcode::TEST_UNIT_READY,
        opcode::REQUEST_SENSE,
        opcode::INQUIRY,
    ] {
        bench.begin(record, image);
        let ending = bench.send(&plain(opcode, 0, 36), &[0; 36])?;
        assert_eq!(ending == Ending::Refused(3), refused);
    }
    bench.begin(record, image);
    bench.change()
}

/// C 65,535: the border of early warning where W needs both its bytes.
#[test]
fn the_largest_early_warnings() {
    let mut bench = PacketBench::new(Bug::None, 0);
    let image = Shape::plain(512, 65_535, 0).image(&mut Random::new(10));
    bench.begin(&record_at(0), &image);
    for (recorded, warning, eom) in [
        (65_535, 0, false),
        (65_535 - 256, 256, false),
        (65_535 - 255, 256, true),
        (0, 65_535, false),
        (1, 65_535, true),
    ] {
        bench.edit_image(|image| {
            put_long(image, 8, recorded);
            put_word(image, 22, warning);
        });
        let mut met = BTreeSet::new();
        for packet in [
            plain(opcode::READ, 1, 1),
            plain(opcode::SPACE, space::BLOCKS, 1),
            plain(opcode::SPACE, space::FILEMARKS, 1),
            locate(recorded + 1),
        ] {
            bench.set_record(&record_at(recorded));
            agree(bench.send(&packet, &[0x42; 512]).map(|_| ()));
            met.extend(end_of_data_met(&bench, &packet));
        }
        assert_eq!(met, ends_of_data(eom), "U {recorded}, W {warning}");
    }
    say(&format!(
        "largest early warnings: {} calls compared",
        bench.seen.calls
    ));
}

/// C 65,535: passed over and filled to the end; with the smaller blocks written and read as a whole.
#[test]
fn the_largest_images() {
    for size in [512, 1024] {
        let mut bench = PacketBench::new(Bug::None, 0);
        let image = Shape::plain(size, 65_535, 65_535).image(&mut Random::new(6));
        bench.begin(&record_at(0), &image);
        agree(to_the_end_of_a_large_image(&mut bench, usize::from(size)));
        if size == 512 {
            agree(over_a_whole_large_image(&mut bench, usize::from(size)));
        }
        say(&format!(
            "largest image of {} bytes: {} calls compared",
            image.len(),
            bench.seen.calls
        ));
    }
}

fn to_the_end_of_a_large_image(bench: &mut PacketBench, size: usize) -> Outcome {
    bench.send(&plain(opcode::SPACE, 1, 0x7F_FFFF), &TOUCHED)?;
    bench.send(&plain(opcode::SPACE, 1, 0x80_0000), &TOUCHED)?;
    bench.send(&plain(opcode::SPACE, 0, 0x1_0000), &TOUCHED)?;
    bench.send(&locate(65_535), &TOUCHED)?;
    bench.send(&plain(opcode::READ_POSITION, 0, 0), &[0; 20])?;
    bench.send(&locate(65_536), &TOUCHED)?;
    bench.send(&locate(65_530), &TOUCHED)?;
    let mut data = vec![0; 8 * size];
    Random::new(7).fill(&mut data);
    let ending = bench.send(&plain(opcode::WRITE, 1, 8), &data)?;
    assert_eq!(ending, Ending::CartridgeFull);
    assert_eq!(bench.answer()[4..8], [0, 0, 0, 5]);
    Ok(())
}

fn over_a_whole_large_image(bench: &mut PacketBench, size: usize) -> Outcome {
    bench.send(&plain(opcode::REWIND, 0, 0), &[])?;
    let mut everything = vec![0; 65_535 * size];
    let ending = bench.send(&plain(opcode::WRITE, 1, 65_535), &everything)?;
    assert_eq!(ending, Ending::Good);
    everything.fill(0xEE);
    bench.send(&plain(opcode::REWIND, 0, 0), &[])?;
    let ending = bench.send(&plain(opcode::READ, 1, 65_535), &everything)?;
    assert_eq!(ending, Ending::Good);
    assert!(bench.data().iter().all(|&byte| byte == 0));
    bench.send(&plain(opcode::SPACE, 0, 0x80_0000), &TOUCHED)?;
    bench.send(&locate(100), &TOUCHED)?;
    bench.send(&plain(opcode::WRITE_FILEMARK, 0, 0xFF_FFFF), &[])?;
    bench.send(&plain(opcode::SPACE, 1, 0x80_0000), &TOUCHED)?;
    Ok(())
}
