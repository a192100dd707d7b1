//! The floppy tape device at its borders: every header and record rule, buffer length, opcode, field and list, a small world in full,
//! the largest images.

use std::collections::BTreeSet;

use compare::floppy_sessions::{FAR_ABOVE, Factors, put_factors};
use compare::{Difference, FloppyBench, Random, Shape, agree, say};
use model::Bug;
use model::packet::Ending;
use tapecard::bytes::{length, long_at, opcode, page, put_long, put_word, triple};

type Outcome = Result<(), Box<Difference>>;

/// An image with U = C.
fn full(size: u16, capacity: u32) -> Shape {
    Shape::plain(size, capacity, capacity)
}

/// Loaded, no attention, at this position, with these tape parameters.
fn record_at(position: u32, factors: Factors) -> [u8; 32] {
    let mut record = [0; 32];
    put_long(&mut record, 0, position);
    record[4] = 1;
    put_factors(&mut record, factors);
    record
}

fn plain(opcode: u8, byte_1: u8, byte_4: u8) -> [u8; 12] {
    let mut packet = [0; 12];
    packet[0] = opcode;
    packet[1] = byte_1;
    packet[4] = byte_4;
    packet
}

fn locate(block: u32) -> [u8; 12] {
    let mut packet = plain(opcode::LOCATE, 0, 0);
    put_long(&mut packet, 3, block);
    packet
}

fn mode_sense(page: u8, asked: u8) -> [u8; 12] {
    let mut packet = plain(opcode::MODE_SENSE, 0, asked);
    packet[2] = page;
    packet
}

/// MODE SELECT of a list that sets the tape parameters.
fn select() -> [u8; 12] {
    plain(opcode::MODE_SELECT, 0, length::MODE_WITH_TAPE_PAGE as u8)
}

/// A list that sets these tape parameters, with 77h wherever else a byte is free.
fn list_of(factors: Factors) -> [u8; length::MODE_WITH_TAPE_PAGE] {
    let mut list = [0x77; length::MODE_WITH_TAPE_PAGE];
    list[12] = page::TAPE_CODE;
    list[13] = page::TAPE_LENGTH;
    list[17] = factors.0;
    put_word(&mut list, 18, factors.1);
    put_word(&mut list, 20, factors.2);
    list
}

/// Whether the image is refused, asked by the two calls that begin and by packets that answer in very different ways.
fn image_is_refused(bench: &mut FloppyBench, image: &[u8]) -> Result<bool, Box<Difference>> {
    let record = record_at(0, (1, 1, 1));
    bench.begin(&record, image);
    let mut refused = vec![bench.fresh()? == 2];
    bench.set_record(&record);
    refused.push(bench.change()? == 2);
    bench.set_record(&record);
    for packet in [
        plain(opcode::REQUEST_SENSE, 0, 20),
        plain(opcode::READ, 1, 1),
        plain(opcode::WRITE, 1, 1),
    ] {
        let ending = bench.send(&packet, &[0x11; 1024])?;
        refused.push(ending == Ending::Refused(2));
    }
    assert!(refused.iter().all(|&r| r == refused[0]));
    Ok(refused[0])
}

#[test]
fn every_header_rule() {
    let mut bench = FloppyBench::new(Bug::None, 0);
    for size in [512, 1024] {
        let image = full(size, 3).image(&mut Random::new(1));
        agree(header_numbers(&mut bench, &image, u32::from(size)));
        agree(header_bytes(&mut bench, &image));
        for length in (0..=40).chain([image.len() - 1, image.len(), image.len() + 1]) {
            let mut cut = image.clone();
            cut.resize(length, 0);
            let refused = image_is_refused(&mut bench, &cut);
            agree(refused.map(|refused| assert_eq!(refused, length < image.len())));
        }
    }
    say(&format!(
        "floppy header rules: {} calls compared",
        bench.seen.calls
    ));
}

fn header_numbers(bench: &mut FloppyBench, good: &[u8], size: u32) -> Outcome {
    for (at, value, refused) in [
        (4, 0, true),
        (4, 2, true),
        (4, 4, true),
        (4, 65_536, true),
        (8, 0, true),
        (8, 2, true),
        (8, 3, false),
        (8, 4, true),
        (8, u32::MAX, true),
        (12, 31, true),
        (12, 33, true),
        (12, u32::MAX - 2, true),
        (16, 34, true),
        (16, 36, true),
        (16, u32::MAX - 3 * size + 1, true),
        (20, 0x0000_0003, false),
        (20, 0x0000_0004, true),
        (20, 0x01FF_0003, false),
        (20, 0x0200_0000, true),
    ] {
        let mut image = good.to_vec();
        put_long(&mut image, at, value);
        assert_eq!(image_is_refused(bench, &image)?, refused, "{at}: {value}");
    }
    for capacity in 0..=5 {
        let mut image = good.to_vec();
        put_long(&mut image, 4, capacity);
        put_long(&mut image, 8, capacity);
        let fits = (1..=3).contains(&capacity);
        assert_eq!(image_is_refused(bench, &image)?, !fits, "{capacity}");
    }
    Ok(())
}

fn header_bytes(bench: &mut FloppyBench, good: &[u8]) -> Outcome {
    for at in (0..4).chain(24..32) {
        for value in 0..=255 {
            let mut image = good.to_vec();
            image[at] = value;
            let refused = value != good[at];
            let other_size = at == 2 && value == 2;
            assert_eq!(image_is_refused(bench, &image)?, refused && !other_size);
        }
    }
    Ok(())
}

/// The two calls that begin, over records with every value in every byte.
#[test]
fn every_record_begins_again() {
    let mut bench = FloppyBench::new(Bug::None, 0);
    let image = full(512, 258).image(&mut Random::new(2));
    bench.begin(&[0; 32], &image);
    for at in 0..32 {
        for value in 0..=255 {
            let mut record = [0x9D; 32];
            record[at] = value;
            bench.set_record(&record);
            agree(bench.change().map(|number| assert_eq!(number, 0)));
            bench.set_record(&record);
            agree(bench.fresh().map(|number| assert_eq!(number, 0)));
        }
    }
    say(&format!(
        "floppy records that begin: {} calls compared",
        bench.seen.calls
    ));
}

#[test]
fn every_buffer_length() {
    let mut bench = FloppyBench::new(Bug::None, 0);
    for size in [512, 1024] {
        let image = full(size, 5).image(&mut Random::new(3));
        for count in (0..=6).chain([255]) {
            for opcode in [opcode::READ, opcode::WRITE] {
                let need = usize::from(count) * usize::from(size);
                let packet = plain(opcode, 1, count);
                agree(lengths_around(&mut bench, &image, &packet, need));
            }
        }
        for asked in 0..=255 {
            for (packet, whole) in [
                (plain(opcode::REQUEST_SENSE, 0, asked), length::SENSE),
                (plain(opcode::INQUIRY, 0, asked), length::INQUIRY),
                (mode_sense(0, asked), length::MODE_HEADER),
                (mode_sense(page::CODE, asked), length::MODE_WITH_PAGE),
                (
                    mode_sense(page::TAPE_CODE, asked),
                    length::MODE_WITH_TAPE_PAGE,
                ),
                (plain(opcode::MODE_SELECT, 0, asked), 255),
            ] {
                let need = usize::from(asked).min(whole);
                agree(lengths_around(&mut bench, &image, &packet, need));
            }
        }
    }
    say(&format!(
        "floppy buffer lengths: {} calls compared",
        bench.seen.calls
    ));
}

fn lengths_around(
    bench: &mut FloppyBench,
    image: &[u8],
    packet: &[u8; 12],
    need: usize,
) -> Outcome {
    for length in [0, need.saturating_sub(1), need, need + 1, need + 77] {
        bench.begin(&record_at(0, (5, 1, 1)), image);
        let mut data = vec![0x77; length];
        if packet[0] == opcode::MODE_SELECT && packet[4] == 32 && length >= 32 {
            data[12..14].copy_from_slice(&[page::CODE, page::LENGTH]);
            put_word(&mut data, 26, 125);
        } else if packet[0] == opcode::MODE_SELECT && length >= 28 {
            data[..28].copy_from_slice(&list_of((1, 1, 2)));
        }
        let ending = bench.send(packet, &data)?;
        let wrong_field = ending == Ending::BadListLength;
        assert!(wrong_field || (ending == Ending::Refused(4)) == (length < need));
    }
    Ok(())
}

#[test]
fn every_opcode_and_field_byte() {
    let mut bench = FloppyBench::new(Bug::None, 0);
    let image = full(512, 4).image(&mut Random::new(4));
    let record = record_at(2, (1, 3, 1));
    for opcode in 0..=255 {
        for byte in 0..=255 {
            for field in [1, 2, 4] {
                let mut packet = plain(opcode, 1, 0);
                packet[field] = byte;
                bench.begin(&record, &image);
                agree(bench.send(&packet, &[0x99; 600]).map(|_| ()));
            }
        }
        for reserved in (2..4).chain(5..12) {
            let mut packet = plain(opcode, 1, 1);
            packet[reserved] = 0xFF;
            bench.begin(&record, &image);
            agree(bench.send(&packet, &[0x99; 600]).map(|_| ()));
        }
    }
    say(&format!(
        "floppy fields: {} calls compared",
        bench.seen.calls
    ));
}

/// Three elements, every kind, W, product and P, and every packet that moves, transfers or sets the product.
#[test]
fn a_small_world_in_full() {
    let mut bench = FloppyBench::new(Bug::None, 0);
    for warning in 0..=3 {
        for (product, factors) in [
            (0, (0, 9, 9)),
            (1, (1, 1, 1)),
            (2, (2, 1, 1)),
            (2, (1, 1, 2)),
            (3, (1, 3, 1)),
            (3, (3, 1, 1)),
        ] {
            let flags = agree(small_world(&mut bench, warning, product, factors));
            let valid = BTreeSet::from([1]);
            assert_eq!(flags, valid, "no EOM: \"W plays no part\" (02, A1)");
        }
    }
    say(&format!(
        "small world of the floppy device: {} calls compared",
        bench.seen.calls
    ));
}

/// Every kind, P and packet, with this W and product; the flags that the engine's record had at the end of data.
fn small_world(
    bench: &mut FloppyBench,
    warning: u16,
    product: u32,
    factors: Factors,
) -> Result<BTreeSet<u8>, Box<Difference>> {
    let calls = moving_calls();
    let mut flags = BTreeSet::new();
    for kinds in 0..27 {
        let image = small_image(kinds, warning);
        for position in 0..=product {
            for (packet, data) in &calls {
                bench.begin(&record_at(position, factors), &image);
                bench.send(packet, data)?;
                let met = bench.record()[8..11] == triple::END_OF_DATA;
                flags.extend(met.then(|| bench.record()[11]));
            }
        }
    }
    Ok(flags)
}

/// Three elements, whose early warning must not matter.
fn small_image(kinds: u8, warning: u16) -> Vec<u8> {
    let mut image = full(512, 3).image(&mut Random::new(5));
    image[32] = kinds % 3;
    image[33] = kinds / 3 % 3;
    image[34] = kinds / 9;
    put_word(&mut image, 22, warning);
    image
}

fn moving_calls() -> Vec<([u8; 12], Vec<u8>)> {
    let mut calls = Vec::new();
    let blocks = vec![0x42; 6 * 512];
    for count in 0..=5 {
        for packet in [
            plain(opcode::READ, 1, count),
            plain(opcode::WRITE, 1, count),
            plain(opcode::WRITE_FILEMARK, 0, count),
            plain(opcode::LOAD_UNLOAD, 0, count),
            locate(u32::from(count)),
        ] {
            calls.push((packet, blocks.clone()));
        }
        calls.push((select(), list_of((count, 1, 1)).to_vec()));
        calls.push((select(), list_of((1, u16::from(count), 1)).to_vec()));
        calls.push((select(), list_of((1, 1, u16::from(count))).to_vec()));
    }
    calls
}

/// Every record rule at its border, with packets that need nothing else.
#[test]
fn every_record_rule() {
    let mut bench = FloppyBench::new(Bug::None, 0);
    let image = full(512, 4).image(&mut Random::new(6));
    let good = record_at(3, (1, 4, 1));
    for number in 0..=u16::MAX {
        let mut record = good;
        put_word(&mut record, 6, number);
        let outside = ![0, 62, 125, 250, 500].contains(&number);
        agree(refused_by_3(&mut bench, &image, &record, outside));
        for factors in [(1, number, 1), (1, 1, number)] {
            let broken = !(3..=4).contains(&number);
            let record = record_at(3, factors);
            agree(refused_by_3(&mut bench, &image, &record, broken));
        }
    }
    for value in 0..=255 {
        let mut record = good;
        record[8] = value;
        agree(refused_by_3(&mut bench, &image, &record, value > 15));
        let record = record_at(3, (value, 1, 1));
        let broken = !(3..=4).contains(&value);
        agree(refused_by_3(&mut bench, &image, &record, broken));
        for free in (4..6).chain(9..18).chain([19]).chain(24..32) {
            let mut record = good;
            record[free] = value;
            agree(refused_by_3(&mut bench, &image, &record, false));
        }
    }
    agree(products_and_positions(&mut bench, &image));
    say(&format!(
        "floppy record rules: {} calls compared",
        bench.seen.calls
    ));
}

fn products_and_positions(bench: &mut FloppyBench, image: &[u8]) -> Outcome {
    for factors in FAR_ABOVE {
        for position in [0, 1, 4, u32::MAX] {
            refused_by_3(bench, image, &record_at(position, factors), true)?;
        }
    }
    for (factors, product) in [((0, 65_535, 65_535), 0), ((1, 1, 1), 1), ((2, 1, 2), 4)] {
        for position in [0, 1, 2, 4, 5, 256, 0x1_0000, u32::MAX] {
            let broken = position > product;
            refused_by_3(bench, image, &record_at(position, factors), broken)?;
        }
    }
    Ok(())
}

fn refused_by_3(
    bench: &mut FloppyBench,
    image: &[u8],
    record: &[u8; 32],
    refused: bool,
) -> Outcome {
    for opcode in [opcode::TEST_UNIT_READY, opcode::INQUIRY] {
        bench.begin(record, image);
        let ending = bench.send(&plain(opcode, 0, 36), &[0; 36])?;
        assert_eq!(ending == Ending::Refused(3), refused);
    }
    Ok(())
}

/// Every product from small factors, every byte of a list, from every place; the page that is reported afterwards too.
#[test]
fn every_parameter_list() {
    let mut bench = FloppyBench::new(Bug::None, 0);
    let image = full(512, 4).image(&mut Random::new(7));
    for position in 0..=4 {
        for number in 0..6 * 6 * 6 {
            let factors = ((number / 36) as u8, number / 6 % 6, number % 6);
            agree(list_sets(&mut bench, &image, position, factors));
        }
        for factors in FAR_ABOVE {
            agree(list_sets(&mut bench, &image, position, factors));
        }
    }
    for at in 0..length::MODE_WITH_TAPE_PAGE {
        for value in 0..=255 {
            let mut list = list_of((1, 3, 1));
            list[at] = value;
            bench.begin(&record_at(3, (4, 1, 1)), &image);
            agree(bench.send(&select(), &list).map(|_| ()));
            agree(
                bench
                    .send(&mode_sense(page::TAPE_CODE, 255), &[0; 40])
                    .map(|_| ()),
            );
        }
    }
    say(&format!(
        "floppy lists: {} calls compared",
        bench.seen.calls
    ));
}

/// "a list that makes the product exceed C is 5/26/00, and one that puts it below P sets P 0" (02, A1).
fn list_sets(bench: &mut FloppyBench, image: &[u8], position: u32, factors: Factors) -> Outcome {
    bench.begin(&record_at(position, (1, 2, 2)), image);
    let ending = bench.send(&select(), &list_of(factors))?;
    let (first, second, third) = factors;
    let product = u64::from(first) * u64::from(second) * u64::from(third);
    let kept = product >= u64::from(position);
    let expected = if product > 4 {
        (Ending::BadList, position)
    } else if kept {
        (Ending::Good, position)
    } else {
        (Ending::Good, 0)
    };
    assert_eq!((ending, long_at(bench.record(), 0)), expected);
    bench.send(&mode_sense(page::TAPE_CODE, 255), &[0; 40])?;
    Ok(())
}

/// C 65,535: to the last block and one past it, with products of 16 bits and just above.
#[test]
fn the_largest_images() {
    for size in [512, 1024] {
        let mut bench = FloppyBench::new(Bug::None, 0);
        let image = full(size, 65_535).image(&mut Random::new(8));
        bench.begin(&[0; 32], &image);
        agree(to_the_end_of_a_large_image(&mut bench, usize::from(size)));
        say(&format!(
            "largest floppy image of {} bytes: {} calls compared",
            image.len(),
            bench.seen.calls
        ));
    }
}

fn to_the_end_of_a_large_image(bench: &mut FloppyBench, size: usize) -> Outcome {
    assert_eq!(bench.fresh()?, 0);
    assert_eq!(bench.record()[18..24], [1, 0, 0xFF, 0xFF, 0, 1]);
    assert_eq!(bench.change()?, 0);
    let ending = bench.send(&locate(65_534), &[])?;
    assert_eq!(ending, Ending::MediumChanged);
    let mut data = vec![0; 255 * size];
    Random::new(9).fill(&mut data);
    for (factors, ending) in [
        ((1, 256, 256), Ending::BadList),
        ((1, 3, 21_845), Ending::Good),
        ((255, 257, 1), Ending::Good),
    ] {
        assert_eq!(bench.send(&select(), &list_of(factors))?, ending);
    }
    assert_eq!(bench.send(&locate(65_535), &[])?, Ending::BadField);
    assert_eq!(bench.send(&locate(65_280), &[])?, Ending::Good);
    let write = plain(opcode::WRITE, 1, 255);
    assert_eq!(bench.send(&write, &data)?, Ending::Good);
    assert_eq!(long_at(bench.record(), 0), 65_535);
    assert_eq!(bench.send(&locate(65_281), &[])?, Ending::Good);
    let read = plain(opcode::READ, 1, 255);
    assert_eq!(
        bench.send(&read, &vec![0; 255 * size])?,
        Ending::AtEndOfData
    );
    assert_eq!(bench.answer()[4..8], [0, 0, 0, 254]);
    assert_eq!(bench.data()[..254 * size], data[size..]);
    assert_eq!(bench.send(&locate(65_534), &[])?, Ending::Good);
    assert_eq!(bench.send(&write, &data)?, Ending::CartridgeFull);
    assert_eq!(bench.answer()[4..8], [0, 0, 0, 1]);
    Ok(())
}
