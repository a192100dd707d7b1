//! Sessions of the floppy tape device: full images, records with tape parameters, packets and lists, good ones mostly, and damage.

use tapecard::bytes::opcode::*;
use tapecard::bytes::{length, long_at, page, put_long, put_word, word_at};

use crate::images::{AllowedEdit, OtherRecording, Shape, damage_image};
use crate::packet_sessions::{self, WHERE_EMPTY, allocation, buffer_around, cut, put_speed_list};
use crate::{Difference, FloppyBench, Random};

/// Opcodes with the weight that each has among good packets.
const WEIGHTS: [(u8, u64); 11] = [
    (TEST_UNIT_READY, 2),
    (REQUEST_SENSE, 5),
    (READ, 22),
    (WRITE, 16),
    (WRITE_FILEMARK, 4),
    (INQUIRY, 3),
    (MODE_SELECT, 20),
    (MODE_SENSE, 10),
    (LOAD_UNLOAD, 5),
    (PREVENT_ALLOW, 4),
    (LOCATE, 14),
];

/// BSEG, SEGTRK and TRKS.
pub type Factors = (u8, u16, u16);

/// Factors whose product is above every capacity, though in 32 or in 16 bits it would be small.
pub const FAR_ABOVE: [Factors; 8] = [
    (255, 65_535, 65_535),
    (4, 32_768, 32_768),
    (16, 16_384, 16_384),
    (128, 1_024, 32_768),
    (164, 19_825, 1_321),
    (1, 256, 256),
    (1, 6, 10_923),
    (2, 1, 32_769),
];

/// Makes calls, session after session, until `calls` are compared.
pub fn run(bench: &mut FloppyBench, random_seed: u64, calls: u64) -> Result<(), Box<Difference>> {
    let mut session = 0;
    while bench.seen.calls < calls {
        let mut random = Random::of_session(random_seed, session);
        session += 1;
        run_session(bench, &mut random, calls)?;
    }
    Ok(())
}

fn run_session(
    bench: &mut FloppyBench,
    random: &mut Random,
    calls: u64,
) -> Result<(), Box<Difference>> {
    let image = full_image(random);
    bench.begin(&[0; 32], &image);
    if random.percent(40) {
        bench.fresh()?;
    } else {
        let record = valid_record(random, &image);
        bench.set_record(&record);
    }
    for _ in 0..random.between(10, 250) {
        if bench.seen.calls >= calls {
            break;
        }
        make_call(bench, random)?;
    }
    Ok(())
}

fn make_call(bench: &mut FloppyBench, random: &mut Random) -> Result<(), Box<Difference>> {
    match random.weighted(&[770, 15, 20, 15, 5, 15, 30, 30, 20, 80]) {
        0 => send_good(bench, random),
        1 => send_cut(bench, random),
        2 => send_random(bench, random),
        3 => bench.change().map(|_| ()),
        4 => bench.fresh().map(|_| ()),
        5 => swap_cartridge(bench, random),
        6 => with_damaged_record(bench, random),
        7 => with_damaged_image(bench, random),
        8 => {
            edit_full_image(bench, random);
            send_good(bench, random)
        }
        _ => read_other_recording(bench, random),
    }
}

fn send_good(bench: &mut FloppyBench, random: &mut Random) -> Result<(), Box<Difference>> {
    let place = Place::of(bench);
    let packet = good_packet(random, &place);
    let data = buffer_for(random, &packet, &place);
    bench.send(&packet, &data)?;
    Ok(())
}

/// A packet that is too short or too long.
fn send_cut(bench: &mut FloppyBench, random: &mut Random) -> Result<(), Box<Difference>> {
    let packet = good_packet(random, &Place::of(bench));
    bench.send(&cut(random, &packet), &[0xD7; 40])?;
    Ok(())
}

fn send_random(bench: &mut FloppyBench, random: &mut Random) -> Result<(), Box<Difference>> {
    let mut packet = [0; 12];
    random.fill(&mut packet);
    if random.percent(60) {
        packet[0] = opcode(random);
    }
    let data = buffer_for(random, &packet, &Place::of(bench));
    bench.send(&packet, &data)?;
    Ok(())
}

/// A call after which the record is as the image says, where it is taken.
fn start_again(bench: &mut FloppyBench, random: &mut Random) -> Result<(), Box<Difference>> {
    if random.percent(80) {
        bench.change()?;
    } else {
        bench.fresh()?;
    }
    Ok(())
}

/// Another image; a packet may come before the drive is told of the change.
fn swap_cartridge(bench: &mut FloppyBench, random: &mut Random) -> Result<(), Box<Difference>> {
    bench.set_image(&full_image(random));
    if random.percent(20) {
        send_good(bench, random)?;
    }
    start_again(bench, random)
}

/// One packet with a record that is damaged in one field or wholly; mostly put back afterwards.
fn with_damaged_record(
    bench: &mut FloppyBench,
    random: &mut Random,
) -> Result<(), Box<Difference>> {
    let good = *bench.record();
    let mut record = good;
    damage_record(&mut record, random, &Place::of(bench));
    bench.set_record(&record);
    if random.percent(15) {
        start_again(bench, random)?;
    }
    send_good(bench, random)?;
    let refused = bench.answer()[0] == 3;
    if refused || random.percent(50) {
        bench.set_record(&good);
    }
    Ok(())
}

fn damage_record(record: &mut [u8; 32], random: &mut Random, place: &Place) {
    let capacity = place.capacity;
    match random.below(13) {
        0 => put_long(record, 0, place.product + 1),
        1 => put_long(record, 0, random.number() as u32),
        2 => {
            let speeds = [1, 61, 63, 124, 249, 251, 499, 501, 0xFFFF];
            put_word(record, 6, random.pick(&speeds));
        }
        3 => record[8] = random.pick(&[15, 16, 17, 255]),
        4 => record[random.below(32) as usize] = random.byte(),
        5 => put_factors(record, factors_of(random, capacity + 1)),
        6 => put_factors(record, random.pick(&FAR_ABOVE)),
        7 => {
            let below = place.position.saturating_sub(1);
            put_factors(record, factors_of(random, below));
        }
        8 => record[19] = random.byte(),
        9 => random.fill(&mut record[27..]),
        10 => random.fill(&mut record[18..24]),
        11 => record[4] = random.byte(),
        _ => random.fill(record),
    }
}

/// One call over an image that is damaged in its header, cut, or not full; put back afterwards.
fn with_damaged_image(bench: &mut FloppyBench, random: &mut Random) -> Result<(), Box<Difference>> {
    let good = bench.image().to_vec();
    let record = *bench.record();
    let mut image = good.clone();
    if random.percent(30) {
        let recorded = random.below(u64::from(long_at(&image, 4)));
        put_long(&mut image, 8, recorded as u32);
    } else {
        damage_image(&mut image, random);
    }
    bench.set_image(&image);
    if random.percent(30) {
        start_again(bench, random)?;
    } else {
        send_good(bench, random)?;
    }
    bench.set_image(&good);
    bench.set_record(&record);
    Ok(())
}

fn edit_full_image(bench: &mut FloppyBench, random: &mut Random) {
    let place = Place::of(bench);
    let edit = AllowedEdit::any(random, place.capacity, place.kinds_at);
    bench.edit_image(|image| edit.make(image));
}

/// A READ from any block of a cartridge on which no WRITE of this session has made the kinds alike.
fn read_other_recording(
    bench: &mut FloppyBench,
    random: &mut Random,
) -> Result<(), Box<Difference>> {
    let place = Place::of(bench);
    let edit = OtherRecording::any(random, place.capacity, place.capacity, place.kinds_at);
    bench.edit_image(|image| edit.make(image));
    let mut record = *bench.record();
    let from = random.below(place.product.max(1).into());
    put_long(&mut record, 0, from as u32);
    bench.set_record(&record);
    let mut packet = [READ, 1, 0, 0, 0, 0, 0, 0, 0, 0, 0, 0];
    packet[4] = random.between(1, 6) as u8;
    let data = buffer_for(random, &packet, &place);
    bench.send(&packet, &data)?;
    Ok(())
}

/// What a session needs to know to make packets that go far.
struct Place {
    position: u32,
    loaded: bool,
    product: u32,
    capacity: u32,
    size: u32,
    kinds_at: u32,
}

impl Place {
    fn of(bench: &FloppyBench) -> Place {
        let image = bench.image();
        let record = bench.record();
        let (capacity, size, kinds_at) = if image.len() < 32 {
            (1, 512, 32)
        } else {
            (
                long_at(image, 4).clamp(1, 65_535),
                u32::from(word_at(image, 2)).clamp(1, 1024),
                long_at(image, 12),
            )
        };
        let product = product_in(record).min(u64::from(capacity)) as u32;
        Place {
            position: long_at(record, 0).min(product),
            loaded: record[4] & 1 == 1,
            product,
            capacity,
            size,
            kinds_at,
        }
    }
}

fn opcode(random: &mut Random) -> u8 {
    let weights = WEIGHTS.map(|(_, weight)| weight);
    WEIGHTS[random.weighted(&weights)].0
}

fn good_packet(random: &mut Random, place: &Place) -> [u8; 12] {
    let mut packet = [0; 12];
    if random.percent(25) {
        random.fill(&mut packet);
    }
    let any = random.byte();
    packet[0] = if random.percent(6) {
        random.pick(&[any, REWIND, SPACE, READ_POSITION])
    } else if !place.loaded && random.percent(50) {
        random.pick(&WHERE_EMPTY)
    } else {
        opcode(random)
    };
    put_fields(&mut packet, random, place);
    packet
}

/// The fields of the packet's own command.
fn put_fields(packet: &mut [u8; 12], random: &mut Random, place: &Place) {
    match packet[0] {
        READ | WRITE => {
            packet[1] = packet[1] & 0xFE | u8::from(!random.percent(4));
            packet[4] = count(random, place);
        }
        MODE_SELECT => {
            let lengths = [
                0, 12, 28, 28, 28, 28, 28, 28, 32, 32, 11, 13, 27, 29, 31, 255,
            ];
            packet[4] = random.pick(&lengths);
        }
        MODE_SENSE => {
            let pages = [0, page::CODE, page::CODE, page::TAPE_CODE, page::TAPE_CODE];
            let odd = [0x29, 0x2C, 0x3F, 0x0B];
            let code = if random.percent(8) {
                random.pick(&odd)
            } else {
                random.pick(&pages)
            };
            packet[2] = packet[2] / 64 * 64 + code;
            packet[4] = allocation(random, mode_length(packet) as u8);
        }
        LOAD_UNLOAD => packet[4] = packet[4] & 0xF8 | random.pick(&[1, 1, 1, 3, 5, 7, 0, 2, 4, 6]),
        PREVENT_ALLOW => packet[4] = packet[4] & 0xFC | random.pick(&[0, 0, 1, 1, 2, 3]),
        LOCATE => put_long(packet, 3, block_number(random, place)),
        REQUEST_SENSE => packet[4] = allocation(random, length::SENSE as u8),
        INQUIRY => packet[4] = allocation(random, length::INQUIRY as u8),
        _ => (),
    }
}

fn block_number(random: &mut Random, place: &Place) -> u32 {
    let product = place.product;
    match random.below(12) {
        0 => product,
        1 => product + 1,
        2 => random.pick(&[u32::MAX, 0x8000_0000, 0x1_0000, 0x100_0000, 0x100]),
        3 | 4 => product.saturating_sub(1),
        _ => random.below(product.max(1).into()) as u32,
    }
}

fn count(random: &mut Random, place: &Place) -> u8 {
    let to_end = (place.product - place.position).min(254) as u8;
    let any = random.byte();
    match random.below(64) {
        0..=3 => 0,
        4..=7 => to_end,
        8..=11 => to_end + 1,
        12..=15 => random.below(u64::from(place.capacity.min(252)) + 3) as u8,
        16 => random.pick(&[255, 128, any]),
        17..=31 => 2,
        32..=41 => 3,
        _ => 1,
    }
}

/// Bytes that MODE SENSE has for the packet's page.
fn mode_length(packet: &[u8; 12]) -> usize {
    match packet[2] % 64 {
        page::CODE => length::MODE_WITH_PAGE,
        page::TAPE_CODE => length::MODE_WITH_TAPE_PAGE,
        _ => length::MODE_HEADER,
    }
}

/// A data buffer: as long as needed mostly, then longer, one shorter, or any.
fn buffer_for(random: &mut Random, packet: &[u8; 12], place: &Place) -> Vec<u8> {
    let need = match packet[0] {
        READ | WRITE => u64::from(u32::from(packet[4]) * place.size),
        REQUEST_SENSE => u64::from(packet[4].min(length::SENSE as u8)),
        INQUIRY => u64::from(packet[4].min(length::INQUIRY as u8)),
        MODE_SELECT => u64::from(packet[4]),
        MODE_SENSE => u64::from(packet[4].min(mode_length(packet) as u8)),
        _ => 0,
    };
    let mut data = buffer_around(random, packet[0], need);
    if packet[0] == MODE_SELECT && packet[4] == 32 {
        put_speed_list(random, &mut data);
    } else if packet[0] == MODE_SELECT && data.len() >= length::MODE_WITH_TAPE_PAGE {
        put_parameter_list(random, &mut data, place);
    }
    data
}

/// A MODE SELECT list that sets the tape parameters, right mostly or wrong in one place.
fn put_parameter_list(random: &mut Random, list: &mut [u8], place: &Place) {
    list[12] = page::TAPE_CODE;
    list[13] = page::TAPE_LENGTH;
    let factors = listed_factors(random, place);
    list[17] = factors.0;
    put_word(list, 18, factors.1);
    put_word(list, 20, factors.2);
    match random.below(16) {
        0 => list[12] = random.pick(&[0xAB, 0x6B, page::CODE, 0]),
        1 => list[13] = random.pick(&[0x0C, 0x0F, page::LENGTH, 0]),
        _ => (),
    }
}

/// Factors around the capacity and the position.
fn listed_factors(random: &mut Random, place: &Place) -> Factors {
    let (position, capacity) = (place.position, place.capacity);
    match random.below(16) {
        0 | 1 => factors_of(random, capacity),
        2 | 3 => factors_of(random, position),
        4 | 5 => factors_of(random, position.saturating_sub(1)),
        6 => factors_of(random, (position + 1).min(capacity)),
        7 => factors_of(random, capacity + 1),
        8 => factors_of(random, 0),
        9 => random.pick(&FAR_ABOVE),
        10 => (
            random.byte(),
            random.number() as u16,
            random.number() as u16,
        ),
        _ => factors_within(random, capacity),
    }
}

/// Factors whose product is this number, at most 65,536; of 0, one is 0 and the others are any.
pub fn factors_of(random: &mut Random, product: u32) -> Factors {
    if product == 0 {
        let any = (
            random.byte(),
            random.number() as u16,
            random.number() as u16,
        );
        return match random.below(3) {
            0 => (0, any.1, any.2),
            1 => (any.0, 0, any.2),
            _ => (any.0, any.1, 0),
        };
    }
    let first = divisor(random, product, 255);
    let rest = product / first;
    let second = if rest > 65_535 {
        256
    } else {
        divisor(random, rest, 65_535)
    };
    (first as u8, second as u16, (rest / second) as u16)
}

/// A divisor of the number, at most `highest`.
fn divisor(random: &mut Random, number: u32, highest: u32) -> u32 {
    let divisors: Vec<u32> = (1..=number.min(highest))
        .filter(|candidate| number / candidate * candidate == number)
        .collect();
    random.pick(&divisors)
}

/// Factors from 1 up whose product is at most the capacity.
fn factors_within(random: &mut Random, capacity: u32) -> Factors {
    let capacity = u64::from(capacity);
    let first = random.between(1, capacity.min(255));
    let second = random.between(1, capacity / first);
    let third = random.between(1, capacity / first / second);
    let (low, high) = if random.flag() {
        (second, third)
    } else {
        (third, second)
    };
    (first as u8, low as u16, high as u16)
}

/// An image of any shape with U = C.
fn full_image(random: &mut Random) -> Vec<u8> {
    let mut shape = Shape::any(random);
    shape.recorded = shape.capacity;
    shape.image(random)
}

/// A record that keeps the rules for this image.
pub fn valid_record(random: &mut Random, image: &[u8]) -> [u8; 32] {
    let capacity = long_at(image, 4);
    let mut record = [0; 32];
    record[..16].copy_from_slice(&packet_sessions::valid_record(random, image));
    random.fill(&mut record[16..]);
    if random.flag() {
        record[19] &= 0xE0;
        record[27..].fill(0);
    }
    let factors = match random.below(8) {
        0 => factors_of(random, 0),
        1 | 2 => factors_of(random, capacity),
        _ => factors_within(random, capacity),
    };
    put_factors(&mut record, factors);
    let product = product_in(&record) as u32;
    let position = match random.below(4) {
        0 => 0,
        1 => product,
        _ => random.below(u64::from(product) + 1) as u32,
    };
    put_long(&mut record, 0, position);
    record
}

pub fn put_factors(record: &mut [u8; 32], factors: Factors) {
    record[18] = factors.0;
    put_word(record, 20, factors.1);
    put_word(record, 22, factors.2);
}

/// BSEG*SEGTRK*TRKS, which can pass 32 bits.
pub fn product_in(record: &[u8; 32]) -> u64 {
    u64::from(record[18]) * u64::from(word_at(record, 20)) * u64::from(word_at(record, 22))
}
