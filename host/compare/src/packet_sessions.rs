//! Sessions of packets: images, records, packets and buffers, good ones mostly, and damage.

use tapecard::bytes::opcode::*;
use tapecard::bytes::{count_at, length, long_at, page, put_count, put_long, put_word, word_at};

use crate::images::{AllowedEdit, OtherRecording, Shape, damage_image};
use crate::{Difference, Random, StreamBench};

/// Opcodes with the weight that each has among good packets.
const WEIGHTS: [(u8, u64); 14] = [
    (TEST_UNIT_READY, 2),
    (REWIND, 3),
    (REQUEST_SENSE, 6),
    (READ, 18),
    (WRITE, 16),
    (WRITE_FILEMARK, 8),
    (SPACE, 18),
    (INQUIRY, 4),
    (MODE_SELECT, 8),
    (MODE_SENSE, 6),
    (LOAD_UNLOAD, 5),
    (PREVENT_ALLOW, 4),
    (LOCATE, 8),
    (READ_POSITION, 5),
];

/// What a drive takes that is not loaded: it is loaded again mostly, and locked or unlocked.
pub(crate) const WHERE_EMPTY: [u8; 4] = [LOAD_UNLOAD, LOAD_UNLOAD, LOAD_UNLOAD, PREVENT_ALLOW];

/// Counts of three bytes are below this.
const COUNTS_END: u32 = 0x100_0000;

/// A transfer that needs more than this gets a buffer that is too short.
const LARGEST_BUFFER: u64 = 1 << 20;

/// Makes calls, session after session, until `calls` are compared.
pub fn run(
    bench: &mut impl StreamBench,
    random_seed: u64,
    calls: u64,
) -> Result<(), Box<Difference>> {
    let mut session = 0;
    while bench.seen().calls < calls {
        let mut random = Random::of_session(random_seed, session);
        session += 1;
        run_session(bench, &mut random, calls)?;
    }
    Ok(())
}

fn run_session(
    bench: &mut impl StreamBench,
    random: &mut Random,
    calls: u64,
) -> Result<(), Box<Difference>> {
    let image = Shape::any(random).image(random);
    bench.begin(&[0; 16], &image);
    if random.percent(40) {
        bench.fresh()?;
    } else {
        let record = valid_record(random, &image);
        bench.set_record(&record);
    }
    for _ in 0..random.between(10, 250) {
        if bench.seen().calls >= calls {
            break;
        }
        make_call(bench, random)?;
    }
    Ok(())
}

pub(crate) fn make_call(
    bench: &mut impl StreamBench,
    random: &mut Random,
) -> Result<(), Box<Difference>> {
    match random.weighted(&[810, 20, 20, 10, 5, 15, 20, 20, 80]) {
        0 => send_good(bench, random),
        1 => send_cut(bench, random),
        2 => send_random(bench, random),
        3 => bench.change(),
        4 => {
            bench.fresh()?;
            if random.percent(30) {
                bench.change()?;
            }
            Ok(())
        }
        5 => with_damaged_record(bench, random),
        6 => with_damaged_image(bench, random),
        7 => {
            edit_good_image(bench, random);
            send_good(bench, random)
        }
        _ => read_other_recording(bench, random),
    }
}

pub(crate) fn send_good(
    bench: &mut impl StreamBench,
    random: &mut Random,
) -> Result<(), Box<Difference>> {
    let place = Place::of(bench);
    let packet = good_packet(random, &place);
    let data = buffer_for(random, &packet, &place);
    bench.send(&packet, &data)?;
    Ok(())
}

/// A packet that is too short or too long.
fn send_cut(bench: &mut impl StreamBench, random: &mut Random) -> Result<(), Box<Difference>> {
    let packet = good_packet(random, &Place::of(bench));
    bench.send(&cut(random, &packet), &[0xD7; 40])?;
    Ok(())
}

pub(crate) fn cut(random: &mut Random, packet: &[u8; 12]) -> Vec<u8> {
    let mut packet = packet.to_vec();
    let length = match random.below(4) {
        0 => 11,
        1 => 13,
        2 => random.below(12) as usize,
        _ => random.between(13, 300) as usize,
    };
    packet.resize(length, random.byte());
    packet
}

fn send_random(bench: &mut impl StreamBench, random: &mut Random) -> Result<(), Box<Difference>> {
    let mut packet = [0; 12];
    random.fill(&mut packet);
    if random.percent(60) {
        packet[0] = opcode(random);
    }
    let data = buffer_for(random, &packet, &Place::of(bench));
    bench.send(&packet, &data)?;
    Ok(())
}

/// One packet with a record that is damaged in one field or wholly; mostly put back afterwards.
fn with_damaged_record(
    bench: &mut impl StreamBench,
    random: &mut Random,
) -> Result<(), Box<Difference>> {
    let good = *bench.record();
    let mut record = good;
    let recorded = Place::of(bench).recorded;
    match random.below(8) {
        0 => put_long(&mut record, 0, recorded + 1),
        1 => put_long(&mut record, 0, random.number() as u32),
        2 => record[5] = random.byte(),
        3 => put_word(
            &mut record,
            6,
            random.pick(&[1, 61, 63, 124, 249, 251, 499, 501, 0xFFFF]),
        ),
        4 => record[8] = random.pick(&[15, 16, 17, 255]),
        5 => record[random.below(16) as usize] = random.byte(),
        6 => record[4] = random.byte(),
        _ => random.fill(&mut record),
    }
    bench.set_record(&record);
    if random.percent(15) {
        bench.change()?;
    }
    send_good(bench, random)?;
    let refused = bench.answer()[0] == 3;
    if refused || random.percent(50) {
        bench.set_record(&good);
    }
    Ok(())
}

/// One packet over an image that is damaged in its header or cut; put back afterwards.
fn with_damaged_image(
    bench: &mut impl StreamBench,
    random: &mut Random,
) -> Result<(), Box<Difference>> {
    let good = bench.image().to_vec();
    let record = *bench.record();
    let mut image = good.clone();
    damage_image(&mut image, random);
    bench.set_image(&image);
    send_good(bench, random)?;
    bench.set_image(&good);
    bench.set_record(&record);
    Ok(())
}

fn edit_good_image(bench: &mut impl StreamBench, random: &mut Random) {
    let place = Place::of(bench);
    let edit = AllowedEdit::any(random, place.capacity, place.kinds_at);
    bench.edit_image(|image| edit.make(image));
}

/// A READ from any place of a cartridge on which no WRITE of this session has made the kinds alike.
fn read_other_recording(
    bench: &mut impl StreamBench,
    random: &mut Random,
) -> Result<(), Box<Difference>> {
    let place = Place::of(bench);
    let recorded = random.between(place.capacity.min(2).into(), place.capacity.into()) as u32;
    let edit = OtherRecording::any(random, recorded, place.capacity, place.kinds_at);
    bench.edit_image(|image| edit.make(image));
    let mut record = *bench.record();
    let from = random.below(recorded.into());
    put_long(&mut record, 0, from as u32);
    bench.set_record(&record);
    let mut packet = [READ, 1, 0, 0, 0, 0, 0, 0, 0, 0, 0, 0];
    put_count(&mut packet, 2, random.between(1, 6) as u32);
    let data = buffer_for(random, &packet, &place);
    bench.send(&packet, &data)?;
    Ok(())
}

/// What a session needs to know to make packets that go far.
struct Place {
    position: u32,
    loaded: bool,
    recorded: u32,
    capacity: u32,
    size: u32,
    kinds_at: u32,
}

impl Place {
    fn of(bench: &impl StreamBench) -> Place {
        let image = bench.image();
        let record = bench.record();
        let (recorded, capacity, size, kinds_at) = if image.len() < 32 {
            (0, 1, 512, 32)
        } else {
            (
                long_at(image, 8).min(65_536),
                long_at(image, 4).clamp(1, 65_536),
                u32::from(word_at(image, 2)).clamp(1, 1024),
                long_at(image, 12),
            )
        };
        Place {
            position: long_at(record, 0).min(recorded),
            loaded: record[4] & 1 == 1,
            recorded,
            capacity,
            size,
            kinds_at,
        }
    }
}

fn opcode(random: &mut Random) -> u8 {
    let weights = WEIGHTS.map(|(_, weight)| weight);
    WEIGHTS[random.weighted(&weights)].0
}

fn good_packet(random: &mut Random, place: &Place) -> [u8; 12] {
    let mut packet = [0; 12];
    if random.percent(25) {
        random.fill(&mut packet);
    }
    packet[0] = if random.percent(4) {
        random.byte()
    } else if !place.loaded && random.percent(50) {
        random.pick(&WHERE_EMPTY)
    } else {
        opcode(random)
    };
    put_fields(&mut packet, random, place);
    packet
}

/// The fields of the packet's own command.
fn put_fields(packet: &mut [u8; 12], random: &mut Random, place: &Place) {
    match packet[0] {
        READ | WRITE => {
            packet[1] = packet[1] & 0xFE | u8::from(!random.percent(4));
            put_count(packet, 2, count(random, place));
        }
        WRITE_FILEMARK => put_count(packet, 2, count(random, place)),
        SPACE => {
            let code = random.pick(&[0, 0, 0, 0, 1, 1, 1, 1, 3, 2, 4, 5, 6, 7]);
            packet[1] = packet[1] / 8 * 8 + code;
            put_count(packet, 2, signed_count(random, place));
        }
        MODE_SELECT => packet[4] = random.pick(&[0, 12, 32, 32, 32, 32, 11, 13, 31, 33, 255]),
        MODE_SENSE => {
            let pages = [0, 0, page::CODE, page::CODE, page::CODE, 0x2B, 0x3F];
            packet[2] = packet[2] / 64 * 64 + random.pick(&pages);
            packet[4] = allocation(random, length::MODE_WITH_PAGE as u8);
        }
        LOAD_UNLOAD => packet[4] = packet[4] & 0xF8 | random.pick(&[1, 1, 1, 3, 0, 2, 4, 5, 6, 7]),
        PREVENT_ALLOW => packet[4] = packet[4] & 0xFC | random.pick(&[0, 0, 1, 1, 2, 3]),
        LOCATE => {
            packet[1] = packet[1] & 0xFD | if random.percent(4) { 2 } else { 0 };
            let past = place.recorded + 1;
            let target = match random.below(8) {
                0 => place.recorded,
                1 => past,
                2 => random.pick(&[u32::MAX, 0x8000_0000, 0x1_0000, 0x100_0000]),
                _ => random.below(u64::from(past)) as u32,
            };
            put_long(packet, 3, target);
        }
        REQUEST_SENSE => packet[4] = allocation(random, length::SENSE as u8),
        INQUIRY => packet[4] = allocation(random, length::INQUIRY as u8),
        _ => (),
    }
}

/// An allocation length: around the whole, 0, or any.
pub(crate) fn allocation(random: &mut Random, whole: u8) -> u8 {
    match random.below(4) {
        0 => random.pick(&[0, 1, 11, 12, 13, whole - 1, whole + 1]),
        1 => random.byte(),
        2 => 255,
        _ => whole,
    }
}

fn count(random: &mut Random, place: &Place) -> u32 {
    let to_end = place.recorded - place.position;
    let to_capacity = place.capacity.saturating_sub(place.position);
    match random.below(16) {
        0 => 0,
        1 => to_end,
        2 => to_end + 1,
        3 => to_capacity,
        4 => to_capacity + 1,
        5 => random.below(u64::from(place.capacity) + 3) as u32,
        6 => random.pick(&[0xFF_FFFF, 0x80_0000, 0x40_0000, 0x7F_FFFF, 0x1_0000]),
        7 => random.below(COUNTS_END.into()) as u32,
        8 | 9 => 2,
        10 => 3,
        _ => 1,
    }
}

/// A count in two's complement of 24 bits.
fn signed_count(random: &mut Random, place: &Place) -> u32 {
    let back = |magnitude: u32| COUNTS_END - magnitude.max(1);
    match random.below(16) {
        0 => 0,
        1 => random.pick(&[0x7F_FFFF, 0x80_0000, 0x80_0001, 0xFF_FFFF]),
        2 => random.below(COUNTS_END.into()) as u32,
        3 => place.recorded - place.position,
        4 => place.recorded - place.position + 1,
        5 => back(place.position),
        6 => back(place.position + 1),
        7..=10 => random.between(1, 4) as u32,
        _ => back(random.between(1, 4) as u32),
    }
}

/// A data buffer: as long as needed mostly, then longer, one shorter, or any.
fn buffer_for(random: &mut Random, packet: &[u8; 12], place: &Place) -> Vec<u8> {
    let need = match packet[0] {
        // N*B can pass 32 bits.
        READ | WRITE => u64::from(count_at(packet, 2)) * u64::from(place.size),
        REQUEST_SENSE => u64::from(packet[4].min(length::SENSE as u8)),
        INQUIRY => u64::from(packet[4].min(length::INQUIRY as u8)),
        MODE_SELECT => u64::from(packet[4]),
        MODE_SENSE if packet[2] % 64 == 0 => u64::from(packet[4].min(length::MODE_HEADER as u8)),
        MODE_SENSE => u64::from(packet[4].min(length::MODE_WITH_PAGE as u8)),
        READ_POSITION => length::POSITION as u64,
        _ => 0,
    };
    let mut data = buffer_around(random, packet[0], need);
    if packet[0] == MODE_SELECT {
        put_speed_list(random, &mut data);
    }
    data
}

/// A buffer of a length near the need; random bytes in it where the command takes them.
pub(crate) fn buffer_around(random: &mut Random, opcode: u8, need: u64) -> Vec<u8> {
    let length = match random.below(20) {
        _ if need > LARGEST_BUFFER => random.below(3000),
        0 | 1 => need.saturating_sub(1),
        2 | 3 => need + random.between(1, 40),
        4 => need + random.between(1, 2000),
        5 => random.below(need + 1),
        _ => need,
    };
    if opcode != WRITE && opcode != MODE_SELECT {
        return vec![random.byte(); length as usize];
    }
    let mut data = vec![0; length as usize];
    random.fill(&mut data);
    data
}

/// A MODE SELECT list that sets the speed, right mostly or wrong in one place.
pub(crate) fn put_speed_list(random: &mut Random, list: &mut [u8]) {
    if list.len() < 32 {
        return;
    }
    list[12] = page::CODE;
    list[13] = page::LENGTH;
    put_word(list, 26, random.pick(&model::packet::SPEEDS));
    match random.below(10) {
        0 => list[12] = random.pick(&[0xAA, 0x2B, 0, 0x6A]),
        1 => list[13] = random.pick(&[0x10, 0x13, 0]),
        2 => put_word(
            list,
            26,
            random.pick(&[1, 61, 63, 126, 249, 501, 0x3E00, 0xFFFF]),
        ),
        _ => (),
    }
}

/// A record that keeps the rules for this image.
pub fn valid_record(random: &mut Random, image: &[u8]) -> [u8; 16] {
    let recorded = long_at(image, 8);
    let mut record = [0; 16];
    random.fill(&mut record[8..]);
    let position = match random.below(4) {
        0 => 0,
        1 => recorded,
        _ => random.below(u64::from(recorded) + 1) as u32,
    };
    put_long(&mut record, 0, position);
    record[4] = u8::from(!random.percent(10)) + 2 * u8::from(random.percent(30));
    record[5] = random.pick(&[0, 0, 0, 0, 0, 1, 2, 3]);
    put_word(&mut record, 6, random.pick(&model::packet::SPEEDS));
    record[8] %= 16;
    if random.flag() {
        record[11] %= 8;
    } else {
        record[4] |= random.byte() & 0xFC;
    }
    record
}
