//! Sessions of packets with a filemark index: those of the packet drive, with the index kept, and with indexes that are not the
//! image's.

use tapecard::bytes::opcode::{SPACE, WRITE, WRITE_FILEMARK};
use tapecard::bytes::{kind, long_at, put_count, put_long, space};
use tapecard::index::ENTRY_LENGTH;

use crate::images::{Shape, damage_image};
use crate::packet_sessions::{self, valid_record};
use crate::{Difference, IndexBench, Random, StreamBench};

type Outcome = Result<(), Box<Difference>>;

/// Makes calls, session after session, until `calls` are compared.
pub fn run(bench: &mut IndexBench, random_seed: u64, calls: u64) -> Outcome {
    let mut session = 0;
    while bench.seen.calls < calls {
        let mut random = Random::of_session(random_seed, session);
        session += 1;
        run_session(bench, &mut random, calls)?;
    }
    Ok(())
}

fn run_session(bench: &mut IndexBench, random: &mut Random, calls: u64) -> Outcome {
    let mut shape = Shape::any(random);
    let mut most = 250;
    if random.percent(4) {
        // Places of more than one byte.
        shape.capacity = random.between(250, 600) as u32;
        shape.recorded = random.between(200, shape.capacity.into()) as u32;
        most = 30;
    }
    let image = shape.image(random);
    bench.begin(&valid_record(random, &image), &image);
    bench.follow_image(beyond(random));
    if random.percent(40) {
        bench.fresh()?;
    }
    for _ in 0..random.between(10, most) {
        if bench.seen.calls >= calls {
            break;
        }
        make_call(bench, random)?;
    }
    Ok(())
}

/// Bytes lent beyond the index.
fn beyond(random: &mut Random) -> usize {
    random.pick(&[0, 0, 0, 1, 3, 4, 5, 40])
}

fn make_call(bench: &mut IndexBench, random: &mut Random) -> Outcome {
    match random.weighted(&[700, 110, 70, 20, 15]) {
        0 => packet_sessions::make_call(bench, random),
        1 => among_filemarks(bench, random),
        2 => with_wrong_index(bench, random),
        3 => with_other_bytes_beyond(bench, random),
        _ => make_again(bench, random),
    }
}

/// A packet that goes by filemarks or stores, at any place of a tape with filemarks throughout.
fn among_filemarks(bench: &mut IndexBench, random: &mut Random) -> Outcome {
    if random.percent(60) {
        record_filemarks(bench, random);
    }
    if random.percent(80) {
        go_anywhere(bench, random);
    }
    let mut packet = [0; 12];
    packet[0] = random.pick(&[SPACE, SPACE, SPACE, WRITE, WRITE_FILEMARK, WRITE_FILEMARK]);
    packet[1] = match packet[0] {
        SPACE => space::FILEMARKS,
        _ => 1,
    };
    let count = random.between(0, 5) as u32;
    let back = packet[0] == SPACE && random.flag();
    put_count(
        &mut packet,
        2,
        if back { count.wrapping_neg() } else { count },
    );
    let room = match packet[0] {
        WRITE => 5 * 1024,
        _ => 0,
    };
    bench.send(&packet, &vec![random.byte(); room])?;
    Ok(())
}

/// Filemarks here and there or everywhere, and another U.
fn record_filemarks(bench: &mut IndexBench, random: &mut Random) {
    let capacity = long_at(bench.image(), 4);
    let recorded = random.below(u64::from(capacity) + 1) as u32;
    let often = random.pick(&[20, 50, 80, 100]);
    let mut kinds = vec![kind::DATA; capacity as usize];
    for element in &mut kinds {
        if random.percent(often) {
            *element = kind::FILEMARK;
        }
    }
    bench.edit_image(|image| {
        put_long(image, 8, recorded);
        let at = long_at(image, 12) as usize;
        image[at..at + kinds.len()].copy_from_slice(&kinds);
    });
    go_anywhere(bench, random);
}

fn go_anywhere(bench: &mut IndexBench, random: &mut Random) {
    let recorded = long_at(bench.image(), 8);
    let mut record = *bench.record();
    put_long(&mut record, 0, random.below(u64::from(recorded) + 1) as u32);
    bench.set_record(&record);
}

/// One call or two with an index that is not the image's, or that does not follow it.
fn with_wrong_index(bench: &mut IndexBench, random: &mut Random) -> Outcome {
    bench.make_due()?;
    let capacity = long_at(bench.image(), 4) as usize;
    let mut index = bench.index().to_vec();
    damage_index(&mut index, capacity, random);
    bench.set_index(&index);
    for _ in 0..random.between(1, 2) {
        if random.percent(60) {
            packet_sessions::send_good(bench, random)?;
        } else {
            packet_sessions::make_call(bench, random)?;
        }
    }
    bench.follow_image(beyond(random));
    Ok(())
}

/// One byte of the 4*C, a length around 4*C, or entries that belong to another tape.
fn damage_index(index: &mut Vec<u8>, capacity: usize, random: &mut Random) {
    let length = ENTRY_LENGTH * capacity;
    let slot = ENTRY_LENGTH * random.below(capacity as u64) as usize;
    let at = random.below(length as u64) as usize;
    match random.below(16) {
        0..=2 => index[at] ^= 1 << random.below(8),
        3 => index[at] = index[at].wrapping_add(random.between(1, 255) as u8),
        4 => index[length - 1] ^= 1,
        5 => index.truncate(length - 1),
        6 => index.truncate(at),
        7 => {
            index.truncate(length - 1);
            index[at.min(length - 2)] ^= 1;
        }
        8 => index.truncate(ENTRY_LENGTH * random.below(capacity as u64) as usize),
        9 => index[slot..length].fill(0xFF),
        10 => index[slot..length].fill(0),
        11 => {
            index[slot..length].rotate_left(ENTRY_LENGTH);
        }
        12 => {
            index[slot..length].rotate_right(ENTRY_LENGTH);
            put_long(index, slot, random.below(capacity as u64 + 1) as u32);
        }
        13 => put_long(index, slot, random.below(capacity as u64 + 2) as u32),
        14 => random.fill(&mut index[..length]),
        _ => (),
    }
}

/// Whatever stands beyond the index, it is no part of it.
fn with_other_bytes_beyond(bench: &mut IndexBench, random: &mut Random) -> Outcome {
    bench.follow_image(beyond(random));
    bench.make_due()?;
    let length = ENTRY_LENGTH * long_at(bench.image(), 4) as usize;
    let mut index = bench.index().to_vec();
    random.fill(&mut index[length..]);
    bench.set_index(&index);
    packet_sessions::send_good(bench, random)?;
    bench.follow_image(beyond(random));
    Ok(())
}

/// Over any bytes, with room for the index or not, of an image that is damaged or not.
fn make_again(bench: &mut IndexBench, random: &mut Random) -> Outcome {
    let good = bench.image().to_vec();
    let record = *bench.record();
    let length = ENTRY_LENGTH * long_at(&good, 4) as usize;
    if random.percent(40) {
        let mut damaged = good.clone();
        damage_image(&mut damaged, random);
        bench.set_image(&damaged);
    }
    let room = match random.below(4) {
        0 => length - 1,
        1 => random.below(length as u64) as usize,
        _ => length + beyond(random),
    };
    let mut unmade = vec![0; room];
    random.fill(&mut unmade);
    bench.set_index(&unmade);
    bench.make()?;
    bench.set_image(&good);
    bench.set_record(&record);
    bench.follow_image(beyond(random));
    Ok(())
}
