//! Damage to tape files, to their items and to their bytes.

use tapecard::exchange::{END_MARK, UNREADABLE};

use crate::{Part, Random, TapeFile};

/// One item more, fewer or other than an export writes.
pub fn damage_parts(file: &mut TapeFile, size: u16, random: &mut Random) {
    let at = random.below(file.parts.len() as u64 + 1) as usize;
    match random.below(12) {
        0 => file.parts.insert(at, Part::END),
        1 => file
            .parts
            .retain(|part| !matches!(part, Part::Word(END_MARK))),
        2 => file.parts.insert(at, Part::MARK),
        3 => file.parts.extend([Part::MARK, Part::MARK]),
        4 => file.parts.insert(at, any_record(size, random)),
        5 => file.parts.insert(at, other_record(size, random)),
        6 => file.parts.insert(at, Part::Word(large_word(size, random))),
        7 => file.parts.truncate(at),
        8 => file.parts.insert(at, Part::Bytes(vec![random.byte(); 3])),
        _ => damage_record(file, random),
    }
}

/// A record as an image of this size takes it.
fn any_record(size: u16, random: &mut Random) -> Part {
    let mut bytes = vec![0; size.into()];
    random.fill(&mut bytes);
    if random.flag() {
        Part::record(&bytes)
    } else {
        Part::unreadable(&bytes)
    }
}

/// A record of another size, odd ones with a pad of any value or without one, even ones with one now and then.
fn other_record(size: u16, random: &mut Random) -> Part {
    let size = u32::from(size);
    let small = random.below(6) as u32;
    let length = random.pick(&[size - 1, size + 1, size - 2, 1536 - size, small]);
    let word = length + random.pick(&[0, UNREADABLE]);
    let pad_due = (length % 2 == 1).then_some(random.pick(&[0, 0, 0x5A]));
    let pad = match random.below(5) {
        0 => None,
        1 => Some(0),
        _ => pad_due,
    };
    Part::Record {
        first: word,
        bytes: vec![random.byte(); length as usize],
        pad,
        second: word,
    }
}

/// A length far beyond the file.
fn large_word(size: u16, random: &mut Random) -> u32 {
    let near = random.below(12) as u32;
    random.pick(&[
        0x7FFF_FFFF - near,
        0xFFFF_FFFE - near,
        0x7FFF_FFF8 - u32::from(size),
        0x0100_0000 + u32::from(size),
        u32::from(size).swap_bytes(),
    ])
}

/// Words of a record that disagree, or agree on something else.
fn damage_record(file: &mut TapeFile, random: &mut Random) {
    let is_record = |part: &&mut Part| matches!(part, Part::Record { .. });
    let mut records: Vec<&mut Part> = file.parts.iter_mut().filter(is_record).collect();
    if records.is_empty() {
        return;
    }
    let which = random.below(records.len() as u64) as usize;
    let Part::Record { first, second, .. } = &mut *records[which] else {
        return;
    };
    let bit = 1 << random.below(32);
    match random.below(6) {
        0 => *first ^= bit,
        1 => *second ^= bit,
        2 => *second ^= UNREADABLE,
        3 => *second = random.number() as u32,
        4 => {
            let high = 1 << random.between(24, 30);
            *first ^= high;
            *second ^= high;
        }
        _ => {
            *first ^= UNREADABLE;
            *second ^= UNREADABLE;
        }
    }
}

/// A cut, more behind the end, another byte somewhere, or no file at all.
pub fn damage_bytes(file: &mut Vec<u8>, random: &mut Random) {
    let at = random.below(file.len() as u64 + 1) as usize;
    match random.below(6) {
        0 => file.truncate(at),
        1 => file.truncate(file.len().saturating_sub(random.between(1, 6) as usize)),
        2 => file.extend(vec![random.byte(); random.between(1, 9) as usize]),
        3 if at < file.len() => file[at] ^= 1 << random.below(8),
        4 => file.clear(),
        _ => {
            file.truncate(at.min(40));
            random.fill(file);
        }
    }
}
