//! Images written out: every kind, no elements and as many as there can be, and buffers around the length of the file.

use tapecard::bytes::{kind, put_long, put_word};

use super::{CAPACITY, Call, Case, RECORD, answer, cartridge, refusal};

const KINDS_AT: usize = 35;
const RECORDED_AT: usize = 8;
const PROTECT_AT: usize = 20;

pub fn cases() -> Vec<Case> {
    let mut all = Vec::new();
    for size in [512, 1024] {
        all.extend(rooms(size));
        all.extend(kinds(size));
        all.push(protected(size));
        all.extend(broken(size));
    }
    all
}

/// The cartridge with these elements below U, over a buffer of so many bytes.
fn case(size: u16, kinds: [u8; 3], recorded: u32, room: usize) -> Case {
    let mut image = cartridge(size);
    put_long(&mut image, RECORDED_AT, recorded);
    image[KINDS_AT..KINDS_AT + 3].copy_from_slice(&kinds);
    let needed = needed(size, &kinds[..recorded as usize]);
    let told = if room < needed {
        refusal(4)
    } else {
        answer(recorded, needed)
    };
    Case {
        what: format!("kinds {kinds:?}, U {recorded}, room {room}, B {size}"),
        record: RECORD,
        image,
        call: Call::Export((0..room).map(|at| 0x33 ^ at as u8).collect()),
        answer: told,
    }
}

/// A mark is a word, all else a block between two, and the end mark is one more.
fn needed(size: u16, kinds: &[u8]) -> usize {
    let marks = kinds.iter().filter(|&&kind| kind == kind::FILEMARK).count();
    4 + 4 * marks + (kinds.len() - marks) * (usize::from(size) + 8)
}

/// "4 where its output buffer is too short": for this file, not for the longest that there could be.
fn rooms(size: u16) -> Vec<Case> {
    let mut cases = Vec::new();
    for kinds in [[1, 2, 0], [2, 1, 4], [2, 2, 2], [4, 7, 1]] {
        for recorded in 0..=CAPACITY {
            let needed = needed(size, &kinds[..recorded as usize]);
            let most = 4 + recorded as usize * (usize::from(size) + 8);
            for room in [
                0,
                3,
                needed.saturating_sub(5),
                needed - 4,
                needed - 1,
                needed,
                needed + 1,
                needed + 9,
                most,
            ] {
                cases.push(case(size, kinds, recorded, room));
            }
        }
    }
    cases
}

/// Every kind below U, alone and between others.
fn kinds(size: u16) -> Vec<Case> {
    let room = 4 + 3 * (usize::from(size) + 8) + 6;
    let alone = (0..=255).map(|kind| case(size, [kind; 3], 1, room));
    let between = (0..=255).map(|kind| case(size, [1, kind, 2], 3, room));
    alone.chain(between).collect()
}

/// Write protection is no matter of an export, which stores nothing in the image.
fn protected(size: u16) -> Case {
    let mut case = case(size, [1, 2, 0], 3, 3000);
    case.image[PROTECT_AT] = 1;
    case
}

/// "export gives 2, then 4".
fn broken(size: u16) -> Vec<Case> {
    let mut cases = Vec::new();
    for room in [0, 3, 4, 3000] {
        for (at, value) in [(0, 33), (2, 513), (22, 4), (28, 1)] {
            let mut case = case(size, [1, 2, 0], 2, room);
            put_word(&mut case.image, at, value);
            case.answer = refusal(2);
            cases.push(case);
        }
        let mut none = case(size, [1, 2, 0], 2, room);
        none.image.truncate(31);
        none.answer = refusal(2);
        cases.push(none);
    }
    cases
}
