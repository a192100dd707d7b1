//! A READ written by hand in Rust: the same bytes in and out and the same checks in the same order as the interface has for this
//! packet, and a copy block by block. It answers READ alone; every other packet is an unknown command here.

use tapecard::bytes::triple::{self, Triple};
use tapecard::bytes::{count_at, kind, long_at, opcode, put_long, word_at};
use tapecard::packet::CHECK_CONDITION;

const SPEEDS: [u16; 5] = [0, 62, 125, 250, 500];

/// The flags of a sense in the record's byte 11.
const VALID: u8 = 1;
const EOM: u8 = 2;
const FILEMARK: u8 = 4;

struct Header {
    block_size: u32,
    recorded: u32,
    kinds_at: u32,
    blocks_at: u32,
    /// U > C - W.
    past_warning: bool,
}

/// The call of the interface, for READ.
pub fn packet(
    record: &mut [u8; 16],
    image: &[u8],
    packet: &[u8],
    data: &mut [u8],
    answer: &mut [u8; 16],
) {
    *answer = [0; 16];
    if packet.len() != 12 {
        answer[0] = 1;
        return;
    }
    let Some(header) = read_header(image) else {
        answer[0] = 2;
        return;
    };
    let position = long_at(record, 0);
    if position > header.recorded || !SPEEDS.contains(&word_at(record, 6)) || record[8] > 15 {
        answer[0] = 3;
        return;
    }
    if let Some(sense) = before_the_work(record, packet) {
        record[5] = 0;
        end(record, sense, 0, 0);
        answer[1] = CHECK_CONDITION;
        return;
    }
    let count = count_at(packet, 2);
    // N*B can pass 32 bits.
    if (data.len() as u64) < u64::from(count) * u64::from(header.block_size) {
        answer[0] = 4;
        return;
    }
    let run = copy_blocks(image, &header, position, count, data);
    finish(record, &header, &run, count);
    tell(answer, &header, &run);
}

/// Attention, opcode, fields, not ready.
fn before_the_work(record: &[u8; 16], packet: &[u8]) -> Option<Triple> {
    match record[5] {
        1 => return Some(triple::MEDIUM_CHANGED),
        2 => return Some(triple::RESET),
        _ => {}
    }
    if packet[0] != opcode::READ {
        Some(triple::UNKNOWN_COMMAND)
    } else if packet[1] & 1 == 0 {
        Some(triple::BAD_FIELD)
    } else if record[4] & 1 == 0 {
        Some(triple::NOT_LOADED)
    } else {
        None
    }
}

/// How far a READ came.
struct Run {
    position: u32,
    copied: u32,
    /// Of those copied.
    marked: u32,
    stop: Option<Triple>,
}

/// Copies up to `count` blocks from this position on.
fn copy_blocks(image: &[u8], header: &Header, from: u32, count: u32, data: &mut [u8]) -> Run {
    let size = header.block_size as usize;
    let mut run = Run {
        position: from,
        copied: 0,
        marked: 0,
        stop: None,
    };
    while run.copied < count && run.stop.is_none() {
        if run.position == header.recorded {
            run.stop = Some(triple::END_OF_DATA);
            break;
        }
        let element = run.position as usize;
        let block = header.blocks_at as usize + element * size;
        let element_kind = image[header.kinds_at as usize + element];
        match element_kind {
            kind::DATA | kind::MARKED => {
                let copied = run.copied as usize;
                let room = &mut data[copied * size..(copied + 1) * size];
                room.copy_from_slice(&image[block..block + size]);
                run.copied += 1;
                run.marked += u32::from(element_kind == kind::MARKED);
            }
            kind::FILEMARK => run.stop = Some(triple::FILEMARK),
            _ => run.stop = Some(triple::UNREADABLE),
        }
        run.position += 1;
    }
    run
}

fn finish(record: &mut [u8; 16], header: &Header, run: &Run, count: u32) {
    put_long(record, 0, run.position);
    match run.stop {
        Some(sense) => {
            let flags = VALID + flag_beside(sense, header);
            end(record, sense, flags, count - run.copied);
        }
        None => end(record, triple::NOTHING, 0, 0),
    }
}

/// Status, blocks, bytes, and how many of the blocks were marked (02, A6).
fn tell(answer: &mut [u8; 16], header: &Header, run: &Run) {
    if run.stop.is_some() {
        answer[1] = CHECK_CONDITION;
    }
    put_long(answer, 4, run.copied);
    put_long(answer, 8, run.copied * header.block_size);
    put_long(answer, 12, run.marked);
}

/// The flag that a stop has beside [`VALID`]. 02, A3: "So 8/00/05 on READ and SPACE carries EOM when U > C - W."
fn flag_beside(stop: Triple, header: &Header) -> u8 {
    match stop {
        triple::FILEMARK => FILEMARK,
        triple::END_OF_DATA if header.past_warning => EOM,
        _ => 0,
    }
}

fn end(record: &mut [u8; 16], sense: Triple, flags: u8, residue: u32) {
    record[8..11].copy_from_slice(&sense);
    record[11] = flags;
    put_long(record, 12, residue);
}

/// The header, where the image keeps its rules.
fn read_header(image: &[u8]) -> Option<Header> {
    if image.len() < 32 || word_at(image, 0) != 32 {
        return None;
    }
    let block_size = u32::from(word_at(image, 2));
    let capacity = long_at(image, 4);
    let recorded = long_at(image, 8);
    let (kinds_at, blocks_at) = (long_at(image, 12), long_at(image, 16));
    let early_warning = u32::from(word_at(image, 22));
    let ranges = (block_size == 512 || block_size == 1024)
        && (1..=65_535).contains(&capacity)
        && recorded <= capacity
        && image[20] <= 1
        && early_warning <= capacity
        && image[24..32].iter().all(|b| *b == 0);
    // K + C and D + C*B can pass 32 bits.
    let places = kinds_at >= 32
        && u64::from(kinds_at) + u64::from(capacity) <= u64::from(blocks_at)
        && u64::from(blocks_at) + u64::from(capacity) * u64::from(block_size) <= image.len() as u64;
    (ranges && places).then(|| Header {
        block_size,
        recorded,
        kinds_at,
        blocks_at,
        past_warning: recorded > capacity - early_warning,
    })
}
