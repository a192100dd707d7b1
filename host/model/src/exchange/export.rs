//! "Write ours out".

mod mistakes;

use super::{END_MARK, HIGH_BIT, TAPE_MARK, WORD_LENGTH};
use crate::bug::Bug;
use crate::image::{Header, Kind};
use crate::reply::Reply;

/// An image written out; the answer's bytes.
pub fn export(image: &[u8], file: &mut [u8]) -> [u8; 16] {
    export_with(Bug::None, image, file)
}

pub fn export_with(bug: Bug, image: &[u8], file: &mut [u8]) -> [u8; 16] {
    if mistakes::judges_room_first(bug, file) {
        return Reply::refused(4).encoded();
    }
    // "export gives 2, then 4 where its output buffer is too short."
    let Some(header) = Header::of_with(bug, image) else {
        return Reply::refused(2).encoded();
    };
    let whole = written(bug, &header, image);
    if is_too_short(bug, &header, &whole, file.len()) {
        if bug == Bug::ShortFileFilled {
            put(&whole, file);
        }
        return Reply::refused(4).encoded();
    }
    put(&whole, file);
    if bug == Bug::ExportClearsBeyond {
        file[whole.len()..].fill(0);
    }
    let told = mistakes::told(bug, &header, image, &whole, file);
    let (blocks, bytes, marked) = told.unwrap_or((header.recorded, whole.len(), 0));
    Reply::good()
        .with_blocks(blocks)
        .with_bytes(bytes as u32)
        .with_marked(marked)
        .encoded()
}

// "where its output buffer is too short".
fn is_too_short(bug: Bug, header: &Header, whole: &[u8], room: usize) -> bool {
    let each = header.block_size as usize + 2 * WORD_LENGTH;
    match bug {
        Bug::ExportNeedsMost => room < WORD_LENGTH + header.recorded as usize * each,
        Bug::ExportNeedsNoEndMark => room + WORD_LENGTH < whole.len(),
        Bug::ExportLongRefused => room != whole.len(),
        _ => room < whole.len(),
    }
}

// Bytes of the buffer beyond the file stay.
fn put(whole: &[u8], file: &mut [u8]) {
    for (byte, written) in file.iter_mut().zip(whole) {
        *byte = *written;
    }
}

// The elements below U, as "Kinds at U and above mean nothing." (01); "export ends with the mark."
fn written(bug: Bug, header: &Header, image: &[u8]) -> Vec<u8> {
    let mut file = Vec::new();
    for element in mistakes::elements(bug, header) {
        match header.kind_of(bug, image, element) {
            Kind::Filemark => put_mark(bug, &mut file),
            kind => put_record(bug, header, image, element, kind, &mut file),
        }
    }
    if bug != Bug::ExportLacksEndMark {
        put_word(bug, END_MARK, &mut file);
    }
    file
}

// "zero for a tape mark".
fn put_mark(bug: Bug, file: &mut Vec<u8>) {
    put_word(bug, TAPE_MARK, file);
    if bug == Bug::ExportMarkHasTwoWords {
        put_word(bug, TAPE_MARK, file);
    }
}

// "A block becomes a record of B bytes, an unreadable one has the high bit of its length set, a marked one is written as plain data."
// B is even, so there is no pad byte.
fn put_record(
    bug: Bug,
    header: &Header,
    image: &[u8],
    element: u32,
    kind: Kind,
    file: &mut Vec<u8>,
) {
    let is_unreadable = mistakes::unreadable(bug, header, image, element)
        .unwrap_or(matches!(kind, Kind::Unreadable));
    let flag = if is_unreadable { HIGH_BIT } else { 0 };
    let bytes = mistakes::bytes_otherwise(bug, header, image, element, is_unreadable)
        .unwrap_or_else(|| header.block(image, element).to_vec());
    let length = bytes.len() as u32;
    put_word(bug, length + flag, file);
    file.extend(bytes);
    if bug == Bug::ExportPadsEven {
        file.push(0);
    }
    match bug {
        Bug::ExportSecondWordPlain => put_word(bug, length, file),
        _ => put_word(bug, length + flag, file),
    }
}

// "a little-endian length of four bytes".
fn put_word(bug: Bug, word: u32, file: &mut Vec<u8>) {
    match bug {
        Bug::ExportBigEndian => file.extend(word.to_be_bytes()),
        _ => file.extend(word.to_le_bytes()),
    }
}

#[cfg(test)]
mod tests;
