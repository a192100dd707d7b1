//! The packet drive with a filemark index beside its image (02, A4).

mod mistakes;

use crate::bug::Bug;
use crate::image::{Header, Kind};
use crate::packet;
use crate::record::State;
use crate::reply::{Ending, Reply};
use mistakes::Mistaken;

/// "four bytes for each".
pub const ENTRY_LENGTH: usize = 4;

/// "the rest of the first 4*C bytes is FFh".
const REST: u8 = 0xFF;

/// The index made afresh; the answer's bytes.
pub fn make(image: &[u8], index: &mut [u8]) -> [u8; 16] {
    make_with(Bug::None, image, index)
}

pub fn make_with(bug: Bug, image: &[u8], index: &mut [u8]) -> [u8; 16] {
    if mistakes::judges_length_first(bug, image, index) {
        return Reply::refused(9).encoded();
    }
    let Some(header) = Header::of_with(bug, image) else {
        return Reply::refused(2).encoded();
    };
    if is_too_short(bug, &header, index) {
        if bug == Bug::ShortIndexFilled {
            lay_out(bug, &header, &places(bug, &header, image), index);
        }
        return Reply::refused(9).encoded();
    }
    let places = places(bug, &header, image);
    lay_out(bug, &header, &places, index);
    let told = mistakes::told_by_make(bug, &header, &places, index);
    let (blocks, bytes) = told.unwrap_or((places.len(), length_of(&header)));
    Reply::good()
        .with_blocks(blocks as u32)
        .with_bytes(bytes as u32)
        .encoded()
}

/// One packet with an index; the answer's bytes.
pub fn packet(
    record: &mut [u8; 16],
    image: &mut [u8],
    index: &mut [u8],
    packet: &[u8],
    data: &mut [u8],
) -> [u8; 16] {
    packet_with(Bug::None, record, image, index, packet, data).0
}

/// One packet with an index and a planted mistake; the answer's bytes and how it ended.
pub fn packet_with(
    bug: Bug,
    record: &mut [u8; 16],
    image: &mut [u8],
    index: &mut [u8],
    packet: &[u8],
    data: &mut [u8],
) -> ([u8; 16], Ending) {
    if let Some(number) = refused_first(bug, record, image, index, packet) {
        let number = mistakes::at_refusal(bug, number, record, image, index, packet, data);
        let reply = Reply::refused(number);
        return (reply.encoded(), reply.ending);
    }
    let mistaken = Mistaken::of(bug, record, image, index, packet);
    mistaken.begin(record);
    // "SPACE over filemarks through the index gives the same answer, sense and position as without it."
    let (answer, ending) = packet::packet_with(bug, record, image, packet, data);
    // "After every packet not refused it equals the index made afresh from the image".
    if !matches!(ending, Ending::Refused(_)) {
        make_afresh(bug, image, index);
    }
    mistaken.end(record, index, (answer, ending))
}

// "Refusals: 9, index buffer shorter than four times the capacity; 10, index differs from a fresh one; in that order after 3."
fn refused_first(
    bug: Bug,
    record: &[u8; 16],
    image: &[u8],
    index: &[u8],
    packet: &[u8],
) -> Option<u8> {
    let state = State::decoded(bug, record);
    let wrong_index = |header: &Header| wrong_index(bug, header, image, index);
    match packet::header_first(bug, &state, image, packet) {
        Ok(_) if mistakes::lets_pass(bug, &state, packet) => None,
        Ok(header) => wrong_index(&header),
        Err(number) if mistakes::comes_before(bug, number) => Header::of(image)
            .and_then(|header| wrong_index(&header))
            .or(Some(number)),
        Err(number) => Some(number),
    }
}

fn wrong_index(bug: Bug, header: &Header, image: &[u8], index: &[u8]) -> Option<u8> {
    let too_short = is_too_short(bug, header, index);
    if too_short && bug != Bug::LengthAfterEntries {
        return Some(9);
    }
    if differs_from_fresh(bug, header, image, index) {
        return Some(10);
    }
    too_short.then_some(9)
}

// "index buffer shorter than four times the capacity".
fn is_too_short(bug: Bug, header: &Header, index: &[u8]) -> bool {
    let length = length_of(header);
    match bug {
        Bug::IndexOneShortTaken => index.len() + 1 < length,
        Bug::IndexLengthByRecorded => index.len() < ENTRY_LENGTH * header.recorded as usize,
        Bug::LongIndexRefused => index.len() != length,
        _ => index.len() < length,
    }
}

// "index differs from a fresh one": in its 4*C bytes, as those beyond are no part of it.
fn differs_from_fresh(bug: Bug, header: &Header, image: &[u8], index: &[u8]) -> bool {
    let mut fresh = index.to_vec();
    let places = places(bug, header, image);
    lay_out(bug, header, &places, &mut fresh);
    if let Some(differs) = mistakes::differs(bug, header, &places, index, &fresh) {
        return differs;
    }
    let end = index.len().min(length_of(header));
    index[..end] != fresh[..end]
}

fn make_afresh(bug: Bug, image: &[u8], index: &mut [u8]) {
    let header =
        Header::of_with(bug, image).expect("a packet leaves an image that keeps its rules");
    lay_out(bug, &header, &places(bug, &header, image), index);
}

// "Keep an index of filemark places, ascending": those below U, as "Kinds at U and above mean nothing." (01)
fn places(bug: Bug, header: &Header, image: &[u8]) -> Vec<u32> {
    let end = match bug {
        Bug::IndexOfCapacity => header.capacity,
        _ => header.recorded,
    };
    let mut places = Vec::new();
    for element in 0..end {
        match header.kind_of(bug, image, element) {
            Kind::Filemark => places.push(element),
            Kind::Marked if bug == Bug::IndexTakesMarked => places.push(element),
            _ => (),
        }
    }
    mistakes::displace(bug, header, &mut places);
    places
}

// "in a second lent buffer, four bytes for each; the rest of the first 4*C bytes is FFh, and bytes beyond stay."
fn lay_out(bug: Bug, header: &Header, places: &[u32], index: &mut [u8]) {
    let mut whole = vec![REST; length_of(header)];
    for (entry, place) in whole.chunks_mut(ENTRY_LENGTH).zip(places) {
        entry.copy_from_slice(&place.to_be_bytes());
    }
    mistakes::lay_otherwise(bug, places, &mut whole);
    for (byte, laid) in index.iter_mut().zip(&whole) {
        *byte = *laid;
    }
    if bug == Bug::IndexClearsBeyond && index.len() > whole.len() {
        index[whole.len()..].fill(REST);
    }
}

// "4*C".
fn length_of(header: &Header) -> usize {
    ENTRY_LENGTH * header.capacity as usize
}

#[cfg(test)]
mod tests;
