//! "read theirs in".

mod items;
mod mistakes;
mod tape;

use crate::bug::Bug;
use crate::image::Header;
use crate::packet;
use crate::reply::Reply;
use items::Record;
use tape::{Element, Tape};

/// A file read into an image; the answer's bytes.
pub fn import(record: &mut [u8; 16], image: &mut [u8], file: &[u8]) -> [u8; 16] {
    import_with(Bug::None, record, image, file)
}

pub fn import_with(bug: Bug, record: &mut [u8; 16], image: &mut [u8], file: &[u8]) -> [u8; 16] {
    // "2 comes before these".
    let Some(header) = Header::of_with(bug, image) else {
        return Reply::refused(mistakes::of_broken_image(bug, file)).encoded();
    };
    if let Some(number) = mistakes::refused_otherwise(bug, &header, record, image) {
        return Reply::refused(number).encoded();
    }
    let mut tape = Tape::default();
    if let Err(number) = tape.read(bug, &header, file) {
        let reply = Reply::refused(number);
        return mistakes::at_refusal(bug, &header, &tape, record, image, reply).encoded();
    }
    store(bug, header, &tape, image);
    // "leaves the packet record as after a cartridge change."
    let before = *record;
    packet::change_with(bug, record);
    mistakes::leave_otherwise(bug, &before, record);
    let told = mistakes::told(bug, &header, &tape, file);
    let (blocks, bytes, marked) = told.unwrap_or((tape.elements.len(), tape.used, 0));
    Reply::good()
        .with_blocks(blocks as u32)
        .with_bytes(bytes as u32)
        .with_marked(marked as u32)
        .encoded()
}

// "Import sets U to the elements read and leaves what it doesn't store, ignores write protection".
fn store(bug: Bug, mut header: Header, tape: &Tape, image: &mut [u8]) {
    let first = mistakes::first_place(bug, &header);
    for (count, element) in tape.elements.iter().enumerate() {
        let place = first + count as u32;
        if place < header.capacity {
            store_element(bug, &header, tape, element, place, image);
        }
    }
    let recorded = mistakes::recorded(bug, &header, tape);
    header.put_recorded(image, recorded.unwrap_or(tape.elements.len() as u32));
    mistakes::after_storing(bug, &header, image);
}

fn store_element(
    bug: Bug,
    header: &Header,
    tape: &Tape,
    element: &Element,
    place: u32,
    image: &mut [u8],
) {
    match element {
        // A tape mark stores no bytes, as 10h leaves "block bytes untouched" (01).
        Element::Mark => {
            header.put_filemark(Bug::None, image, place);
            if bug == Bug::MarkClearsBlock {
                header.clear_block(image, place);
            }
        }
        Element::Record(record) => {
            if !mistakes::store_otherwise(bug, header, tape, record, place, image) {
                store_record(header, record, place, image);
            }
        }
    }
}

// "stores an unreadable block as kind 0".
fn store_record(header: &Header, record: &Record, place: u32, image: &mut [u8]) {
    header.put_bytes(image, place, record.bytes());
    let kind = if record.is_unreadable() { 0 } else { 1 };
    header.put_kind(image, place, kind);
}

#[cfg(test)]
mod tests;
