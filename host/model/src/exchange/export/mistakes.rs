//! What an export with a planted mistake does otherwise.

use std::ops::Range;

use crate::bug::Bug;
use crate::exchange::WORD_LENGTH;
use crate::image::{Header, Kind};

/// 4 before 2: there is no room for an end mark, whatever the image is.
pub fn judges_room_first(bug: Bug, file: &[u8]) -> bool {
    bug == Bug::ExportJudgesRoomFirst && file.len() < WORD_LENGTH
}

/// The elements that are written.
pub fn elements(bug: Bug, header: &Header) -> Range<u32> {
    match bug {
        Bug::ExportOfCapacity => 0..header.capacity,
        Bug::ExportMissesLast => 0..header.recorded.saturating_sub(1),
        _ => 0..header.recorded,
    }
}

/// Whether a record has the high bit, where a mistake decides it.
pub fn unreadable(bug: Bug, header: &Header, image: &[u8], element: u32) -> Option<bool> {
    let kind = header.kind_of(Bug::None, image, element);
    match bug {
        Bug::ExportMarkedUnreadable => Some(matches!(kind, Kind::Marked | Kind::Unreadable)),
        Bug::ExportUnreadableAsData => Some(false),
        Bug::ExportOnlyZeroUnreadable => Some(header.kind_byte(image, element) == 0),
        _ => None,
    }
}

/// Other bytes than the block's.
pub fn bytes_otherwise(
    bug: Bug,
    header: &Header,
    image: &[u8],
    element: u32,
    is_unreadable: bool,
) -> Option<Vec<u8>> {
    match bug {
        Bug::ExportUnreadableEmpty if is_unreadable => Some(Vec::new()),
        Bug::ExportUnreadableCleared if is_unreadable => Some(vec![0; header.block_size as usize]),
        Bug::ExportBlocksInRow => {
            let row = element - filemarks(header, image, element);
            Some(header.block(image, row).to_vec())
        }
        _ => None,
    }
}

/// Blocks, bytes and marked blocks in the answer.
pub fn told(
    bug: Bug,
    header: &Header,
    image: &[u8],
    whole: &[u8],
    file: &[u8],
) -> Option<(u32, usize, u32)> {
    let (blocks, bytes) = (header.recorded, whole.len());
    match bug {
        Bug::ExportTellsNoEndMark => Some((blocks, bytes - WORD_LENGTH, 0)),
        Bug::ExportTellsRoom => Some((blocks, file.len(), 0)),
        Bug::ExportCountsRecords => Some((blocks - filemarks(header, image, blocks), bytes, 0)),
        Bug::ExportTellsMarked => Some((blocks, bytes, header.marked_in(image, 0..blocks))),
        _ => None,
    }
}

/// Filemarks before this element.
fn filemarks(header: &Header, image: &[u8], end: u32) -> u32 {
    let is_filemark = |&element: &u32| header.kind_of(Bug::None, image, element) == Kind::Filemark;
    (0..end).filter(is_filemark).count() as u32
}
