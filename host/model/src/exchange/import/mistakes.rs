//! What an import with a planted mistake does otherwise.

use super::items::Record;
use super::tape::{Element, Tape};
use super::{store, store_record};
use crate::bug::Bug;
use crate::exchange::WORD_LENGTH;
use crate::image::{Header, Kind};
use crate::packet;
use crate::record::State;
use crate::reply::Reply;

const PROTECT_AT: usize = 20;

/// The number for an image that breaks a header rule.
pub fn of_broken_image(bug: Bug, file: &[u8]) -> u8 {
    let any = Header {
        block_size: 512,
        capacity: u32::MAX,
        recorded: 0,
        kinds_at: 0,
        blocks_at: 0,
        protected: false,
        medium_type: 0,
        early_warning: 0,
    };
    match Tape::default().read(Bug::None, &any, file) {
        Err(11) if bug == Bug::FileBeforeImage => 11,
        _ => 2,
    }
}

/// A refusal before the file is looked at.
pub fn refused_otherwise(bug: Bug, header: &Header, record: &[u8; 16], image: &[u8]) -> Option<u8> {
    match bug {
        Bug::ProtectedImageRefused => header.protected.then_some(2),
        Bug::ImportJudgesRecord => {
            let state = State::decoded(bug, record);
            packet::header_first(bug, &state, image, &[0; 12]).err()
        }
        _ => None,
    }
}

/// Whether the pad byte of an odd record is judged, and is not 0.
pub fn judges_pad(bug: Bug, rest: &[u8], length: u64) -> bool {
    bug == Bug::PadJudged && length % 2 == 1 && rest[WORD_LENGTH + length as usize] != 0
}

/// The end of a file that has no end mark.
pub fn end_of_file(bug: Bug, file: &[u8]) -> Result<(), u8> {
    match bug {
        Bug::MissingEndMarkRefused => Err(11),
        Bug::EmptyFileRefused if file.is_empty() => Err(11),
        _ => Ok(()),
    }
}

/// 11, 12 and 13 in another order.
pub fn reorder(bug: Bug, judged: &mut [(u8, bool); 3]) {
    match bug {
        Bug::SizeBeforeLengths => judged.swap(0, 1),
        Bug::CapacityBeforeSize => judged.swap(1, 2),
        Bug::CapacityBeforeLengths => judged.rotate_right(1),
        _ => (),
    }
}

/// Whether this number is given only behind the end of the file.
pub fn judges_last(bug: Bug, number: u8) -> bool {
    match bug {
        Bug::SizesJudgedLast => number == 12,
        Bug::CapacityJudgedLast => number == 13,
        _ => false,
    }
}

/// Where the first element is stored.
pub fn first_place(bug: Bug, header: &Header) -> u32 {
    match bug {
        Bug::ImportAppends => header.recorded,
        _ => 0,
    }
}

/// Stores a record in another way, where the mistake is one of those.
pub fn store_otherwise(
    bug: Bug,
    header: &Header,
    tape: &Tape,
    record: &Record,
    place: u32,
    image: &mut [u8],
) -> bool {
    let is_unreadable = record.is_unreadable();
    let kind_before = header.kind_of(Bug::None, image, place);
    let kind = match bug {
        Bug::UnreadableStoredAsData if is_unreadable => 1,
        Bug::UnreadableStoredAsThree if is_unreadable => 3,
        Bug::UnreadableKeepsKind if is_unreadable && kind_before == Kind::Unreadable => {
            header.kind_byte(image, place)
        }
        Bug::ImportKeepsMarked if !is_unreadable && kind_before == Kind::Marked => 4,
        Bug::UnreadableBytesDropped if is_unreadable => {
            header.put_kind(image, place, 0);
            return true;
        }
        Bug::ImportBlocksInRow => {
            let row = place - marks_before(tape, place);
            header.put_bytes(image, row, record.bytes());
            header.put_kind(image, place, u8::from(!is_unreadable));
            return true;
        }
        Bug::UnreadableSizeUnjudged => {
            let end = record.bytes().len().min(header.block_size as usize);
            header.put_bytes(image, place, &record.bytes()[..end]);
            header.put_kind(image, place, u8::from(!is_unreadable));
            return true;
        }
        _ => return false,
    };
    store_record(header, record, place, image);
    header.put_kind(image, place, kind);
    true
}

fn marks_before(tape: &Tape, place: u32) -> u32 {
    let before = &tape.elements[..place as usize];
    let marks = before
        .iter()
        .filter(|element| matches!(element, Element::Mark));
    marks.count() as u32
}

/// U after the import, where a mistake decides it.
pub fn recorded(bug: Bug, header: &Header, tape: &Tape) -> Option<u32> {
    let stored = tape.elements.len() as u32;
    match bug {
        Bug::RecordedKept => Some(header.recorded),
        Bug::RecordedOnlyGrows => Some(header.recorded.max(stored)),
        Bug::RecordedCountsRecords => Some(tape.records() as u32),
        Bug::EmptyFileKeepsRecorded if stored == 0 => Some(header.recorded),
        Bug::ImportAppends => Some((header.recorded + stored).min(header.capacity)),
        _ => None,
    }
}

/// What happens to the rest of the image.
pub fn after_storing(bug: Bug, header: &Header, image: &mut [u8]) {
    for place in header.recorded..header.capacity {
        match bug {
            Bug::ImportClearsKindsBeyond => header.put_kind(image, place, 0),
            Bug::ImportClearsBlocksBeyond => header.clear_block(image, place),
            _ => (),
        }
    }
    if bug == Bug::ImportUnprotects {
        image[PROTECT_AT] = 0;
    }
}

/// What is left otherwise in the record.
pub fn leave_otherwise(bug: Bug, before: &[u8; 16], record: &mut [u8; 16]) {
    let (was, mut now) = (State::decoded(bug, before), State::decoded(bug, record));
    match bug {
        Bug::ImportKeepsRecord => *record = *before,
        Bug::LockStopsImport if was.locked => *record = *before,
        Bug::ImportMakesFresh => *record = State::fresh(bug).encoded(),
        _ => {
            match bug {
                Bug::ImportKeepsPosition => now.position = was.position,
                Bug::ImportKeepsUnloaded => now.loaded = was.loaded,
                Bug::ImportKeepsAttention => now.attention = was.attention,
                Bug::ImportKeepsSense => now.sense = was.sense,
                Bug::ImportResetsSpeed => now.speed = State::fresh(bug).speed,
                Bug::ImportUnlocks => now.locked = false,
                _ => (),
            }
            *record = now.encoded();
        }
    }
}

/// Blocks, bytes and marked blocks in the answer.
pub fn told(bug: Bug, header: &Header, tape: &Tape, file: &[u8]) -> Option<(usize, usize, usize)> {
    let (blocks, bytes) = (tape.elements.len(), tape.used);
    let end_mark = WORD_LENGTH * usize::from(tape.has_end_mark);
    match bug {
        Bug::ImportTellsNoEndMark => Some((blocks, bytes - end_mark, 0)),
        Bug::ImportTellsFileLength => Some((blocks, file.len(), 0)),
        Bug::ImportTellsBlockBytes => {
            Some((blocks, tape.records() * header.block_size as usize, 0))
        }
        Bug::ImportCountsRecords => Some((tape.records(), bytes, 0)),
        Bug::ImportTellsUnreadable => Some((blocks, bytes, unreadable_in(tape))),
        _ => None,
    }
}

fn unreadable_in(tape: &Tape) -> usize {
    let is_unreadable =
        |element: &&Element| matches!(element, Element::Record(record) if record.is_unreadable());
    tape.elements.iter().filter(is_unreadable).count()
}

/// What a refused import does beside its answer, or tells in it.
pub fn at_refusal(
    bug: Bug,
    header: &Header,
    tape: &Tape,
    record: &mut [u8; 16],
    image: &mut [u8],
    reply: Reply,
) -> Reply {
    match bug {
        Bug::StoredBeforeJudged => store(bug, *header, tape, image),
        Bug::RefusedImportChangesRecord => packet::change(record),
        Bug::RefusalTellsPlace => return reply.with_bytes(tape.used as u32),
        _ => (),
    }
    reply
}
