//! What a drive with a planted mistake does otherwise with a list.

use std::borrow::Cow;

use super::{Told, put_levels, send};
use crate::Bug;
use crate::bytes::put_long;
use crate::pulse::{Branch, Drive, tick_with};

const FIRST_OF_A_BYTE: usize = 256;

/// The counts as they are read.
pub fn counts_taken(bug: Bug, counts: &[u16]) -> Cow<'_, [u16]> {
    match bug {
        Bug::ListCutToByte => counts.iter().map(|count| count % 256).collect(),
        _ => Cow::Borrowed(counts),
    }
}

/// The counts that are looked at for 5.
pub fn counts_judged(bug: Bug, counts: &[u16]) -> &[u16] {
    let end = counts.len();
    match bug {
        Bug::OnlyFirstCountJudged => &counts[..end.min(1)],
        Bug::OnlyLastCountJudged => &counts[end.saturating_sub(1)..],
        Bug::FirstCountUnjudged => &counts[end.min(1)..],
        Bug::LastCountUnjudged => &counts[..end.saturating_sub(1)],
        _ => counts,
    }
}

/// 8, 5 and 4 in another order.
pub fn reorder(bug: Bug, judged: &mut [(u8, bool); 3]) {
    match bug {
        Bug::RoomBeforeZero => judged.swap(1, 2),
        Bug::ZeroBeforeRecord => judged.swap(0, 1),
        Bug::RoomBeforeRecord => judged.rotate_right(1),
        _ => (),
    }
}

/// What a refused list does beside its answer.
pub fn at_refusal(
    bug: Bug,
    record: &mut [u8; 32],
    counts: &[u16],
    levels: &mut [u8],
    answer: &mut [u8; 8],
) {
    let number = answer[0];
    match bug {
        Bug::ListSentToFirstZero if number == 5 => {
            let before_0 = counts.split(|&count| count == 0).next();
            send_some(record, before_0.unwrap_or(&[]), levels);
        }
        Bug::ShortRoomFilled if number == 4 => send_some(record, &counts[..levels.len()], levels),
        Bug::RefusalClearsLevels => levels.fill(0),
        Bug::RefusedListWritesRecord if number != 8 => *record = Drive::decoded(record).encoded(),
        Bug::RefusalTellsLevel => answer[1] = record[16] & 1,
        _ => (),
    }
}

fn send_some(record: &mut [u8; 32], counts: &[u16], levels: &mut [u8]) {
    let told = send(Bug::None, record, counts);
    put_levels(Bug::None, 0, &told, levels);
}

/// What happens before the first train.
pub fn begin(bug: Bug, record: &mut [u8; 32]) {
    if bug == Bug::ListBeginsAnew {
        close(record);
    }
}

/// Whether the trains from here on are not sent.
pub fn ends_here(bug: Bug, told: &[Told]) -> bool {
    match bug {
        Bug::Only256Sent => told.len() == FIRST_OF_A_BYTE,
        Bug::ListEndsAtError => told.last().is_some_and(|(_, way)| latches(*way)),
        _ => false,
    }
}

/// Ways of a train that leave an error.
fn latches(way: Branch) -> bool {
    matches!(
        way,
        Branch::TrackOutOfRange
            | Branch::IllegalInReport
            | Branch::Unsupported
            | Branch::NotReadyInLoad
            | Branch::NotReadyInRun
            | Branch::NewMark
            | Branch::NoCartridge
            | Branch::NotReferenced
    )
}

/// What happens between two trains.
pub fn between(bug: Bug, record: &mut [u8; 32], told: &[Told]) {
    if bug == Bug::TickBetweenTrains && !told.is_empty() {
        tick_with(Bug::None, record);
    }
}

/// Writes the levels in another way, where the mistake is one of those.
pub fn put_otherwise(bug: Bug, level_before: u8, after_each: &[u8], levels: &mut [u8]) -> bool {
    let end = after_each.len().min(levels.len());
    let written = levels.iter_mut().zip(after_each);
    match bug {
        Bug::LevelOnePlaceOn => {
            let places = levels.iter_mut().skip(1).zip(after_each);
            places.for_each(|(byte, level)| *byte = *level);
        }
        Bug::LevelBeforeTrain => {
            let before_each = [level_before].into_iter().chain(after_each.iter().copied());
            let places = levels[..end].iter_mut().zip(before_each);
            places.for_each(|(byte, level)| *byte = level);
        }
        Bug::LevelIsFf => written.for_each(|(byte, level)| *byte = 0xFF * level),
        Bug::LevelKeepsHighBits => written.for_each(|(byte, level)| *byte = *byte & 0xFE | level),
        Bug::LevelsBeyondCleared => {
            written.for_each(|(byte, level)| *byte = *level);
            levels[end..].fill(0);
        }
        _ => return false,
    }
    true
}

/// What happens after the last train.
pub fn end(
    bug: Bug,
    before: &[u8; 32],
    record: &mut [u8; 32],
    told: &[Told],
    answer: &mut [u8; 8],
) {
    let is_empty = told.is_empty();
    match bug {
        Bug::EmptyListTellsLow if is_empty => answer[1] = 0,
        Bug::EmptyListKeepsRecord if is_empty => *record = *before,
        Bug::AnswerTellsFirstLevel if !is_empty => answer[1] = told[0].0[1],
        Bug::AnswerTellsLength => put_long(answer, 4, told.len() as u32),
        Bug::ListLeavesNothingOpen => close(record),
        _ => (),
    }
}

/// Without its open report and its waiting arguments.
fn close(record: &mut [u8; 32]) {
    let mut drive = Drive::decoded(record);
    drive.drop_report();
    drive.drop_arguments();
    *record = drive.encoded();
}
