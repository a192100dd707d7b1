//! A list of trains in one call (02, A5).

mod mistakes;

use super::{Branch, Drive, call, train_with};
use crate::Bug;

/// What a train of the list was answered, and how it went.
type Told = ([u8; 8], Branch);

/// A list of trains; the answer's bytes.
pub fn trains(record: &mut [u8; 32], counts: &[u16], levels: &mut [u8]) -> [u8; 8] {
    trains_with(Bug::None, record, counts, levels).0
}

/// A list of trains with a planted mistake; the answer's bytes, and how the list itself and then each of its trains went.
pub fn trains_with(
    bug: Bug,
    record: &mut [u8; 32],
    counts: &[u16],
    levels: &mut [u8],
) -> ([u8; 8], Vec<Branch>) {
    let counts = &mistakes::counts_taken(bug, counts)[..];
    if let Some(number) = refusal(bug, record, counts, levels.len()) {
        let mut answer = [number, 0, 0, 0, 0, 0, 0, 0];
        mistakes::at_refusal(bug, record, counts, levels, &mut answer);
        return (answer, vec![Branch::Refused(number)]);
    }
    let before = *record;
    // An accepted call writes the whole record in its canonical form and answers its level, that of an empty list too.
    let (accepted, way) = call(bug, record, |_| Ok((Branch::ListAccepted, 0)));
    mistakes::begin(bug, record);
    let told = send(bug, record, counts);
    put_levels(bug, accepted[1], &told, levels);
    let mut answer = told.last().map_or(accepted, |(answer, _)| *answer);
    mistakes::end(bug, &before, record, &told, &mut answer);
    let ways = told.iter().map(|(_, way)| *way);
    (answer, [way].into_iter().chain(ways).collect())
}

// "Refusals: 8, then 5 if any count is 0, then 4 if the level buffer is shorter than the list; then nothing is sent."
fn refusal(bug: Bug, record: &[u8; 32], counts: &[u16], room: usize) -> Option<u8> {
    let mut judged = [
        (8, !Drive::decoded(record).keeps_rules()),
        (5, any_is_0(bug, counts)),
        (4, is_too_short(bug, counts, room)),
    ];
    mistakes::reorder(bug, &mut judged);
    judged
        .into_iter()
        .find(|(_, is_so)| *is_so)
        .map(|(number, _)| number)
}

// "if any count is 0".
fn any_is_0(bug: Bug, counts: &[u16]) -> bool {
    mistakes::counts_judged(bug, counts).contains(&0)
        || bug == Bug::EmptyListRefused && counts.is_empty()
}

// "if the level buffer is shorter than the list".
fn is_too_short(bug: Bug, counts: &[u16], room: usize) -> bool {
    match bug {
        Bug::RoomAtLengthRefused => room <= counts.len(),
        Bug::RoomOneShortTaken => room + 1 < counts.len(),
        Bug::RoomJudgedInBytes => room < 2 * counts.len(),
        _ => room < counts.len(),
    }
}

// "The result equals sending them singly."
fn send(bug: Bug, record: &mut [u8; 32], counts: &[u16]) -> Vec<Told> {
    let mut told = Vec::with_capacity(counts.len());
    for &count in counts {
        if mistakes::ends_here(bug, &told) {
            break;
        }
        mistakes::between(bug, record, &told);
        told.push(train_with(bug, record, count));
    }
    told
}

// "gets the level after each in a byte buffer", "Bytes of the level buffer beyond the list stay."
fn put_levels(bug: Bug, level_before: u8, told: &[Told], levels: &mut [u8]) {
    let after_each: Vec<u8> = told.iter().map(|(answer, _)| answer[1]).collect();
    if mistakes::put_otherwise(bug, level_before, &after_each, levels) {
        return;
    }
    for (byte, level) in levels.iter_mut().zip(after_each) {
        *byte = level;
    }
}

#[cfg(test)]
mod tests;
