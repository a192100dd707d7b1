//! What is wrong with a file on the tape.

use crate::tape::catalogue::{Fit, TapeFile};
use crate::tape::checksum::crc32;
use crate::tape::reading::Bytes;
use crate::words;

/// A sentence's part for each thing that is wrong; none where the file is whole.
pub fn found(file: &TapeFile, read: &Bytes, raw: bool, block_size: usize) -> Vec<String> {
    let mut damage = Vec::new();
    if !read.missing.is_empty() {
        damage.push(unreadable(&read.missing));
    }
    if raw {
        return damage;
    }
    let fit = file.fit(block_size);
    damage.extend(misfit(file, fit, block_size));
    let told = file.label.as_ref().and_then(|label| label.checksum);
    let sum = crc32(&read.bytes);
    if damage.is_empty() && told.is_some_and(|told| told != sum) {
        damage.push(format!(
            "its bytes are not those that were put: their checksum is {sum:08X} and its label has {:08X}",
            told.unwrap_or_default()
        ));
    }
    damage
}

fn misfit(file: &TapeFile, fit: Fit, block_size: usize) -> Option<String> {
    let told = file.label.as_ref()?.data_blocks(block_size);
    let there = u64::from(file.content_blocks());
    let counts = format!(
        "its label tells of {} and there {} {there}",
        words::count(told, "block"),
        if there == 1 { "is" } else { "are" }
    );
    match fit {
        Fit::Whole => None,
        Fit::CutShort => Some(format!("{counts}: it was cut short")),
        Fit::TooLong => Some(format!(
            "{counts}: more was written behind it (--raw takes all)"
        )),
    }
}

/// `the block at place 2 is unreadable`, `the blocks at places 2 and 5-7 are unreadable`.
fn unreadable(places: &[u32]) -> String {
    let runs: Vec<String> = places
        .chunk_by(|a, b| a + 1 == *b)
        .map(|run| match run {
            [first, .., last] => format!("{first}-{last}"),
            one => one.iter().map(u32::to_string).collect(),
        })
        .collect();
    match (places, runs.split_last()) {
        ([place], _) => format!("the block at place {place} is unreadable"),
        (_, Some((last, []))) => format!("the blocks at places {last} are unreadable"),
        (_, Some((last, others))) => format!(
            "the blocks at places {} and {last} are unreadable",
            others.join(", ")
        ),
        (_, None) => String::new(),
    }
}

#[cfg(test)]
mod tests {
    use super::*;

    #[test]
    fn places_in_runs() {
        assert_eq!(unreadable(&[2]), "the block at place 2 is unreadable");
        assert_eq!(
            unreadable(&[2, 3]),
            "the blocks at places 2-3 are unreadable"
        );
        assert_eq!(
            unreadable(&[0, 2, 5, 6, 7]),
            "the blocks at places 0, 2 and 5-7 are unreadable"
        );
    }
}
