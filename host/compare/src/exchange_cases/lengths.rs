//! Words of records: wrong in every bit, of other sizes, odd, and far beyond the file.

use super::{Case, Cases};
use crate::Part;

const HIGH_BIT: u32 = 0x8000_0000;

pub fn cases() -> Vec<Case> {
    let mut all = Vec::new();
    for size in [512, 1024] {
        all.extend(other_sizes(size));
        all.extend(odd_records(size));
        all.extend(wrong_bits(size));
        all.extend(large_words(size));
    }
    all
}

/// "12, record not B bytes", readable or not.
fn other_sizes(size: u16) -> Vec<Case> {
    let mut cases = Cases::of(size);
    let own = usize::from(size);
    let block = cases.block(1);
    let near = [own - 2, own - 1, own + 1, own + 2];
    for length in near.into_iter().chain([1, 2, 3, 4, 8, 1536 - own, 2 * own]) {
        let bytes = vec![0xAB; length];
        let what = format!("a record of {length} bytes");
        for part in [Part::record(&bytes), Part::unreadable(&bytes)] {
            cases.refused(&what, std::slice::from_ref(&part), 12);
            cases.refused(&what, &[block.clone(), part, Part::END], 12);
        }
    }
    cases.refused("unreadable, no bytes", &[Part::unreadable(&[])], 12);
    cases.refused("half of it", &[Part::Word(HIGH_BIT)], 11);
    cases.refused("not twice", &[Part::Word(HIGH_BIT), Part::MARK], 11);
    cases.cases
}

/// "An odd record has SIMH's pad byte.", of any value; an even one has none.
fn odd_records(size: u16) -> Vec<Case> {
    let mut cases = Cases::of(size);
    let own = u32::from(size);
    for (length, pad, number) in [
        (own - 1, Some(0), 12),
        (own - 1, Some(0xEE), 12),
        (own - 1, None, 11),
        (own + 1, Some(1), 12),
        (own + 1, None, 11),
        (1, Some(0), 12),
        (1, None, 11),
        (own, Some(0), 11),
        (2, Some(0), 11),
    ] {
        for word in [length, length + HIGH_BIT] {
            let part = Part::Record {
                first: word,
                bytes: vec![0xCD; length as usize],
                pad,
                second: word,
            };
            let what = format!("a record of {length} bytes with pad {pad:?}");
            cases.refused(&what, std::slice::from_ref(&part), number);
            cases.refused(&what, &[part.clone(), Part::END], number);
            cases.refused(&what, &[part, Part::MARK, Part::MARK], number);
        }
    }
    cases.cases
}

/// One bit of either word is wrong, or the same bit of both: only the high bit of both is another record.
fn wrong_bits(size: u16) -> Vec<Case> {
    let mut cases = Cases::of(size);
    let own = u32::from(size);
    for (first, second) in [own, own + HIGH_BIT].into_iter().flat_map(words_near) {
        let part = Part::Record {
            first,
            bytes: vec![0x11; size.into()],
            pad: None,
            second,
        };
        let what = format!("words {first:X}h and {second:X}h");
        if first == second && first % HIGH_BIT == own {
            cases.taken_whole(&what, &[part], 1);
        } else {
            cases.refused(&what, std::slice::from_ref(&part), 11);
            cases.refused(&what, &[part, Part::END], 11);
        }
    }
    cases.cases
}

/// Pairs in which one bit differs from a right word, in the first, in the second or in both.
fn words_near(word: u32) -> impl Iterator<Item = (u32, u32)> {
    let wrong = (0..32).map(move |bit| word ^ 1 << bit);
    wrong.flat_map(move |wrong| [(wrong, word), (word, wrong), (wrong, wrong)])
}

/// Lengths near 2^31, and words that are right in their low bytes or in another order.
fn large_words(size: u16) -> Vec<Case> {
    let mut cases = Cases::of(size);
    let own = u32::from(size);
    for word in [
        0x7FFF_FFFF,
        0x7FFF_FFFE,
        0x7FFF_FFFC,
        0x7FFF_FFF9,
        0x7FFF_FFF8,
        0x7FFF_FFF7,
        0x7FFF_FFF8 + own,
        0x7FFF_FFF8 - own,
        0xFFFF_FFFE,
        0xFFFF_FFF8,
        0xFFFF_0000,
        0x0100_0000 + own,
        0x4000_0000 + own,
        0x8100_0000 + own,
        0x0001_0000 + own,
        own.swap_bytes(),
    ] {
        let part = Part::Record {
            first: word,
            bytes: vec![0x22; usize::from(size)],
            pad: None,
            second: word,
        };
        let what = format!("a word {word:X}h");
        cases.refused(&what, std::slice::from_ref(&part), 11);
        cases.refused(&what, &[part.clone(), part, Part::END], 11);
        cases.refused(&what, &[Part::Word(word)], 11);
        cases.refused(&what, &[Part::Word(word), Part::Word(word)], 11);
    }
    cases.cases
}
