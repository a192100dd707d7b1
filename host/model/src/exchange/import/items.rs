//! What stands at one place of a file.

use super::mistakes;
use crate::bug::Bug;
use crate::exchange::{END_MARK, HIGH_BIT, TAPE_MARK, WORD_LENGTH};

/// The next of a file.
pub enum Item<'a> {
    /// No byte is left.
    EndOfFile,
    /// Some are left, but fewer than a word has.
    PartOfWord,
    EndMark,
    TapeMark,
    Record(Record<'a>),
}

/// A record, whole or not.
#[derive(Clone, Copy)]
pub struct Record<'a> {
    word: u32,
    /// Bytes that its word gives it.
    pub length: u64,
    /// Those of the file; none where "lengths disagree or are cut".
    bytes: Option<&'a [u8]>,
    /// Bytes of the file that it takes with its words and its pad.
    pub whole: u64,
}

impl<'a> Record<'a> {
    pub fn is_whole(&self) -> bool {
        self.bytes.is_some()
    }

    pub fn bytes(&self) -> &'a [u8] {
        self.bytes.expect("a record that is whole")
    }

    pub fn is_unreadable(&self) -> bool {
        self.word >= HIGH_BIT
    }
}

/// "zero for a tape mark, FFFFFFFFh for end of medium"; every other word is the length of a record.
pub fn item_at(bug: Bug, file: &[u8], at: usize) -> Item<'_> {
    let rest = &file[at..];
    if rest.is_empty() {
        return Item::EndOfFile;
    }
    let Some(word) = word_at(bug, rest, 0) else {
        return Item::PartOfWord;
    };
    match word {
        TAPE_MARK => Item::TapeMark,
        HIGH_BIT if bug == Bug::EmptyUnreadableIsMark => Item::TapeMark,
        END_MARK if bug != Bug::EndMarkIsRecord => Item::EndMark,
        _ => Item::Record(record_of(bug, rest, word)),
    }
}

// "a little-endian length of four bytes before and after each record"; "An odd record has SIMH's pad byte."
fn record_of(bug: Bug, rest: &[u8], word: u32) -> Record<'_> {
    let length = length_of(bug, word);
    let pad = match bug {
        Bug::PadForgotten => 0,
        Bug::PadOfEven => 1,
        _ => length % 2,
    };
    let words = 2 * WORD_LENGTH as u64;
    let whole = match bug {
        Bug::FileNeedWraps => (words + length + pad) % u64::from(HIGH_BIT),
        _ => words + length + pad,
    };
    let is_whole = whole <= rest.len() as u64
        && whole >= WORD_LENGTH as u64
        && words_agree(bug, word, word_at(bug, rest, whole as usize - WORD_LENGTH))
        && !mistakes::judges_pad(bug, rest, length);
    let end = rest.len().min(WORD_LENGTH + length as usize);
    Record {
        word,
        length,
        bytes: is_whole.then_some(&rest[WORD_LENGTH..end]),
        whole,
    }
}

// The high bit is no part of the length.
fn length_of(bug: Bug, word: u32) -> u64 {
    u64::from(match bug {
        Bug::LengthKeepsHighBit => word,
        Bug::LengthOf24Bits => word % (1 << 24),
        _ => word % HIGH_BIT,
    })
}

// "lengths disagree".
fn words_agree(bug: Bug, word: u32, second: Option<u32>) -> bool {
    let Some(second) = second else {
        return false;
    };
    match bug {
        Bug::SecondWordUnread => true,
        Bug::SecondWordLosesHighBit => word % HIGH_BIT == second % HIGH_BIT,
        Bug::SecondWordCutToTwoBytes => word % (1 << 16) == second % (1 << 16),
        _ => word == second,
    }
}

// "little-endian"; none where fewer than four bytes are left.
fn word_at(bug: Bug, bytes: &[u8], at: usize) -> Option<u32> {
    let word = bytes.get(at..at + WORD_LENGTH)?;
    let word = word.try_into().expect("four bytes");
    Some(match bug {
        Bug::ImportBigEndian => u32::from_be_bytes(word),
        _ => u32::from_le_bytes(word),
    })
}
