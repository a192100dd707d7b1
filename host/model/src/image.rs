//! The cartridge image: its header's rules and its elements.

use std::ops::Range;

use crate::bug::{Bug, TWO_TO_THE_32};
use crate::bytes::{long_at, put_long, word_at};

const HEADER_LENGTH: usize = 32;
const RECORDED_AT: usize = 8;
const KIND_DATA: u8 = 1;
const KIND_FILEMARK: u8 = 2;
/// "Kind 4 becomes "data, marked"." (02, A6)
const KIND_MARKED: u8 = 4;

/// What an element is.
#[derive(Clone, Copy, Debug, PartialEq, Eq)]
pub enum Kind {
    Data,
    Filemark,
    Unreadable,
    /// Data, with a deleted address mark.
    Marked,
}

/// The header of an image that keeps every header rule.
#[derive(Clone, Copy, Debug, PartialEq, Eq)]
pub struct Header {
    /// B, bytes of a block.
    pub block_size: u32,
    /// C, elements that the cartridge holds.
    pub capacity: u32,
    /// U, elements recorded.
    pub recorded: u32,
    /// K, offset of the kind table.
    pub kinds_at: u32,
    /// D, offset of the blocks.
    pub blocks_at: u32,
    pub protected: bool,
    pub medium_type: u8,
    /// W, elements from early warning to the end.
    pub early_warning: u32,
}

impl Header {
    /// The header, `None` where the image breaks a header rule.
    pub fn of(image: &[u8]) -> Option<Header> {
        Header::of_with(Bug::None, image)
    }

    pub(crate) fn of_with(bug: Bug, image: &[u8]) -> Option<Header> {
        if image.len() < HEADER_LENGTH {
            return None;
        }
        let header = Header {
            block_size: u32::from(word_at(image, 2)),
            capacity: long_at(image, 4),
            recorded: long_at(image, RECORDED_AT),
            kinds_at: long_at(image, 12),
            blocks_at: long_at(image, 16),
            protected: image[20] == 1,
            medium_type: image[21],
            early_warning: u32::from(word_at(image, 22)),
        };
        let keeps = header_bytes_keep_rules(image)
            && header.numbers_keep_rules()
            && header.parts_fit(bug, image.len() as u64);
        keeps.then_some(header)
    }

    // "2-3 block size B, 512 or 1024; 4-7 capacity C, 1 to 65,535 elements; 8-11 recorded U, at most C; .. 22-23 early warning W,
    // at most C".
    fn numbers_keep_rules(&self) -> bool {
        let size_is_known = self.block_size == 512 || self.block_size == 1024;
        let capacity_in_range = self.capacity >= 1 && self.capacity <= 65_535;
        size_is_known
            && capacity_in_range
            && self.recorded <= self.capacity
            && self.early_warning <= self.capacity
    }

    // "Also K >= 32, K + C <= D, D + C*B <= image length." Both sums can pass 32 bits.
    fn parts_fit(&self, bug: Bug, image_length: u64) -> bool {
        let mut kinds_end = u64::from(self.kinds_at) + u64::from(self.capacity);
        let mut blocks_end =
            u64::from(self.blocks_at) + u64::from(self.capacity) * u64::from(self.block_size);
        if bug == Bug::SizeWraps {
            kinds_end %= TWO_TO_THE_32;
            blocks_end %= TWO_TO_THE_32;
        }
        self.kinds_at >= 32 && kinds_end <= u64::from(self.blocks_at) && blocks_end <= image_length
    }

    // "Below U, 1 is data, 2 a filemark, every other value an unreadable block."; 02, A6: "Everything that asks for an element's
    // kind now gets this fourth reply; 01's "every other value" no longer takes in 4."
    pub(crate) fn kind_of(&self, bug: Bug, image: &[u8], element: u32) -> Kind {
        match image[self.kind_at(element)] {
            KIND_DATA => Kind::Data,
            KIND_FILEMARK => Kind::Filemark,
            KIND_MARKED if bug != Bug::MarkedIsUnreadable => Kind::Marked,
            5.. if bug == Bug::KindsAboveFourAreMarked => Kind::Marked,
            _ => Kind::Unreadable,
        }
    }

    pub(crate) fn block<'a>(&self, image: &'a [u8], element: u32) -> &'a [u8] {
        let at = self.block_at(element);
        &image[at..at + self.block_size as usize]
    }

    // "bytes and kind 1 stored"; 02, A6: "WRITE still stores kind 1."
    pub(crate) fn put_block(&self, bug: Bug, image: &mut [u8], element: u32, bytes: &[u8]) {
        self.put_bytes(image, element, bytes);
        if !(bug == Bug::WriteKeepsMark && self.has_mark(image, element)) {
            image[self.kind_at(element)] = KIND_DATA;
        }
    }

    pub(crate) fn put_filemark(&self, bug: Bug, image: &mut [u8], element: u32) {
        if !(bug == Bug::FilemarkKeepsMark && self.has_mark(image, element)) {
            image[self.kind_at(element)] = KIND_FILEMARK;
        }
    }

    /// The bytes of a block, or the first of them.
    pub(crate) fn put_bytes(&self, image: &mut [u8], element: u32, bytes: &[u8]) {
        let at = self.block_at(element);
        image[at..at + bytes.len()].copy_from_slice(bytes);
    }

    pub(crate) fn put_kind(&self, image: &mut [u8], element: u32, kind: u8) {
        image[self.kind_at(element)] = kind;
    }

    pub(crate) fn kind_byte(&self, image: &[u8], element: u32) -> u8 {
        image[self.kind_at(element)]
    }

    pub(crate) fn put_mark(&self, image: &mut [u8], element: u32) {
        image[self.kind_at(element)] = KIND_MARKED;
    }

    /// How many of these elements have a mark.
    pub(crate) fn marked_in(&self, image: &[u8], elements: Range<u32>) -> u32 {
        elements
            .map(|element| u32::from(self.has_mark(image, element)))
            .sum()
    }

    fn has_mark(&self, image: &[u8], element: u32) -> bool {
        image[self.kind_at(element)] == KIND_MARKED
    }

    pub(crate) fn clear_block(&self, image: &mut [u8], element: u32) {
        let at = self.block_at(element);
        image[at..at + self.block_size as usize].fill(0);
    }

    // "C - W": beyond it the tape is past early warning.
    pub(crate) fn warning_border(&self) -> u32 {
        self.capacity - self.early_warning
    }

    pub(crate) fn put_recorded(&mut self, image: &mut [u8], recorded: u32) {
        self.recorded = recorded;
        put_long(image, RECORDED_AT, recorded);
    }

    // "Element i has its kind at K + i and its bytes at D + i*B."
    fn kind_at(&self, element: u32) -> usize {
        self.kinds_at as usize + element as usize
    }

    fn block_at(&self, element: u32) -> usize {
        self.blocks_at as usize + element as usize * self.block_size as usize
    }
}

// "0-1 header length, 32; .. 20 write protect, 0 or 1; 21 medium type, any; .. 24-31 zero."
fn header_bytes_keep_rules(image: &[u8]) -> bool {
    word_at(image, 0) == 32 && image[20] <= 1 && image[24..32].iter().all(|&byte| byte == 0)
}

#[cfg(test)]
mod tests {
    use super::*;
    use crate::bytes::put_word;

    fn good() -> Vec<u8> {
        let mut image = vec![0; 32 + 4 + 4 * 512];
        put_word(&mut image, 0, 32);
        put_word(&mut image, 2, 512);
        put_long(&mut image, 4, 4);
        put_long(&mut image, 8, 3);
        put_long(&mut image, 12, 32);
        put_long(&mut image, 16, 36);
        image
    }

    fn is_refused(change: impl Fn(&mut Vec<u8>)) {
        let mut image = good();
        change(&mut image);
        assert_eq!(Header::of(&image), None);
    }

    fn is_taken(change: impl Fn(&mut Vec<u8>)) {
        let mut image = good();
        change(&mut image);
        assert!(Header::of(&image).is_some());
    }

    #[test]
    fn each_rule_has_its_border() {
        is_taken(|_| ());
        is_refused(|image| image.truncate(31));
        is_refused(|image| image.truncate(32 + 4 + 4 * 512 - 1));
        is_refused(|image| put_word(image, 0, 33));
        is_refused(|image| put_word(image, 2, 513));
        is_refused(|image| put_long(image, 4, 0));
        is_refused(|image| put_long(image, 4, 65_536));
        is_taken(|image| put_long(image, 8, 4));
        is_refused(|image| put_long(image, 8, 5));
        is_refused(|image| put_long(image, 12, 31));
        is_refused(|image| put_long(image, 12, 33));
        is_refused(|image| put_long(image, 16, 35));
        is_refused(|image| put_long(image, 16, 37));
        is_taken(|image| image[20] = 1);
        is_refused(|image| image[20] = 2);
        is_taken(|image| image[21] = 255);
        is_taken(|image| put_word(image, 22, 4));
        is_refused(|image| put_word(image, 22, 5));
        for at in 24..32 {
            is_refused(|image| image[at] = 1);
        }
    }

    #[test]
    fn offsets_near_the_top_do_not_wrap() {
        is_refused(|image| put_long(image, 12, u32::MAX));
        is_refused(|image| put_long(image, 12, u32::MAX - 3));
        is_refused(|image| put_long(image, 16, u32::MAX));
        is_refused(|image| put_long(image, 16, u32::MAX - 4 * 512 + 1));
    }

    #[test]
    fn kinds_are_four() {
        let mut image = good();
        let header = Header::of(&image).expect("a good image");
        for kind in 0..=255 {
            image[33] = kind;
            let expected = match kind {
                1 => Kind::Data,
                2 => Kind::Filemark,
                4 => Kind::Marked,
                _ => Kind::Unreadable,
            };
            assert_eq!(header.kind_of(Bug::None, &image, 1), expected, "{kind}");
        }
    }
}
