//! A SIMH tape file item by item: words of four bytes, the lowest byte first, and the records between them.

use tapecard::exchange::{END_MARK, TAPE_MARK, UNREADABLE, WORD_LENGTH};

#[derive(Clone, Copy, Debug, PartialEq, Eq)]
pub enum Item {
    Mark,
    Record(Length),
}

/// A record's word: how many bytes it has, and whether they could be read when it was written.
#[derive(Clone, Copy, Debug, PartialEq, Eq)]
pub struct Length(pub u32);

impl Length {
    pub fn bytes(self) -> u32 {
        self.0 % UNREADABLE
    }

    pub fn is_unreadable(self) -> bool {
        self.0 >= UNREADABLE
    }

    /// Bytes of the whole item: both words, the record, and a pad byte where it is odd.
    pub fn bytes_of_item(self) -> usize {
        2 * WORD_LENGTH + self.bytes().next_multiple_of(2) as usize
    }
}

/// Why an item's lengths lead nowhere: what the card refuses with 11.
#[derive(Clone, Copy, Debug, PartialEq, Eq)]
pub enum Broken {
    /// The file ends so many bytes after the item's beginning, within its first word.
    CutWord { left: usize },
    /// The file ends so many bytes after the item's beginning, before its second word does.
    CutRecord { length: Length, left: usize },
    /// The word behind the record, at this offset, is another one.
    Unlike {
        length: Length,
        second: u32,
        second_at: usize,
    },
}

/// The file's bytes and the place in them.
pub struct Items<'a> {
    file: &'a [u8],
    /// Where the next item begins; after the last one, how many bytes the items and an end mark have.
    pub offset: usize,
}

impl<'a> Items<'a> {
    pub fn of(file: &'a [u8]) -> Items<'a> {
        Items { file, offset: 0 }
    }

    /// The next item; none at the end mark, which is passed, or at the end of the file. A broken one is not passed.
    pub fn next(&mut self) -> Result<Option<Item>, Broken> {
        let left = self.file.len() - self.offset;
        if left == 0 {
            return Ok(None);
        }
        let word = self.word_at(self.offset).ok_or(Broken::CutWord { left })?;
        match word {
            END_MARK => {
                self.offset += WORD_LENGTH;
                Ok(None)
            }
            TAPE_MARK => {
                self.offset += WORD_LENGTH;
                Ok(Some(Item::Mark))
            }
            word => self.record(Length(word), left).map(Some),
        }
    }

    fn record(&mut self, length: Length, left: usize) -> Result<Item, Broken> {
        let beyond = self.offset + length.bytes_of_item();
        let second_at = beyond - WORD_LENGTH;
        let second = self
            .word_at(second_at)
            .ok_or(Broken::CutRecord { length, left })?;
        if second != length.0 {
            return Err(Broken::Unlike {
                length,
                second,
                second_at,
            });
        }
        self.offset = beyond;
        Ok(Item::Record(length))
    }

    fn word_at(&self, offset: usize) -> Option<u32> {
        let bytes = self.file.get(offset..)?.first_chunk()?;
        Some(u32::from_le_bytes(*bytes))
    }
}

#[cfg(test)]
mod tests {
    use super::*;

    /// The items of a file, and how it ends: at this offset, or by what is broken there.
    fn items(file: &[u8]) -> (Vec<Item>, Result<usize, (usize, Broken)>) {
        let mut items = Items::of(file);
        let mut found = Vec::new();
        loop {
            match items.next() {
                Ok(Some(item)) => found.push(item),
                Ok(None) => return (found, Ok(items.offset)),
                Err(broken) => return (found, Err((items.offset, broken))),
            }
        }
    }

    const THREE: Item = Item::Record(Length(3));

    #[test]
    fn marks_records_and_the_end() {
        assert_eq!(items(b""), (vec![], Ok(0)));
        let file = b"\0\0\0\0\x03\0\0\0abc\x99\x03\0\0\0\x02\0\0\x80ab\x02\0\0\x80";
        let bad = Item::Record(Length(0x8000_0002));
        assert_eq!(items(file), (vec![Item::Mark, THREE, bad], Ok(26)));
        let ended = [&file[..16], b"\xFF\xFF\xFF\xFFwhat follows"].concat();
        assert_eq!(items(&ended), (vec![Item::Mark, THREE], Ok(20)));
    }

    /// A word with the high bit alone is a record of no bytes.
    #[test]
    fn an_unreadable_record_of_no_bytes() {
        let none = Length(0x8000_0000);
        let file = b"\0\0\0\x80\0\0\0\x80";
        assert_eq!(items(file), (vec![Item::Record(none)], Ok(8)));
        assert_eq!((none.bytes(), none.is_unreadable()), (0, true));
    }

    #[test]
    fn a_record_takes_its_words_its_bytes_and_a_pad() {
        for (bytes, item) in [(1, 10), (2, 10), (3, 12), (512, 520), (1024, 1032)] {
            assert_eq!(Length(bytes).bytes_of_item(), item);
            assert_eq!(Length(bytes + UNREADABLE).bytes_of_item(), item);
        }
        assert_eq!(Length(0xFFFF_FFFE).bytes_of_item(), 0x8000_0006);
    }

    /// Every way to cut a file of a mark and a record, but for those between its items.
    #[test]
    fn a_cut_file_is_broken_where_its_last_item_begins() {
        let file = b"\0\0\0\0\x03\0\0\0abc\0\x03\0\0\0";
        for length in 0..file.len() {
            let expected = match length {
                0 => (vec![], Ok(0)),
                4 => (vec![Item::Mark], Ok(4)),
                1..4 => (vec![], Err((0, Broken::CutWord { left: length }))),
                5..8 => {
                    let left = length - 4;
                    (vec![Item::Mark], Err((4, Broken::CutWord { left })))
                }
                _ => {
                    let (length, left) = (Length(3), length - 4);
                    let cut = Broken::CutRecord { length, left };
                    (vec![Item::Mark], Err((4, cut)))
                }
            };
            assert_eq!(items(&file[..length]), expected, "{length} bytes");
        }
    }

    /// All 32 bits of the words must agree.
    #[test]
    fn a_second_word_that_differs() {
        let file = b"\x03\0\0\0abc\0\x03\0\0\0";
        for bit in 0..32 {
            let mut file = file.to_vec();
            file[8 + bit / 8] ^= 1 << (bit % 8);
            let unlike = Broken::Unlike {
                length: Length(3),
                second: 3 ^ 1 << bit,
                second_at: 8,
            };
            assert_eq!(items(&file), (vec![], Err((0, unlike))), "bit {bit}");
        }
    }
}
