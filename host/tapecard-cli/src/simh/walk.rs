//! A SIMH tape file held to a cartridge: its elements, or the first item that does not go onto it.

use crate::simh::items::{Broken, Item, Items, Length};
use crate::tape::header::Header;
use crate::tape::survey::Kind;

/// A file that goes onto the cartridge.
#[derive(Debug, PartialEq, Eq)]
pub struct Contents {
    /// Of its elements, from the first to the last.
    pub kinds: Vec<Kind>,
    /// Of the file, an end mark included.
    pub bytes: usize,
}

/// The first item that is in the way.
#[derive(Debug, PartialEq, Eq)]
pub struct Found {
    /// Of the item, from 1.
    pub number: usize,
    /// Where in the file it begins.
    pub offset: usize,
    pub wrong: Wrong,
}

#[derive(Clone, Copy, Debug, PartialEq, Eq)]
pub enum Wrong {
    Broken(Broken),
    /// A record whose bytes are no block, and whether it is the first record of the file.
    OtherSize {
        length: Length,
        first: bool,
    },
    TooMany,
}

impl Wrong {
    /// The number that the card refuses such a file with.
    pub fn number(&self) -> u8 {
        match self {
            Wrong::Broken(_) => 11,
            Wrong::OtherSize { .. } => 12,
            Wrong::TooMany => 13,
        }
    }
}

pub type Walked = Result<Contents, Found>;

/// For each item 11, then 12, then 13 (02, A7).
pub fn walk(file: &[u8], cartridge: &Header) -> Walked {
    let mut items = Items::of(file);
    let mut kinds = Vec::new();
    loop {
        let offset = items.offset;
        let found = |wrong| Found {
            number: kinds.len() + 1,
            offset,
            wrong,
        };
        let item = items
            .next()
            .map_err(|broken| found(Wrong::Broken(broken)))?;
        let Some(item) = item else {
            let bytes = items.offset;
            return Ok(Contents { kinds, bytes });
        };
        if let Some(length) = other_size(item, cartridge) {
            let first = kinds.iter().all(|kind| *kind == Kind::Filemark);
            return Err(found(Wrong::OtherSize { length, first }));
        }
        if kinds.len() >= cartridge.capacity as usize {
            return Err(found(Wrong::TooMany));
        }
        kinds.push(kind_of(item));
    }
}

fn other_size(item: Item, cartridge: &Header) -> Option<Length> {
    match item {
        Item::Record(length) if length.bytes() != cartridge.block_size.into() => Some(length),
        _ => None,
    }
}

fn kind_of(item: Item) -> Kind {
    match item {
        Item::Mark => Kind::Filemark,
        Item::Record(length) if length.is_unreadable() => Kind::Unreadable,
        Item::Record(_) => Kind::Data,
    }
}

/// What can be told of a file before it is held to a cartridge: how many items it has, up to its end or to a broken one, and the bytes
/// of its first record.
#[derive(Debug, Default, PartialEq, Eq)]
pub struct Outline {
    pub items: usize,
    pub first_record: Option<u32>,
}

pub fn outline(file: &[u8]) -> Outline {
    let mut items = Items::of(file);
    let mut outline = Outline::default();
    while let Ok(Some(item)) = items.next() {
        outline.items += 1;
        if let (Item::Record(length), None) = (item, outline.first_record) {
            outline.first_record = Some(length.bytes());
        }
    }
    outline
}

#[cfg(test)]
mod tests {
    use super::*;

    /// A record with this word and as many bytes as it says.
    fn record(word: u32) -> Vec<u8> {
        let bytes = vec![7; Length(word).bytes_of_item() - 8];
        [&word.to_le_bytes()[..], &bytes, &word.to_le_bytes()].concat()
    }

    fn cartridge(capacity: u32) -> Header {
        Header::blank(512, capacity, 0, false, 0)
    }

    const MARK: [u8; 4] = [0; 4];
    const BAD: u32 = 0x8000_0000;

    fn other_size(length: u32, first: bool) -> Wrong {
        let length = Length(length);
        Wrong::OtherSize { length, first }
    }

    #[test]
    fn the_kinds_of_a_file_that_goes_onto_the_cartridge() {
        let file = [record(512), MARK.to_vec(), record(512 + BAD)].concat();
        let kinds = vec![Kind::Data, Kind::Filemark, Kind::Unreadable];
        let bytes = 520 + 4 + 520;
        let contents = Contents { kinds, bytes };
        assert_eq!(walk(&file, &cartridge(3)), Ok(contents));
        let empty = Contents {
            kinds: vec![],
            bytes: 0,
        };
        assert_eq!(walk(b"", &cartridge(1)), Ok(empty));
    }

    /// The first that is met in the order of the file, and for one item 11 before 12 before 13.
    #[test]
    fn what_is_found_first() {
        let cut = |word: u32| record(word)[..100].to_vec();
        let broken = |word: u32| {
            let length = Length(word);
            Wrong::Broken(Broken::CutRecord { length, left: 100 })
        };
        for (items, number, offset, wrong) in [
            (vec![record(512), record(512)], 2, 520, Wrong::TooMany),
            (vec![record(512), MARK.to_vec()], 2, 520, Wrong::TooMany),
            (
                vec![record(512), record(600)],
                2,
                520,
                other_size(600, false),
            ),
            (vec![record(512), cut(600)], 2, 520, broken(600)),
            (vec![record(1024), cut(512)], 1, 0, other_size(1024, true)),
            (vec![MARK.to_vec(), cut(512)], 2, 4, broken(512)),
            (
                vec![MARK.to_vec(), record(BAD)],
                2,
                4,
                other_size(BAD, true),
            ),
        ] {
            let found = walk(&items.concat(), &cartridge(1)).expect_err("a file to refuse");
            assert_eq!(
                (found.number, found.offset, found.wrong),
                (number, offset, wrong)
            );
        }
    }

    #[test]
    fn an_outline_goes_up_to_what_is_broken() {
        let outlined = |items: &[Vec<u8>]| {
            let Outline {
                items,
                first_record,
            } = outline(&items.concat());
            (items, first_record)
        };
        assert_eq!(outlined(&[]), (0, None));
        assert_eq!(outlined(&[MARK.to_vec()]), (1, None));
        let (marks, records) = ([MARK.to_vec(), MARK.to_vec()], [record(512), record(80)]);
        assert_eq!(outlined(&[&marks[..], &records].concat()), (4, Some(512)));
        assert_eq!(outlined(&[record(1024 + BAD), vec![1]]), (1, Some(1024)));
        assert_eq!(outlined(&[vec![0, 2, 0, 0]]), (0, None));
    }
}
