//! What is in the way of an import, in words: which item it is, what was found there, and what can be done.

use crate::simh::items::{Broken, Length};
use crate::simh::walk::{Found, Wrong};
use crate::tape::header::{BLOCK_SIZES, Header, LARGEST_CAPACITY};
use crate::words::count;

/// SIMH's word for a gap in a tape that was partly erased. It is no record; 02, A7, knows no such item.
const ERASE_GAP: Length = Length(0xFFFF_FFFE);

/// The cartridge that the file was to go onto.
pub struct Cartridge<'a> {
    pub name: String,
    pub header: &'a Header,
    /// It would have been made for the file.
    pub made: bool,
}

/// `item 7, at offset 3096, is a record of 80 bytes, and t.img has blocks of 512`.
pub fn finding(found: &Found, cartridge: &Cartridge) -> String {
    let what = match found.wrong {
        Wrong::Broken(broken) => of_broken(broken),
        Wrong::OtherSize { length, .. } => format!(
            "is {}, and {} {} blocks of {}",
            record(length),
            cartridge.name,
            if cartridge.made { "would have" } else { "has" },
            cartridge.header.block_size
        ),
        Wrong::TooMany => format!(
            "is one more than the {} of {}",
            count(cartridge.header.capacity.into(), "element"),
            cartridge.name
        ),
    };
    format!("item {}, at offset {}, {what}", found.number, found.offset)
}

fn of_broken(broken: Broken) -> String {
    match broken {
        Broken::CutWord { left } => format!(
            "is cut: of the four bytes of a length {left} {} there",
            if left == 1 { "is" } else { "are" }
        ),
        Broken::CutRecord { length, .. } if length == ERASE_GAP => {
            "is an erase gap of SIMH (FFFFFFFEh), no record and no tape mark".into()
        }
        Broken::CutRecord { length, left } => format!(
            "is cut: {} takes {} with its lengths, and {left} are left",
            record(length),
            length.bytes_of_item()
        ),
        Broken::Unlike {
            length,
            second,
            second_at,
        } => format!(
            "has two lengths: {:08X}h before its bytes, and {second:08X}h at offset {second_at} behind them",
            length.0
        ),
    }
}

fn record(length: Length) -> String {
    let a = match length.is_unreadable() {
        true => "an unreadable record",
        false => "a record",
    };
    format!("{a} of {}", count(length.bytes().into(), "byte"))
}

/// What can be done about it; the file has so many items.
pub fn advice(found: &Found, cartridge: &Cartridge, items: usize) -> String {
    match found.wrong {
        Wrong::Broken(Broken::CutRecord { length, .. }) if length == ERASE_GAP => {
            "Copy the tape within SIMH to one without gaps, and import that".into()
        }
        Wrong::Broken(_) => about_broken(found),
        Wrong::OtherSize { length, first } => about_size(length.bytes(), first, cartridge),
        Wrong::TooMany => about_capacity(items, cartridge.made),
    }
}

/// A simulator that writes over a longer tape leaves the rest of an old record behind what it wrote.
fn about_broken(found: &Found) -> String {
    match found.number - 1 {
        0 => "The file was cut or damaged on its way, or is no SIMH tape file: take another copy"
            .into(),
        before => format!(
            "The file was cut or damaged on its way, or written over a longer one: take another copy, or import its first {} \
             (head -c {}) for the {} before it",
            count(found.offset as u64, "byte"),
            found.offset,
            match before {
                1 => "item".into(),
                before => count(before as u64, "item"),
            }
        ),
    }
}

fn about_size(bytes: u32, first: bool, cartridge: &Cartridge) -> String {
    let is_a_block_size = BLOCK_SIZES.map(u32::from).contains(&bytes);
    match (is_a_block_size, first, cartridge.made) {
        (false, ..) => {
            "A cartridge takes records of 512 or of 1024 bytes, all alike: have the tape written in such"
                .into()
        }
        (true, false, _) => format!(
            "The records before it have {}, and a cartridge takes records of one size alone: have the tape written in such",
            cartridge.header.block_size
        ),
        (true, true, true) => format!("Leave --block-size out, or give --block-size {bytes}"),
        (true, true, false) => {
            format!("Name an image that is not there yet: it is made with blocks of {bytes}")
        }
    }
}

fn about_capacity(items: usize, made: bool) -> String {
    match (items > LARGEST_CAPACITY as usize, made) {
        (true, _) => format!(
            "The file has {items} and no cartridge holds more than {LARGEST_CAPACITY}: have the tape written as several"
        ),
        (false, true) => format!("Leave --blocks out, or give --blocks {items}"),
        (false, false) => format!(
            "The file has {items}: name an image that is not there yet, and it is made with as many"
        ),
    }
}
