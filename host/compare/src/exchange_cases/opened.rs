//! Where files end, and which records and images an import takes.

use tapecard::bytes::{put_long, put_word};

use super::{CAPACITY, Case, Cases, RECORD, cartridge};
use crate::Part;

const PROTECT_AT: usize = 20;

pub fn cases() -> Vec<Case> {
    let mut all = Vec::new();
    for size in [512, 1024] {
        all.extend(ends(size));
        all.extend(beyond_the_end_mark(size));
        all.extend(no_tape_files(size));
        all.extend(records(size));
        all.extend(images(size));
    }
    all
}

/// "ends at the end mark or the end of the file".
fn ends(size: u16) -> Vec<Case> {
    let mut cases = Cases::of(size);
    let (block, unreadable) = (cases.block(1), cases.unreadable(2));
    let three = [block.clone(), Part::MARK, unreadable.clone()];
    let backwards = [unreadable.clone(), Part::MARK, block.clone()];
    for (what, parts) in [
        ("no byte", &[][..]),
        ("a mark", &[Part::MARK]),
        ("two marks", &[Part::MARK, Part::MARK]),
        ("three marks", &[Part::MARK, Part::MARK, Part::MARK]),
        ("a block", std::slice::from_ref(&block)),
        ("an unreadable block", std::slice::from_ref(&unreadable)),
        (
            "an unreadable block second",
            &[Part::MARK, unreadable.clone()],
        ),
        ("a block behind a mark", &[Part::MARK, block.clone()]),
        ("three elements", &three),
        ("three elements backwards", &backwards),
    ] {
        let elements = parts.len() as u32;
        cases.taken_whole(what, parts, elements);
        let marked = [parts, &[Part::END]].concat();
        cases.taken_whole(&format!("{what} and the end mark"), &marked, elements);
    }
    cases.cases
}

/// What stands after the end mark is not looked at.
fn beyond_the_end_mark(size: u16) -> Vec<Case> {
    let mut cases = Cases::of(size);
    let block = cases.block(3);
    let whole = usize::from(size) + 8;
    let beyond = [
        Part::Bytes(vec![0]),
        Part::Bytes(vec![0xFF; 3]),
        Part::MARK,
        Part::END,
        block.clone(),
        Part::record(&[1; 511]),
        Part::Word(u32::from(size)),
        Part::Bytes(vec![0; 4 * (CAPACITY as usize + 1)]),
    ];
    for part in beyond {
        let what = "something behind the end mark";
        cases.taken(what, &[Part::END, part.clone()], 0, 4);
        cases.taken(what, &[Part::MARK, Part::END, part.clone()], 1, 8);
        cases.taken(what, &[block.clone(), Part::END, part], 1, whole + 4);
    }
    cases.cases
}

/// What someone hands over by mistake: a text, an image of this card, a file whose words have their highest byte first.
fn no_tape_files(size: u16) -> Vec<Case> {
    let mut cases = Cases::of(size);
    let word = u32::from(size).swap_bytes();
    let swapped = Part::Record {
        first: word,
        bytes: cases.bytes(6),
        pad: None,
        second: word,
    };
    let text = Part::Bytes(b"The quick brown fox jumps over the lazy dog.\n".to_vec());
    for (what, part) in [
        ("a text", text),
        ("an image", Part::Bytes(cartridge(size))),
        ("big-endian words", swapped),
    ] {
        cases.refused(what, std::slice::from_ref(&part), 11);
        cases.refused(what, &[Part::MARK, part], 11);
    }
    cases.cases
}

/// The packet record is not looked at: no refusal 3, whatever it holds; refused, its bytes stay.
fn records(size: u16) -> Vec<Case> {
    let mut cases = Cases::of(size);
    let block = cases.block(4);
    let mut large_key = RECORD;
    large_key[8] = 0xFF;
    let mut odd_speed = RECORD;
    odd_speed[6..8].copy_from_slice(&[0, 77]);
    let fresh = [0, 0, 0, 0, 1, 2, 0, 250, 0, 0, 0, 0, 0, 0, 0, 0];
    for record in [large_key, odd_speed, fresh, [0; 16], [0xFF; 16], [0xFD; 16]] {
        let parts = [block.clone(), Part::END];
        cases.taken_whole("any record", &parts, 1);
        cases.refused("any record, refused", &[block.clone(), Part::Word(1)], 11);
        let added = cases.cases.iter_mut().rev().take(2);
        added.for_each(|case| case.record = record);
    }
    cases.cases
}

/// "ignores write protection"; "2 comes before these".
fn images(size: u16) -> Vec<Case> {
    let mut cases = Cases::of(size);
    let block = cases.block(5);
    let good = [block.clone(), Part::END];
    let cut = [Part::Word(u32::from(size))];
    let full = [Part::MARK, Part::MARK, Part::MARK, Part::MARK];
    cases.taken_whole("write-protected", &good, 1);
    cases.refused("write-protected, refused", &cut, 11);
    for case in &mut cases.cases {
        case.image[PROTECT_AT] = 1;
    }
    for (at, value) in [(0, 31), (2, 511), (22, 4), (24, 1), (30, 1)] {
        for parts in [&good[..], &cut, &full, &[]] {
            cases.refused("a broken header", parts, 2);
            let case = cases.cases.last_mut().expect("the case just added");
            put_word(&mut case.image, at, value);
        }
    }
    for (at, value) in [(4, 0), (4, 4), (8, 4), (12, 31), (16, 37), (16, u32::MAX)] {
        cases.refused("a broken header", &good, 2);
        let case = cases.cases.last_mut().expect("the case just added");
        put_long(&mut case.image, at, value);
    }
    for length in [0, 1, 31, 32] {
        cases.refused("a short image", &cut, 2);
        let case = cases.cases.last_mut().expect("the case just added");
        case.image.truncate(length);
    }
    cases.cases
}
