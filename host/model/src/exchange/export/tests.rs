//! Images written out, each case worked out by hand from the words of 02's A7.

use super::*;
use crate::bytes::{put_long, put_word as put_number};

const BLOCK: usize = 512;
const C: usize = 8;
const KINDS_AT: usize = 32;

/// What a file buffer holds before a call.
const UNWRITTEN: u8 = 0x99;

/// C 8, B 512; block i holds i + 10h throughout, the filemarks' too.
fn tape(kinds: [u8; C], recorded: u32) -> Vec<u8> {
    let mut image = vec![0; KINDS_AT + C + C * BLOCK];
    put_number(&mut image, 0, 32);
    put_number(&mut image, 2, BLOCK as u16);
    put_long(&mut image, 4, C as u32);
    put_long(&mut image, 8, recorded);
    put_long(&mut image, 12, KINDS_AT as u32);
    put_long(&mut image, 16, (KINDS_AT + C) as u32);
    image[KINDS_AT..KINDS_AT + C].copy_from_slice(&kinds);
    for (element, block) in image[KINDS_AT + C..].chunks_mut(BLOCK).enumerate() {
        block.fill(0x10 + element as u8);
    }
    image
}

/// A record of this byte throughout between its words.
fn record(word: [u8; 4], byte: u8) -> Vec<u8> {
    [&word[..], &[byte; BLOCK], &word].concat()
}

const PLAIN: [u8; 4] = [0, 2, 0, 0];
const UNREADABLE: [u8; 4] = [0, 2, 0, 0x80];
const MARK: [u8; 4] = [0; 4];
const END: [u8; 4] = [0xFF; 4];

/// The image is written out as this file, with two bytes beyond that stay.
fn is_written(image: &[u8], blocks: u8, expected: &[u8]) {
    let mut file = vec![UNWRITTEN; expected.len() + 2];
    let answer = export(image, &mut file);
    let mut told = [0; 16];
    told[7] = blocks;
    put_long(&mut told, 8, expected.len() as u32);
    assert_eq!(answer, told);
    assert!(file[..expected.len()] == *expected, "the file's bytes");
    assert_eq!(file[expected.len()..], [UNWRITTEN; 2]);
}

#[test]
fn plate_a_block_a_filemark_an_unreadable_and_a_marked_block() {
    let expected = [
        record(PLAIN, 0x10),
        MARK.to_vec(),
        record(UNREADABLE, 0x12),
        record(PLAIN, 0x13),
        END.to_vec(),
    ];
    is_written(&tape([1, 2, 0, 4, 1, 1, 1, 1], 4), 4, &expected.concat());
}

/// "Kinds at U and above mean nothing.": nothing of them is written.
#[test]
fn an_empty_tape_is_its_end_mark() {
    is_written(&tape([2; C], 0), 0, &END);
    is_written(&tape([2; C], 1), 1, &[MARK, END].concat());
    is_written(&tape([2; C], 8), 8, &[&[0; 32][..], &END].concat());
}

/// "01's "every other value" no longer takes in 4."
#[test]
fn every_other_kind_is_unreadable() {
    for kind in 0..=255 {
        let word = match kind {
            1 | 4 => PLAIN,
            2 => continue,
            _ => UNREADABLE,
        };
        let expected = [record(word, 0x10), END.to_vec()].concat();
        is_written(&tape([kind; C], 1), 1, &expected);
    }
}

#[test]
fn a_block_of_1024_bytes() {
    let mut image = tape([1; C], 1);
    put_number(&mut image, 2, 1024);
    put_long(&mut image, 4, 2);
    let words = [0, 4, 0, 0];
    let expected = [&words[..], &[0x10; 512], &[0x11; 512], &words, &END].concat();
    is_written(&image, 1, &expected);
}

/// "export gives 2, then 4 where its output buffer is too short."
#[test]
fn refused_the_buffer_stays() {
    let good = tape([1, 2, 1, 1, 1, 1, 1, 1], 2);
    let mut broken = good.clone();
    broken[31] = 1;
    let needed = 4 + 512 + 4 + 4 + 4;
    for (image, room, number) in [
        (&good, 0, 4),
        (&good, 3, 4),
        (&good, needed - 1, 4),
        (&good, needed, 0),
        (&broken, needed, 2),
        (&broken, 0, 2),
    ] {
        let mut file = vec![UNWRITTEN; room];
        let answer = export(image, &mut file);
        assert_eq!(answer[0], number, "{room} bytes of room");
        if number != 0 {
            assert_eq!(answer[1..], [0; 15]);
            assert!(file.iter().all(|&byte| byte == UNWRITTEN));
        }
    }
}
