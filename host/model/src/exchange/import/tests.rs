//! Files read in, each case worked out by hand from the words of 02's A7.

use super::*;
use crate::bytes::{long_at, put_long, put_word};
use crate::exchange::export;

const BLOCK: usize = 512;
const C: usize = 3;
const KINDS_AT: usize = 32;
const BLOCKS_AT: usize = KINDS_AT + C;

/// An unreadable kind with a number of its own, so that what stays is seen.
const OLD_KIND: u8 = 7;
const OLD_BYTE: u8 = 0x77;

const MARK: [u8; 4] = [0; 4];
const END: [u8; 4] = [0xFF; 4];

/// C 3, B 512, U 2, W 1, write-protected.
fn tape() -> Vec<u8> {
    let mut image = vec![OLD_BYTE; BLOCKS_AT + C * BLOCK];
    image[..KINDS_AT].fill(0);
    put_word(&mut image, 0, 32);
    put_word(&mut image, 2, BLOCK as u16);
    put_long(&mut image, 4, C as u32);
    put_long(&mut image, 8, 2);
    put_long(&mut image, 12, KINDS_AT as u32);
    put_long(&mut image, 16, BLOCKS_AT as u32);
    image[20] = 1;
    image[23] = 1;
    image[KINDS_AT..BLOCKS_AT].fill(OLD_KIND);
    image
}

/// Not loaded, locked, attention reset, speed 125, a sense with a residue; P is far beyond U.
const RECORD: [u8; 16] = [0, 0, 1, 0, 2, 2, 0, 125, 3, 0x11, 0, 1, 0, 0, 0, 9];

/// "as after a cartridge change": P 0, loaded, attention medium changed, sense zero; speed and lock stay.
const CHANGED: [u8; 16] = [0, 0, 0, 0, 3, 1, 0, 125, 0, 0, 0, 0, 0, 0, 0, 0];

/// A record with both its words, a pad byte where its length is odd, and these bytes.
fn record(word: u32, byte: u8) -> Vec<u8> {
    let length = (word % 0x8000_0000) as usize;
    let words = word.to_le_bytes();
    let pad = vec![0xEE; length % 2];
    [&words[..], &vec![byte; length], &pad, &words].concat()
}

fn block(byte: u8) -> Vec<u8> {
    record(BLOCK as u32, byte)
}

fn unreadable(byte: u8) -> Vec<u8> {
    record(0x8000_0000 + BLOCK as u32, byte)
}

/// The file is taken: U, the kinds, and the first byte of each block afterwards, and the bytes told.
fn is_taken(file: &[u8], recorded: u8, kinds: [u8; C], bytes: [u8; C], used: usize) {
    let (mut image, mut after) = (tape(), RECORD);
    let answer = import(&mut after, &mut image, file);
    let mut told = [0; 16];
    told[7] = recorded;
    put_long(&mut told, 8, used as u32);
    assert_eq!(answer, told);
    assert_eq!(after, CHANGED);
    let mut expected = tape();
    expected[11] = recorded;
    expected[KINDS_AT..BLOCKS_AT].copy_from_slice(&kinds);
    for (element, byte) in bytes.into_iter().enumerate() {
        expected[BLOCKS_AT + element * BLOCK..][..BLOCK].fill(byte);
    }
    assert!(image == expected, "the image's bytes");
}

/// The file is refused with this number and changes nothing.
fn is_refused(file: &[u8], number: u8) {
    let (mut image, mut after) = (tape(), RECORD);
    let answer = import(&mut after, &mut image, file);
    assert_eq!(answer[0], number);
    assert_eq!(answer[1..], [0; 15]);
    assert!(image == tape() && after == RECORD, "nothing is altered");
}

#[test]
fn plate_a_block_a_mark_and_an_unreadable_block() {
    let file = [block(0x10), MARK.to_vec(), unreadable(0x12), END.to_vec()].concat();
    is_taken(&file, 3, [1, 2, 0], [0x10, OLD_BYTE, 0x12], file.len());
}

/// "ends at the end mark or the end of the file": U may become 0, and what is behind the mark is not looked at.
#[test]
fn ends_of_files() {
    let old = OLD_BYTE;
    is_taken(&[], 0, [OLD_KIND; C], [old; C], 0);
    is_taken(&END, 0, [OLD_KIND; C], [old; C], 4);
    is_taken(&MARK, 1, [2, OLD_KIND, OLD_KIND], [old; C], 4);
    is_taken(&[0; 8], 2, [2, 2, OLD_KIND], [old; C], 8);
    let one = [block(0x10), END.to_vec()].concat();
    for beyond in [&[][..], &[1], &[0; 4], &block(0x20), &[0xFF; 9]] {
        let file = [&one, beyond].concat();
        is_taken(&file, 1, [1, 7, 7], [0x10, old, old], one.len());
    }
}

/// "11, lengths disagree or are cut": a file of one block is cut at every byte, and its second word is wrong in every bit.
#[test]
fn lengths_that_disagree_or_are_cut() {
    for word in [
        BLOCK as u32,
        0x8000_0000 + BLOCK as u32,
        511,
        1,
        0x8000_0000,
    ] {
        let whole = record(word, 0x10);
        for end in 1..whole.len() {
            is_refused(&whole[..end], 11);
        }
        for bit in 0..32 {
            let mut wrong = whole.clone();
            let at = wrong.len() - 4 + bit / 8;
            wrong[at] ^= 1 << (bit % 8);
            is_refused(&wrong, 11);
        }
    }
    for left in 1..4 {
        is_refused(&[&block(0x10), &END[..left]].concat(), 11);
    }
    for huge in [0x7FFF_FFFFu32, 0x7FFF_FFF8, 0x7FFF_FE00, 0xFFFF_FFFE] {
        is_refused(&[&huge.to_le_bytes()[..], &[0; 600]].concat(), 11);
    }
}

/// "12, record not B bytes": a shorter one, a longer one, odd ones with their pad, and none at all in an unreadable one.
#[test]
fn records_of_other_sizes() {
    for length in [1, 2, 511, 513, 1024] {
        is_refused(&record(length, 0x10), 12);
        is_refused(&record(0x8000_0000 + length, 0x10), 12);
    }
    is_refused(&[0, 0, 0, 0x80, 0, 0, 0, 0x80], 12);
}

/// "13, more than C elements": C are taken, marks too; "the first met in file order, 11 before 12 before 13".
#[test]
fn more_elements_than_the_capacity() {
    let full = [block(1), block(2), block(3)].concat();
    is_taken(&full, 3, [1; C], [1, 2, 3], full.len());
    is_taken(&[0; 12], 3, [2; C], [OLD_BYTE; C], 12);
    is_refused(&[0; 16], 13);
    for (behind, number) in [
        (block(4), 13),
        (unreadable(4), 13),
        (MARK.to_vec(), 13),
        (record(511, 4), 12),
        (block(4)[..519].to_vec(), 11),
        (record(511, 4)[..519].to_vec(), 11),
        (vec![0; 3], 11),
    ] {
        is_refused(&[&full[..], &behind].concat(), number);
        is_refused(&[&full[..], &behind, &[9]].concat(), number);
    }
    is_refused(&[&full[..], &MARK, &record(511, 4)].concat(), 13);
}

/// "2 comes before these", and nothing else: neither the protection nor the record is judged.
#[test]
fn a_broken_image_comes_first() {
    for file in [&[][..], &END, &[1], &[0; 16], &record(511, 1)] {
        let (mut image, mut after) = (tape(), RECORD);
        image[31] = 1;
        let answer = import(&mut after, &mut image, file);
        assert_eq!(answer[..2], [2, 0]);
        assert_eq!(after, RECORD);
    }
}

/// "Export then import returns the elements, marked blocks as plain ones and every unreadable kind as 0."
#[test]
fn what_was_written_out_is_read_in() {
    let mut ours = tape();
    ours[11] = 3;
    ours[KINDS_AT..BLOCKS_AT].copy_from_slice(&[4, 9, 2]);
    for (element, block) in ours[BLOCKS_AT..].chunks_mut(BLOCK).enumerate() {
        block.fill(element as u8);
    }
    let mut file = vec![0; 2000];
    let used = long_at(&export(&ours, &mut file), 8) as usize;
    is_taken(&file[..used], 3, [1, 0, 2], [0, 1, OLD_BYTE], used);
}
