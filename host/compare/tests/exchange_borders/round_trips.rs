//! Files that come back: written out, read in and written out again, and files of others read in and written out.

use compare::{Part, TapeFile, agree};
use tapecard::bytes::long_at;

use crate::common::*;

const KINDS: [u8; 5] = [1, 2, 4, 0, 9];

/// Every cartridge of three elements of these kinds.
fn tapes() -> impl Iterator<Item = [u8; 3]> {
    (0..125).map(|number| [number / 25, number / 5 % 5, number % 5].map(|at| KINDS[at]))
}

/// What an import makes of a kind.
fn plain(kind: u8) -> u8 {
    match kind {
        1 | 4 => 1,
        2 => 2,
        _ => 0,
    }
}

/// "Export then import returns the elements, marked blocks as plain ones and every unreadable kind as 0."; a second export is the same
/// file.
#[test]
fn out_in_and_out_again() {
    let mut bench = new_bench();
    for size in [512, 1024] {
        for kinds in tapes() {
            for recorded in 0..=3 {
                comes_back(&mut bench, size, kinds, recorded);
            }
        }
    }
}

fn comes_back(bench: &mut compare::ExchangeBench, size: u16, kinds: [u8; 3], recorded: usize) {
    let ours = tape(size, &kinds, recorded, 11);
    bench.stream.begin(&RECORD, &ours);
    assert_eq!(agree(bench.export(&vec![0x99; 4000])), 0);
    let length = long_at(bench.stream.answer(), 8) as usize;
    let file = bench.file()[..length].to_vec();
    let before = tape(size, &[7; 4], 1, 12);
    bench.stream.begin(&RECORD, &before);
    assert_eq!(agree(bench.import(&file)), 0);
    assert_eq!(bench.stream.answer(), &answer(recorded, length));
    let after = bench.stream.image().to_vec();
    assert_eq!(long_at(&after, RECORDED_AT) as usize, recorded);
    for (element, &kind) in kinds.iter().enumerate().take(recorded) {
        assert_eq!(after[KINDS_AT + element], plain(kind));
        let source = match kind {
            2 => block(&before, size, 4, element),
            _ => block(&ours, size, 3, element),
        };
        assert!(block(&after, size, 4, element) == source);
    }
    assert_eq!(agree(bench.export(&vec![0x55; length])), 0);
    assert!(bench.file() == file);
}

/// A file in the form of an export is what its import is written out as; one without its end mark gets one.
#[test]
fn in_and_out_again() {
    let mut bench = new_bench();
    for size in [512u16, 1024] {
        let of = |byte: u8| vec![byte; size.into()];
        let whole = TapeFile::of(&[
            Part::MARK,
            Part::unreadable(&of(1)),
            Part::MARK,
            Part::MARK,
            Part::record(&of(2)),
            Part::END,
        ])
        .bytes();
        let unmarked = &whole[..whole.len() - 4];
        let longer = [&whole[..], &[1, 2, 3]].concat();
        for file in [&whole[..], unmarked, &longer] {
            bench.stream.begin(&RECORD, &tape(size, &[4; 6], 6, 13));
            assert_eq!(agree(bench.import(file)), 0);
            let used = file.len().min(whole.len());
            assert_eq!(bench.stream.answer(), &answer(5, used));
            assert_eq!(agree(bench.export(&vec![0x99; whole.len()])), 0);
            assert!(bench.file() == whole);
        }
    }
}
