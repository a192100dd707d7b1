//! "13, more than C elements", and the order of the numbers: "the first met in file order, 11 before 12 before 13".

use super::{CAPACITY, Case, Cases};
use crate::{Part, TapeFile};

pub fn cases() -> Vec<Case> {
    let mut all = Vec::new();
    for size in [512, 1024] {
        all.extend(counts(size));
        all.extend(behind_the_last(size));
        all.extend(in_file_order(size));
    }
    all
}

/// So many elements of one sort: C are taken, C + 1 are not.
fn counts(size: u16) -> Vec<Case> {
    let mut cases = Cases::of(size);
    for part in [Part::MARK, cases.block(1), cases.unreadable(2)] {
        for count in 0..=CAPACITY + 2 {
            let parts = vec![part.clone(); count as usize];
            let marked = [&parts[..], &[Part::END]].concat();
            let what = format!("{count} elements");
            if count <= CAPACITY {
                cases.taken_whole(&what, &parts, count);
                cases.taken_whole(&what, &marked, count);
            } else {
                cases.refused(&what, &parts, 13);
                cases.refused(&what, &marked, 13);
            }
        }
    }
    cases.cases
}

/// C elements and one more item, which is wrong in other ways too.
fn behind_the_last(size: u16) -> Vec<Case> {
    let mut cases = Cases::of(size);
    let (block, unreadable) = (cases.block(3), cases.unreadable(4));
    let other_size = Part::record(&vec![9; usize::from(size) - 1]);
    let whole = [block.clone(), Part::MARK, unreadable.clone()];
    for (what, part, number) in [
        ("a mark more", Part::MARK, 13),
        ("a block more", block.clone(), 13),
        ("an unreadable block more", unreadable, 13),
        ("another size", other_size.clone(), 12),
        ("no bytes", Part::unreadable(&[]), 12),
        ("a cut block", cut(&block, 1), 11),
        ("a block without its second word", cut(&block, 4), 11),
        ("a cut record of another size", cut(&other_size, 1), 11),
        ("one byte", Part::Bytes(vec![0]), 11),
        ("three bytes", Part::Bytes(vec![0xFF; 3]), 11),
        ("a word alone", Part::Word(u32::from(size)), 11),
    ] {
        let parts = [&whole[..], &[part]].concat();
        cases.refused(&format!("full and {what}"), &parts, number);
    }
    for behind in [block, other_size, Part::Bytes(vec![1])] {
        let parts = [&whole[..], &[Part::END, behind]].concat();
        let used = 2 * (usize::from(size) + 8) + 8;
        cases.taken("full, the end mark and more", &parts, CAPACITY, used);
    }
    cases.cases
}

/// Two wrong items one behind the other: the first is told, whichever numbers they have.
fn in_file_order(size: u16) -> Vec<Case> {
    let mut cases = Cases::of(size);
    let block = cases.block(5);
    let small = Part::record(&[9; 16]);
    let disagrees = Part::Record {
        first: u32::from(size),
        bytes: vec![7; usize::from(size)],
        pad: None,
        second: u32::from(size) + 1,
    };
    let marks = [Part::MARK, Part::MARK, Part::MARK, Part::MARK];
    let rest = Part::Bytes(vec![1]);
    for (what, parts, number) in [
        ("12, then 11", vec![small.clone(), rest.clone()], 12),
        ("12, then 11", vec![small.clone(), disagrees.clone()], 12),
        ("11, then 12", vec![disagrees.clone(), small.clone()], 11),
        ("13, then 11", [&marks[..], &[disagrees]].concat(), 13),
        ("13, then 11", [&marks[..], &[rest]].concat(), 13),
        (
            "13, then 12",
            [&marks[..], std::slice::from_ref(&small)].concat(),
            13,
        ),
        (
            "12, then 13",
            [std::slice::from_ref(&small), &marks].concat(),
            12,
        ),
        ("a block, then 12", vec![block.clone(), small], 12),
        ("a block, then 11", vec![block, Part::Word(1)], 11),
    ] {
        cases.refused(what, &parts, number);
    }
    cases.cases
}

/// The part without its last bytes.
fn cut(part: &Part, bytes: usize) -> Part {
    let mut file = TapeFile::of(std::slice::from_ref(part)).bytes();
    file.truncate(file.len() - bytes);
    Part::Bytes(file)
}
