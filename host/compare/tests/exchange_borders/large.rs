//! The largest cartridge, full of blocks with a mark here and there, and full of marks.

use compare::{Random, agree};
use tapecard::bytes::long_at;

use crate::common::*;

const C: usize = 65_535;
/// At both ends, and where the number of an element takes another byte.
const MARKS: [usize; 6] = [0, 255, 256, 32_768, 65_279, 65_534];

#[test]
fn a_full_cartridge() {
    let mut kinds = vec![1; C];
    MARKS.iter().for_each(|&place| kinds[place] = 2);
    let image = tape(512, &kinds, C, 15);
    let mut bench = new_bench();
    bench.stream.begin(&RECORD, &image);
    let needed = 4 + 4 * MARKS.len() + 520 * (C - MARKS.len());
    let mut room = vec![0; needed];
    Random::new(16).fill(&mut room);
    assert_eq!(agree(bench.export(&room[1..])), 4);
    assert_eq!(agree(bench.export(&room)), 0);
    assert_eq!(bench.stream.answer(), &answer(C, needed));
    let file = bench.file().to_vec();
    bench.stream.edit_image(|image| image[8..12].fill(0));
    assert_eq!(agree(bench.import(&file)), 0);
    assert!(bench.stream.image() == image, "the image comes back");
    let more = [&file[..needed - 4], &MARK].concat();
    assert_eq!(agree(bench.import(&more)), 13);
}

/// The shortest file of so many elements.
#[test]
fn nothing_but_marks() {
    let mut bench = new_bench();
    bench.stream.begin(&RECORD, &tape(512, &[1; C], 0, 17));
    assert_eq!(agree(bench.import(&vec![0; 4 * C])), 0);
    assert_eq!(bench.stream.answer(), &answer(C, 4 * C));
    assert_eq!(long_at(bench.stream.image(), RECORDED_AT) as usize, C);
    assert_eq!(agree(bench.import(&vec![0; 4 * C + 4])), 13);
    assert_eq!(agree(bench.export(&vec![0x99; 4 * C + 3])), 4);
    assert_eq!(agree(bench.export(&vec![0x99; 4 * C + 4])), 0);
    assert!(bench.file()[..4 * C].iter().all(|&byte| byte == 0));
}
