//! An export in its bytes.

use compare::agree;

use crate::common::*;

/// "A block becomes a record of B bytes, an unreadable one has the high bit of its length set, a marked one is written as plain data."
#[test]
fn a_cartridge_in_the_bytes_of_its_file() {
    for size in [512, 1024] {
        let image = tape(size, &[1, 2, 0, 4, 9, 2, 1], 6, 3);
        let of = |element| block(&image, size, 7, element);
        let expected = [
            record_of(of(0), 0),
            MARK.to_vec(),
            record_of(of(2), 0x80),
            record_of(of(3), 0),
            record_of(of(4), 0x80),
            MARK.to_vec(),
            END.to_vec(),
        ]
        .concat();
        let beyond = [0x77, 0, 0xFF];
        let mut bench = new_bench();
        bench.stream.begin(&RECORD, &image);
        let room = [&vec![0x99; expected.len()][..], &beyond].concat();
        assert_eq!(agree(bench.export(&room)), 0);
        assert!(bench.file() == [&expected[..], &beyond].concat());
        assert_eq!(bench.stream.answer(), &answer(6, expected.len()));
        assert_eq!(bench.stream.record(), &RECORD);
    }
}

/// "4 where its output buffer is too short": every length below the file's, and none from it on.
#[test]
fn buffers_of_every_length() {
    let image = tape(512, &[2, 1, 2, 1], 3, 4);
    let needed = 4 + 520 + 4 + 4;
    let mut bench = new_bench();
    bench.stream.begin(&RECORD, &image);
    for room in 0..needed + 8 {
        let number = if room < needed { 4 } else { 0 };
        assert_eq!(agree(bench.export(&vec![0x99; room])), number, "{room}");
    }
}
