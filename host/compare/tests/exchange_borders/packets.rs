//! Packets after an import: the drive tells of the change, and what was imported is read.

use compare::{agree, exchange_sessions};
use model::packet::Ending;
use tapecard::bytes::opcode;
use tapecard::{index, packet, raw};

use crate::common::*;

#[test]
fn what_was_imported_is_read() {
    for size in [512, 1024] {
        let theirs = tape(size, &[1; 4], 4, 8);
        let of = |element| block(&theirs, size, 4, element);
        let file = [
            record_of(of(0), 0),
            MARK.to_vec(),
            record_of(of(2), 0x80),
            record_of(of(3), 0),
            END.to_vec(),
        ]
        .concat();
        let mut bench = new_bench();
        bench.stream.begin(&RECORD, &tape(size, &[2; 4], 0, 9));
        assert_eq!(agree(bench.import(&file)), 0);
        agree(exchange_sessions::read_back(&mut bench));
        for (ending, times) in [
            (Ending::Good, 2),
            (Ending::AtFilemark, 1),
            (Ending::AtUnreadable, 1),
        ] {
            assert_eq!(bench.seen.read_back.get(&ending), Some(&times));
        }
    }
}

/// An index made before is not the image's any more: with other filemarks packets are refused with 10 until it is made afresh.
#[test]
fn an_index_must_be_made_afresh() {
    let mut image = tape(512, &[2, 1, 2], 3, 10);
    let mut index = [0; 12];
    assert!(index::make(&image, &mut index).is_ok());
    let mut record = packet::Record(RECORD);
    let mut answer = [0; 16];
    raw::import(&mut record.0, &mut image, &[0; 8], &mut answer);
    assert_eq!(answer[0], 0);
    let ask = [opcode::TEST_UNIT_READY; 12];
    let refused = index::packet(&mut record, &mut image, &mut index, &ask, &mut []);
    assert_eq!(refused.map_err(|refusal| refusal.number), Err(10));
    let made = index::make(&image, &mut index).map(|made| made.filemarks);
    assert_eq!(made, Ok(2));
    let told = index::packet(&mut record, &mut image, &mut index, &ask, &mut []);
    assert!(told.is_ok_and(|answer| answer.status == packet::CHECK_CONDITION));
    assert_eq!(record.sense().triple(), [6, 0x28, 0]);
}
