//! The plates that must print alike, on engine and model at once.

use std::collections::VecDeque;

use compare::pulse_sessions;
use compare::{FloppyBench, ImageBench, PacketBench, PulseBench, PulseCall};
use compare::{Random, Shape, Starts, agree};
use model::Bug;
use tapecard::bytes::{long_at, opcode, page, put_count, put_long, space, word_at};

/// "Image C 4, B 512, W 0, kinds 1 2 1, U 3, attention cleared".
fn packet_bench(position: u32, warning: u16) -> PacketBench {
    let shape = Shape {
        warning,
        ..Shape::plain(512, 4, 3)
    };
    let mut image = shape.image(&mut Random::new(9));
    image[32..35].copy_from_slice(&[1, 2, 1]);
    let mut record = [0; 16];
    put_long(&mut record, 0, position);
    record[4] = 1;
    record[7] = 250;
    let mut bench = PacketBench::new(Bug::None, 0);
    bench.begin(&record, &image);
    bench
}

fn send<const RECORD: usize>(bench: &mut ImageBench<RECORD>, opcode: u8, byte_1: u8, count: u32) {
    let mut packet = [0; 12];
    packet[0] = opcode;
    packet[1] = byte_1;
    put_count(&mut packet, 2, count);
    send_packet(bench, &packet);
}

fn send_packet<const RECORD: usize>(bench: &mut ImageBench<RECORD>, packet: &[u8]) {
    agree(bench.send(packet, &[0x55; 1024]));
}

fn locate(target: u8) -> [u8; 12] {
    [opcode::LOCATE, 0, 0, 0, 0, 0, target, 0, 0, 0, 0, 0]
}

fn sense_bytes<const RECORD: usize>(bench: &mut ImageBench<RECORD>) -> Vec<u8> {
    send(bench, opcode::REQUEST_SENSE, 0, 20);
    bench.data()[..20].to_vec()
}

fn status<const RECORD: usize>(bench: &ImageBench<RECORD>) -> u8 {
    assert_eq!(bench.answer()[0], 0);
    bench.answer()[1]
}

fn blocks<const RECORD: usize>(bench: &ImageBench<RECORD>) -> u32 {
    long_at(bench.answer(), 4)
}

fn position<const RECORD: usize>(bench: &ImageBench<RECORD>) -> u32 {
    long_at(bench.record(), 0)
}

fn residue<const RECORD: usize>(bench: &ImageBench<RECORD>) -> u32 {
    assert_eq!(bench.record()[11] & 1, 1);
    long_at(bench.record(), 12)
}

fn triple<const RECORD: usize>(bench: &ImageBench<RECORD>) -> [u8; 3] {
    let record = bench.record();
    [record[8], record[9], record[10]]
}

#[test]
fn two_reads() {
    let mut bench = packet_bench(0, 0);
    send(&mut bench, opcode::READ, 1, 2);
    assert_eq!(
        (status(&bench), blocks(&bench), position(&bench)),
        (2, 1, 2)
    );
    assert_eq!(bench.data()[512..], [0x55; 512]);
    let plate = [
        0xF0, 0, 0x80, 0, 0, 0, 1, 0x0C, 0, 0, 0, 0, 0, 1, 0, 0, 0, 0, 0, 0,
    ];
    assert_eq!(sense_bytes(&mut bench), plate);
    send(&mut bench, opcode::READ, 1, 2);
    assert_eq!(
        (status(&bench), blocks(&bench), position(&bench)),
        (2, 1, 3)
    );
    assert_eq!((residue(&bench), triple(&bench)), (1, [8, 0, 5]));
}

#[test]
fn three_writes() {
    let mut bench = packet_bench(3, 0);
    send(&mut bench, opcode::WRITE, 1, 2);
    assert_eq!(
        (status(&bench), blocks(&bench), position(&bench)),
        (2, 1, 4)
    );
    assert_eq!(residue(&bench), 1);
    assert_eq!(sense_bytes(&mut bench)[2], 0x4D);

    let mut bench = packet_bench(3, 1);
    send(&mut bench, opcode::WRITE, 1, 1);
    assert_eq!((status(&bench), blocks(&bench), residue(&bench)), (2, 1, 0));
    assert_eq!(sense_bytes(&mut bench)[2], 0x40);

    let mut bench = packet_bench(0, 0);
    send(&mut bench, opcode::WRITE, 1, 1);
    assert_eq!((status(&bench), long_at(bench.image(), 8)), (0, 1));
}

#[test]
fn three_spaces() {
    let mut bench = packet_bench(3, 0);
    send(&mut bench, opcode::SPACE, 1, 0xFF_FFFF);
    assert_eq!((status(&bench), position(&bench)), (0, 1));

    let mut bench = packet_bench(1, 0);
    send(&mut bench, opcode::SPACE, 0, 1);
    assert_eq!((position(&bench), residue(&bench)), (2, 1));

    let mut bench = packet_bench(0, 0);
    send(&mut bench, opcode::SPACE, 0, 0xFF_FFFF);
    assert_eq!((residue(&bench), triple(&bench)), (1, [0, 0, 4]));
}

#[test]
fn locate_and_load() {
    let mut bench = packet_bench(0, 0);
    send_packet(&mut bench, &locate(4));
    assert_eq!((position(&bench), triple(&bench)), (3, [8, 0, 5]));

    let mut bench = packet_bench(0, 0);
    send(&mut bench, opcode::LOAD_UNLOAD, 0, 5);
    assert_eq!(triple(&bench), [5, 0x24, 0]);
}

/// 02, A3: "So 8/00/05 on READ and SPACE carries EOM when U > C - W. The cases with W 0 stay."
#[test]
fn the_end_of_data_near_the_end_of_tape() {
    for (warning, byte_2) in [(0, 0x08), (1, 0x08), (2, 0x48)] {
        for (from, opcode, byte_1, count, residue) in [
            (2, opcode::READ, 1, 2, 1),
            (2, opcode::SPACE, space::BLOCKS, 3, 2),
            (0, opcode::SPACE, space::FILEMARKS, 2, 1),
        ] {
            let mut bench = packet_bench(from, warning);
            send(&mut bench, opcode, byte_1, count);
            assert_eq!((status(&bench), position(&bench)), (2, 3));
            let plate = [
                0xF0, 0, byte_2, 0, 0, 0, residue, 0x0C, 0, 0, 0, 0, 0, 5, 0, 0, 0, 0, 0, 0,
            ];
            assert_eq!(sense_bytes(&mut bench), plate);
        }
    }
}

/// 02, A3, names READ and SPACE: a LOCATE past U shows no EOM, with early warning passed too.
#[test]
fn a_locate_past_early_warning() {
    let mut bench = packet_bench(0, 2);
    send_packet(&mut bench, &locate(4));
    assert_eq!((status(&bench), position(&bench)), (2, 3));
    let plate = [
        0x70, 0, 0x08, 0, 0, 0, 0, 0x0C, 0, 0, 0, 0, 0, 5, 0, 0, 0, 0, 0, 0,
    ];
    assert_eq!(sense_bytes(&mut bench), plate);
}

/// How many of the blocks copied were marked.
fn marked<const RECORD: usize>(bench: &ImageBench<RECORD>) -> u32 {
    long_at(bench.answer(), 12)
}

fn set_kinds<const RECORD: usize>(bench: &mut ImageBench<RECORD>, kinds: [u8; 4]) {
    bench.edit_image(|image| image[32..36].copy_from_slice(&kinds));
}

/// 02, A6: "READ copies it as data .. and a READ's answer also says how many of the blocks copied were marked." U is 3: the last kind
/// means nothing.
#[test]
fn reads_of_marked_blocks() {
    for (kinds, from, ended, copied, of_these_marked, at) in [
        ([4, 1, 4, 4], 0, 0, 2, 1, 2),
        ([1, 1, 4, 4], 0, 0, 2, 0, 2),
        ([4, 2, 4, 4], 0, 2, 1, 1, 2),
        ([4, 7, 4, 4], 0, 2, 1, 1, 2),
        ([4, 2, 4, 4], 1, 2, 0, 0, 2),
        ([4, 1, 4, 4], 2, 2, 1, 1, 3),
        ([4, 1, 4, 4], 3, 2, 0, 0, 3),
    ] {
        let mut bench = packet_bench(from, 0);
        set_kinds(&mut bench, kinds);
        send(&mut bench, opcode::READ, 1, 2);
        assert_eq!((status(&bench), position(&bench)), (ended, at));
        assert_eq!((blocks(&bench), marked(&bench)), (copied, of_these_marked));
        send(&mut bench, opcode::REQUEST_SENSE, 0, 20);
        assert_eq!(marked(&bench), 0);
    }
}

/// 02, A6: "SPACE counts it as a block". "WRITE still stores kind 1."
#[test]
fn spaces_and_writes_over_marked_blocks() {
    let mut bench = packet_bench(0, 0);
    set_kinds(&mut bench, [4, 4, 2, 4]);
    send(&mut bench, opcode::SPACE, space::BLOCKS, 2);
    assert_eq!((status(&bench), position(&bench)), (0, 2));
    send(&mut bench, opcode::SPACE, space::BLOCKS, 0xFF_FFFE);
    assert_eq!((status(&bench), position(&bench)), (0, 0));
    send(&mut bench, opcode::SPACE, space::FILEMARKS, 1);
    assert_eq!((status(&bench), position(&bench)), (0, 3));
    send(&mut bench, opcode::REWIND, 0, 0);
    send(&mut bench, opcode::WRITE, 1, 1);
    assert_eq!((blocks(&bench), marked(&bench)), (1, 0));
    send(&mut bench, opcode::WRITE_FILEMARK, 0, 1);
    assert_eq!((blocks(&bench), marked(&bench)), (1, 0));
    assert_eq!(bench.image()[32..36], [1, 2, 2, 4]);
}

#[test]
fn cut_packets() {
    let mut bench = packet_bench(0, 0);
    send_packet(&mut bench, &[0; 11]);
    assert_eq!(bench.answer()[0], 1);
    send_packet(&mut bench, &[0; 12]);
    assert_eq!(status(&bench), 0);
}

/// Image C 4, B 512, W 4, kinds 1 7 1 2, U 4; the fresh record with its attention cleared, at this position.
fn floppy_bench(position: u8) -> FloppyBench {
    let shape = Shape {
        warning: 4,
        ..Shape::plain(512, 4, 4)
    };
    let mut image = shape.image(&mut Random::new(9));
    image[21] = 0;
    image[32..36].copy_from_slice(&[1, 7, 1, 2]);
    let mut record = [0; 32];
    record[3] = position;
    record[4] = 1;
    record[7] = 250;
    record[16..24].copy_from_slice(&[0, 0, 1, 0, 0, 4, 0, 1]);
    let mut bench = FloppyBench::new(Bug::None, 0);
    bench.begin(&record, &image);
    bench
}

/// A list with density 22, fill byte 6Ch and the flag WDAM, and these as BSEG, SEGTRK and TRKS.
fn send_list(bench: &mut FloppyBench, parameters: [u8; 5]) {
    let mut list = [
        0, 0, 0, 0, 0, 0, 0, 0, 0, 0, 0, 0, 0x2B, 0x0E, 22, 0, 0x6C, 0, 0, 0, 0, 0, 0, 0, 0, 0, 0,
        0x80,
    ];
    list[17..22].copy_from_slice(&parameters);
    let packet = [opcode::MODE_SELECT, 0, 0, 0, 28, 0, 0, 0, 0, 0, 0, 0];
    agree(bench.send(&packet, &list));
}

#[test]
fn a_floppy_read_is_one_short_at_an_unreadable_block() {
    let mut bench = floppy_bench(1);
    send(&mut bench, opcode::READ, 1, 2);
    assert_eq!((blocks(&bench), position(&bench)), (0, 2));
    let plate = [
        0xF0, 0, 3, 0, 0, 0, 1, 0x0C, 0, 0, 0, 0, 0x11, 0, 0, 0, 0, 0, 0, 0,
    ];
    assert_eq!(sense_bytes(&mut bench), plate);
    send(&mut bench, opcode::READ, 1, 2);
    assert_eq!((blocks(&bench), position(&bench)), (1, 4));
    assert_eq!((residue(&bench), triple(&bench)), (0, [3, 0x11, 0]));
    send(&mut bench, opcode::READ, 1, 2);
    assert_eq!((blocks(&bench), position(&bench)), (0, 4));
    let plate = [
        0xF0, 0, 8, 0, 0, 0, 2, 0x0C, 0, 0, 0, 0, 0, 5, 0, 0, 0, 0, 0, 0,
    ];
    assert_eq!(sense_bytes(&mut bench), plate, "W plays no part (02, A1)");
}

/// 02, A6, over kinds 4 7 1 4: the block in error is left out of the residue (A1), and of the count.
#[test]
fn floppy_reads_of_marked_blocks() {
    let mut bench = floppy_bench(0);
    set_kinds(&mut bench, [4, 7, 1, 4]);
    send(&mut bench, opcode::READ, 1, 2);
    assert_eq!((blocks(&bench), marked(&bench)), (1, 1));
    assert_eq!((residue(&bench), triple(&bench)), (0, [3, 0x11, 0]));
    send(&mut bench, opcode::READ, 1, 2);
    assert_eq!((status(&bench), position(&bench)), (0, 4));
    assert_eq!((blocks(&bench), marked(&bench)), (2, 1));
}

/// 02, A6: "WRITE still stores kind 1.", with WDAM set by a list.
#[test]
fn a_floppy_write_with_wdam_marks_nothing() {
    let mut bench = floppy_bench(0);
    set_kinds(&mut bench, [4, 1, 4, 4]);
    send_list(&mut bench, [1, 0, 4, 0, 1]);
    assert_eq!(bench.record()[19], 0x80);
    send(&mut bench, opcode::WRITE, 1, 2);
    assert_eq!((blocks(&bench), marked(&bench)), (2, 0));
    assert_eq!(bench.image()[32..36], [1, 1, 4, 4]);
}

#[test]
fn a_floppy_write_ends_at_the_product() {
    let mut bench = floppy_bench(3);
    send(&mut bench, opcode::WRITE, 1, 2);
    assert_eq!((status(&bench), blocks(&bench)), (2, 1));
    assert_eq!((residue(&bench), position(&bench)), (1, 4));
    assert_eq!(bench.image()[8..12], [0, 0, 0, 4]);
    assert_eq!(bench.image()[32..36], [1, 7, 1, 1]);
    assert_eq!(sense_bytes(&mut bench)[2], 0x4D);
    let mut bench = floppy_bench(0);
    send(&mut bench, opcode::WRITE, 1, 1);
    assert_eq!((status(&bench), blocks(&bench)), (0, 1));
}

#[test]
fn a_floppy_list_and_a_load() {
    let mut bench = floppy_bench(3);
    send_list(&mut bench, [1, 0, 5, 0, 1]);
    assert_eq!((triple(&bench), position(&bench)), ([5, 0x26, 0], 3));
    send_list(&mut bench, [1, 0, 1, 0, 2]);
    assert_eq!((status(&bench), position(&bench)), (0, 0));
    let parameters = [22, 0x6C, 1, 0x80, 0, 1, 0, 2, 0, 0, 0, 0, 0, 0, 0, 0];
    assert_eq!(bench.record()[16..], parameters);
    send_packet(&mut bench, &locate(1));
    assert_eq!((status(&bench), position(&bench)), (0, 1));
    send_packet(&mut bench, &locate(2));
    assert_eq!((triple(&bench), position(&bench)), ([5, 0x24, 0], 1));
    send(&mut bench, opcode::LOAD_UNLOAD, 0, 1);
    let reset = [0, 0, 1, 0, 0, 4, 0, 1, 0, 0, 0, 0, 0, 0, 0, 0];
    assert_eq!(bench.record()[16..], reset);
    assert_eq!(position(&bench), 0);
}

/// Takes the attention that is pending.
fn attend<const RECORD: usize>(bench: &mut ImageBench<RECORD>) {
    send(bench, opcode::TEST_UNIT_READY, 0, 0);
    assert_eq!(status(bench), 2);
}

/// Bytes 14-15 of page 2Ah.
fn speed_told<const RECORD: usize>(bench: &mut ImageBench<RECORD>) -> [u8; 2] {
    send(bench, opcode::MODE_SENSE, 0, 0x2A_0020);
    assert_eq!(status(bench), 0);
    [bench.data()[26], bench.data()[27]]
}

fn select_speed<const RECORD: usize>(bench: &mut ImageBench<RECORD>, speed: u8) {
    let mut list = [0; 32];
    list[12] = page::CODE;
    list[13] = page::LENGTH;
    list[27] = speed;
    let packet = [opcode::MODE_SELECT, 0, 0, 0, 32, 0, 0, 0, 0, 0, 0, 0];
    agree(bench.send(&packet, &list));
    assert_eq!(status(bench), 0);
}

/// 02, A2: "The fresh record's speed becomes 250 instead of 0. Callers that relied on 0 set it themselves by 15h, and MODE SENSE
/// bytes 14-15 of a fresh drive follow."
fn starts_at_250<const RECORD: usize>(mut bench: ImageBench<RECORD>)
where
    ImageBench<RECORD>: Starts,
{
    select_speed(&mut bench, 0);
    for start in [Starts::make_fresh, Starts::change_cartridge] {
        start(&mut bench);
        attend(&mut bench);
        assert_eq!(speed_told(&mut bench), [0x00, 0xFA]);
    }
    select_speed(&mut bench, 0);
    assert_eq!(speed_told(&mut bench), [0x00, 0x00]);
    bench.change_cartridge();
    attend(&mut bench);
    assert_eq!(speed_told(&mut bench), [0x00, 0x00]);
}

#[test]
fn a_fresh_drive_starts_at_250() {
    starts_at_250(packet_bench(3, 0));
}

#[test]
fn a_fresh_floppy_device_starts_at_250() {
    starts_at_250(floppy_bench(3));
}

/// Position, byte 4 of the record (1 loaded, 2 locked) and the sense.
fn left<const RECORD: usize>(bench: &ImageBench<RECORD>) -> (u32, u8, [u8; 3]) {
    (position(bench), bench.record()[4], triple(bench))
}

fn prevent<const RECORD: usize>(bench: &mut ImageBench<RECORD>, byte_4: u8) {
    send(bench, opcode::PREVENT_ALLOW, 0, byte_4.into());
    assert_eq!((status(bench), blocks(bench)), (0, 0));
}

fn load_unload<const RECORD: usize>(bench: &mut ImageBench<RECORD>, byte_4: u8, ended: u8) {
    send(bench, opcode::LOAD_UNLOAD, 0, byte_4.into());
    assert_eq!((status(bench), blocks(bench)), (ended, 0));
}

/// Byte 6 of page 2Ah.
fn door_told<const RECORD: usize>(bench: &mut ImageBench<RECORD>) -> u8 {
    send(bench, opcode::MODE_SENSE, 0, 0x2A_0020);
    bench.data()[18]
}

/// 02, A8: "Unloading while locked ends with 5/53/02; the position stays." "Page 2Ah shows LOCK (01h) always and LOCKED (02h)
/// while locked, in byte 6."
fn locks_and_unlocks<const RECORD: usize>(mut bench: ImageBench<RECORD>) {
    assert_eq!(door_told(&mut bench), 0x09);
    prevent(&mut bench, 1);
    assert_eq!(left(&bench), (3, 3, [0, 0, 0]));
    assert_eq!(door_told(&mut bench), 0x0B);
    for unload in [0, 2, 4, 6] {
        load_unload(&mut bench, unload, 2);
        assert_eq!(left(&bench), (3, 3, [5, 0x53, 2]));
        let plate = [
            0x70, 0, 5, 0, 0, 0, 0, 0x0C, 0, 0, 0, 0, 0x53, 2, 0, 0, 0, 0, 0, 0,
        ];
        assert_eq!(sense_bytes(&mut bench), plate);
    }
    prevent(&mut bench, 0);
    assert_eq!(left(&bench), (3, 1, [0, 0, 0]));
    assert_eq!(door_told(&mut bench), 0x09);
    load_unload(&mut bench, 0, 0);
    assert_eq!(left(&bench), (0, 0, [0, 0, 0]));
}

/// 02, A8: "a locked flag, false when fresh and kept through a cartridge change." An attention comes before 53/02, and ends 1Eh.
fn keeps_the_lock<const RECORD: usize>(mut bench: ImageBench<RECORD>)
where
    ImageBench<RECORD>: Starts,
{
    bench.make_fresh();
    assert_eq!(left(&bench), (0, 1, [0, 0, 0]));
    send(&mut bench, opcode::PREVENT_ALLOW, 0, 1);
    assert_eq!(left(&bench), (0, 1, [6, 0x29, 0]));
    prevent(&mut bench, 1);
    bench.change_cartridge();
    assert_eq!(left(&bench), (0, 3, [0, 0, 0]));
    load_unload(&mut bench, 0, 2);
    assert_eq!(left(&bench), (0, 3, [6, 0x28, 0]));
    load_unload(&mut bench, 0, 2);
    assert_eq!(left(&bench), (0, 3, [5, 0x53, 2]));
    bench.make_fresh();
    assert_eq!(left(&bench), (0, 1, [0, 0, 0]));
}

/// 02, A8: "1Eh has no not-ready check", and the lock stops an unload where nothing is loaded; a load goes through and leaves it.
fn locks_where_nothing_is_loaded<const RECORD: usize>(mut bench: ImageBench<RECORD>) {
    load_unload(&mut bench, 0, 0);
    prevent(&mut bench, 1);
    assert_eq!(left(&bench), (0, 2, [0, 0, 0]));
    load_unload(&mut bench, 0, 2);
    assert_eq!(left(&bench), (0, 2, [5, 0x53, 2]));
    send(&mut bench, opcode::TEST_UNIT_READY, 0, 0);
    assert_eq!(left(&bench), (0, 2, [2, 0x3A, 0]));
    load_unload(&mut bench, 1, 0);
    assert_eq!(left(&bench), (0, 3, [0, 0, 0]));
}

#[test]
fn an_unload_is_stopped_until_the_door_is_unlocked() {
    locks_and_unlocks(packet_bench(3, 0));
    locks_and_unlocks(floppy_bench(3));
}

#[test]
fn the_lock_goes_through_a_change() {
    keeps_the_lock(packet_bench(3, 0));
    keeps_the_lock(floppy_bench(3));
}

#[test]
fn a_drive_that_is_not_loaded_is_locked() {
    locks_where_nothing_is_loaded(packet_bench(3, 0));
    locks_where_nothing_is_loaded(floppy_bench(3));
}

/// 02, A8: "53/02 stands after the fields check of 1Bh": a load with EOT is still a bad field; the floppy device ignores EOT.
#[test]
fn a_load_with_eot_while_locked() {
    let mut bench = packet_bench(3, 0);
    prevent(&mut bench, 1);
    load_unload(&mut bench, 5, 2);
    assert_eq!(left(&bench), (3, 3, [5, 0x24, 0]));
    let mut bench = floppy_bench(3);
    send_list(&mut bench, [1, 0, 3, 0, 1]);
    prevent(&mut bench, 1);
    load_unload(&mut bench, 4, 2);
    let parameters = [22, 0x6C, 1, 0x80, 0, 3, 0, 1, 0, 0, 0, 0, 0, 0, 0, 0];
    assert_eq!(bench.record()[16..], parameters);
    load_unload(&mut bench, 5, 0);
    assert_eq!(left(&bench), (0, 3, [0, 0, 0]));
    let reset = [0, 0, 1, 0, 0, 4, 0, 1, 0, 0, 0, 0, 0, 0, 0, 0];
    assert_eq!(bench.record()[16..], reset);
}

fn pulse_bench() -> PulseBench {
    let mut bench = PulseBench::new(Bug::None, 0);
    make(&mut bench, PulseCall::PowerOn(0, 0));
    bench
}

fn make(bench: &mut PulseBench, call: PulseCall) -> u8 {
    agree(bench.make(call));
    bench.answer()[1]
}

fn trains(bench: &mut PulseBench, trains: &[u16]) -> Vec<u8> {
    let level = |&n| make(bench, PulseCall::Train(n));
    trains.iter().map(level).collect()
}

#[test]
fn a_skip_of_300() {
    let mut bench = pulse_bench();
    let cartridge = [0x03, 0xE8, 20, 0, 0, 2, 2, 2];
    make(&mut bench, PulseCall::Insert(cartridge));
    let mut recovery = VecDeque::new();
    pulse_sessions::plan_recovery(&mut recovery);
    assert_eq!(recovery.len(), 46);
    for call in recovery {
        make(&mut bench, call);
    }
    assert_eq!(bench.record()[14], 0);
    trains(&mut bench, &[35, 14, 4, 3]);
    assert_eq!(word_at(bench.record(), 10), 300);
    make(&mut bench, PulseCall::Wait(u32::MAX));
    assert_eq!(long_at(bench.answer(), 4), 300);
}

#[test]
fn the_error_report_after_power_on() {
    let mut bench = pulse_bench();
    assert_eq!(trains(&mut bench, &[7]), [1]);
    let levels = trains(&mut bench, &[2; 17]);
    assert_eq!(levels, [0, 1, 0, 1, 1, 0, 0, 0, 0, 0, 0, 0, 0, 0, 0, 0, 1]);
}

#[test]
fn eighteen_close_the_report_and_seventeen_do_not() {
    let mut bench = pulse_bench();
    trains(&mut bench, &[7, 36]);
    trains(&mut bench, &[2; 17]);
    assert_ne!(bench.record()[17], 0);
    trains(&mut bench, &[2]);
    assert_eq!(bench.record()[17], 0);
}

#[test]
fn the_bench_program() {
    let mut bench = pulse_bench();
    assert_eq!(trains(&mut bench, &[6, 2, 2, 2]), [1, 1, 1, 0]);
}

#[test]
fn wrong_prints_are_ruled_out() {
    let mut bench = pulse_bench();
    trains(&mut bench, &[13, 5]);
    assert_eq!(bench.record()[20], 0);
    assert_eq!(bench.record()[12], 0);

    let mut bench = pulse_bench();
    make(&mut bench, PulseCall::Insert([0, 9, 2, 0, 9, 2, 0, 0]));
    trains(&mut bench, &[7]);
    assert_eq!(bench.record()[14], 26);

    let mut bench = packet_bench(1, 0);
    send(&mut bench, opcode::WRITE, 1, 1);
    assert_eq!(long_at(bench.image(), 8), 2);
}
