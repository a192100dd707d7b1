//! The locked door (02, A8) at its borders, on both packet devices: every door with every attention and every packet that asks
//! something of it, every value of the record's byte 4 and of the packet's bytes, page 2Ah, all other packets, refusals, and a
//! small world of sequences in full.

use std::mem::take;

use compare::floppy_sessions::put_factors;
use compare::{FloppyBench, ImageBench, PacketBench, Random, Shape, Starts, agree, say};
use model::Bug;
use tapecard::bytes::triple::{self, Triple};
use tapecard::bytes::{length, long_at, opcode, page, put_count, put_long, put_word};

/// Byte 4 of a record: not loaded, loaded, and the same two locked.
const DOORS: [u8; 4] = [0, 1, 2, 3];
const LOCKED: u8 = 2;
/// Where a record has its tape parameters.
const TAPE_AT: usize = 16;
/// "After a load .. BSEG is 1, SEGTRK C, TRKS 1 and the rest 0" (02, A1); C is 8 here.
const RESET_TAPE: [u8; 16] = [0, 0, 1, 0, 0, 8, 0, 1, 0, 0, 0, 0, 0, 0, 0, 0];

/// Eight data blocks, all recorded.
fn tape() -> Vec<u8> {
    let mut image = Shape::plain(512, 8, 8).image(&mut Random::new(12));
    image[32..40].fill(1);
    image
}

/// At place 2 with speed 62, an old sense with a residue of 7, and on the floppy device tape parameters that a list has set.
fn record<const RECORD: usize>(door: u8, attention: u8) -> [u8; RECORD] {
    let mut record = [0; 32];
    put_long(&mut record, 0, 2);
    record[4..6].copy_from_slice(&[door, attention]);
    put_word(&mut record, 6, 62);
    record[8..16].copy_from_slice(&[3, 0x11, 0, 1, 0, 0, 0, 7]);
    record[TAPE_AT..].copy_from_slice(&[22, 0x6C, 0, 0xE0, 0, 0, 0, 0, 128, 255, 7, 0, 0, 0, 0, 0]);
    put_factors(&mut record, (1, 7, 1));
    *record.first_chunk().expect("16 or 32 of 32 bytes")
}

fn plain(opcode: u8, byte_4: u8) -> [u8; 12] {
    [opcode, 0, 0, 0, byte_4, 0, 0, 0, 0, 0, 0, 0]
}

/// The same record with another sense, which is not valid, and no attention.
fn with_sense<const RECORD: usize>(record: &[u8; RECORD], sense: Triple) -> [u8; RECORD] {
    let mut after = *record;
    after[5] = 0;
    after[8..11].copy_from_slice(&sense);
    after[11..16].fill(0);
    after
}

/// A device under test with its tape, and with what 1Bh does to it.
struct Device<const RECORD: usize> {
    name: &'static str,
    bench: ImageBench<RECORD>,
    image: Vec<u8>,
    loads: [&'static str; 4],
}

/// What 1Bh leaves, a row for each of [`DOORS`] and a letter for each byte 4 from 0 to 7: a digit is the record's byte 4, S that
/// the lock stopped it (5/53/02), F a bad field (5/24/00).
const STREAM_LOADS: [&str; 4] = ["01010F0F", "01010F0F", "S3S3SFSF", "S3S3SFSF"];
const FLOPPY_LOADS: [&str; 4] = ["01010101", "01010101", "S3S3S3S3", "S3S3S3S3"];
/// Byte 4 of 1Eh.
const PREVENT_BYTES: [u8; 6] = [0x00, 0x01, 0x02, 0x03, 0xFE, 0xFF];
/// What 1Eh leaves as the record's byte 4, a row for each of [`DOORS`] and a digit for each of [`PREVENT_BYTES`].
const PREVENTS: [&str; 4] = ["020202", "131313", "020202", "131313"];

fn stream() -> Device<16> {
    Device {
        name: "stream device",
        bench: PacketBench::new(Bug::None, 0),
        image: tape(),
        loads: STREAM_LOADS,
    }
}

fn floppy() -> Device<32> {
    Device {
        name: "floppy device",
        bench: FloppyBench::new(Bug::None, 0),
        image: tape(),
        loads: FLOPPY_LOADS,
    }
}

impl<const RECORD: usize> Device<RECORD> {
    /// Sends a packet without data to this record; engine and model agree, and the engine leaves this one and says so.
    fn leaves(&mut self, record: &[u8; RECORD], packet: &[u8; 12], after: &[u8; RECORD]) {
        self.bench.begin(record, &self.image);
        agree(self.bench.send(packet, &[]));
        let context = format!("{packet:02X?} to {record:02X?}");
        assert_eq!(self.bench.record(), after, "{context}");
        let good = after[8..11] == triple::NOTHING;
        let mut answer = [0; 16];
        answer[1] = if good { 0 } else { 2 };
        assert_eq!(self.bench.answer(), &answer, "{context}");
        assert_eq!(self.bench.image(), self.image);
    }

    fn say_calls(&self, what: &str) {
        let calls = self.bench.seen.calls;
        say(&format!(
            "{what} of the {}: {calls} calls compared",
            self.name
        ));
    }
}

/// What 1Bh leaves of a record, by its letter in the table.
fn after_1bh<const RECORD: usize>(record: &[u8; RECORD], letter: char) -> [u8; RECORD] {
    match letter {
        'S' => with_sense(record, triple::REMOVAL_PREVENTED),
        'F' => with_sense(record, triple::BAD_FIELD),
        digit => {
            let mut after = with_sense(record, triple::NOTHING);
            after[..4].fill(0);
            after[4] = digit as u8 - b'0';
            if RECORD > TAPE_AT && after[4] % 2 == 1 {
                after[TAPE_AT..].copy_from_slice(&RESET_TAPE);
            }
            after
        }
    }
}

/// Every door, every attention, every byte 4.
fn every_door<const RECORD: usize>(mut device: Device<RECORD>) {
    for door in DOORS {
        let before = record(door, 0);
        let letters = device.loads[usize::from(door)].chars();
        for (byte_4, letter) in (0..).zip(letters) {
            let after = after_1bh(&before, letter);
            device.leaves(&before, &plain(opcode::LOAD_UNLOAD, byte_4), &after);
        }
        let digits = PREVENTS[usize::from(door)].bytes();
        for (byte_4, digit) in PREVENT_BYTES.into_iter().zip(digits) {
            let mut after = with_sense(&before, triple::NOTHING);
            after[4] = digit - b'0';
            device.leaves(&before, &plain(opcode::PREVENT_ALLOW, byte_4), &after);
        }
        attention_first(&mut device, door);
    }
    device.say_calls("every door");
}

/// A pending attention ends each of them, and nothing that they ask for is done.
fn attention_first<const RECORD: usize>(device: &mut Device<RECORD>, door: u8) {
    let loads = (0..8).map(|byte_4| plain(opcode::LOAD_UNLOAD, byte_4));
    let prevents = PREVENT_BYTES.map(|byte_4| plain(opcode::PREVENT_ALLOW, byte_4));
    for packet in loads.chain(prevents) {
        for (attention, sense) in [(1, triple::MEDIUM_CHANGED), (2, triple::RESET)] {
            let before = record(door, attention);
            device.leaves(&before, &packet, &with_sense(&before, sense));
        }
    }
}

#[test]
fn every_door_with_every_attention_and_packet() {
    every_door(stream());
    every_door(floppy());
}

/// Bits 0 and 1 of a record's byte 4 count, the others are ignored and written as 0; a change keeps the second.
fn every_byte_4_of_a_record<const RECORD: usize>(mut device: Device<RECORD>)
where
    ImageBench<RECORD>: Starts,
{
    for value in 0..=255 {
        let before = record(value, 0);
        let read_as = record(value % 4, 0);
        let mut after = with_sense(&read_as, triple::NOTHING);
        for lock in [1, 0] {
            after[4] = value % 2 + LOCKED * lock;
            device.leaves(&before, &plain(opcode::PREVENT_ALLOW, lock), &after);
        }
        let letter = device.loads[usize::from(value % 4)].chars().next();
        let after = after_1bh(&read_as, letter.expect("eight letters"));
        device.leaves(&before, &plain(opcode::LOAD_UNLOAD, 0), &after);
        device.bench.set_record(&before);
        device.bench.change_cartridge();
        assert_eq!(device.bench.record()[4], 1 + value % 4 / 2 * LOCKED);
        device.bench.make_fresh();
        assert_eq!(device.bench.record()[4], 1);
    }
    device.say_calls("every byte 4 in a record");
}

#[test]
fn every_value_of_byte_4_of_a_record() {
    every_byte_4_of_a_record(stream());
    every_byte_4_of_a_record(floppy());
}

/// Of 1Eh only bit 0 of byte 4 counts, whatever the other bits and bytes say.
fn every_byte_of_prevent<const RECORD: usize>(mut device: Device<RECORD>) {
    for door in DOORS {
        let before = record(door, 0);
        let mut after = with_sense(&before, triple::NOTHING);
        for at in 1..12 {
            for value in 0..=255 {
                let mut packet = plain(opcode::PREVENT_ALLOW, 1);
                packet[at] = value;
                after[4] = door % 2 + LOCKED * (packet[4] % 2);
                device.leaves(&before, &packet, &after);
            }
        }
    }
    device.say_calls("every byte of 1Eh");
}

#[test]
fn every_value_of_every_byte_of_1eh() {
    every_byte_of_prevent(stream());
    every_byte_of_prevent(floppy());
}

/// "Page 2Ah shows LOCK (01h) always and LOCKED (02h) while locked, in byte 6.": 08h is 01's. 15h ignores that byte.
fn every_page_and_list<const RECORD: usize>(mut device: Device<RECORD>) {
    let (bench, image) = (&mut device.bench, &device.image);
    for (door, byte_6) in DOORS.into_iter().zip([0x09, 0x09, 0x0B, 0x0B]) {
        for asked in 0..=255 {
            let mut packet = plain(opcode::MODE_SENSE, asked);
            packet[2] = page::CODE;
            bench.begin(&record(door, 0), image);
            agree(bench.send(&packet, &[0x77; 40]));
            let shown = if asked > 18 { byte_6 } else { 0x77 };
            assert_eq!(bench.data()[18], shown, "door {door}, {asked} bytes");
            assert_eq!(bench.record()[4], door);
        }
        for listed in 0..=255 {
            let mut list = [0; length::MODE_WITH_PAGE];
            list[12..14].copy_from_slice(&[page::CODE, page::LENGTH]);
            list[18] = listed;
            bench.begin(&record(door, 0), image);
            agree(bench.send(&plain(opcode::MODE_SELECT, 32), &list));
            let mut after = with_sense(&record::<RECORD>(door, 0), triple::NOTHING);
            put_word(&mut after, 6, 0);
            assert_eq!(bench.record(), &after);
        }
    }
    device.say_calls("pages and lists while locked");
}

#[test]
fn every_length_of_page_2ah_and_every_listed_byte() {
    every_page_and_list(stream());
    every_page_and_list(floppy());
}

/// Every opcode but the two, with fields that lead far: a locked door changes nothing but the byte of page 2Ah that tells of it.
fn every_other_packet<const RECORD: usize>(mut device: Device<RECORD>) {
    let others =
        (0..=255).filter(|opcode| ![opcode::LOAD_UNLOAD, opcode::PREVENT_ALLOW].contains(opcode));
    for opcode in others {
        for byte_1 in [0, 1, 3] {
            for count in [0, 1, 12, 32, 0x2A_0020, 0xFF_FFFE] {
                let mut packet = plain(opcode, 0);
                packet[1] = byte_1;
                put_count(&mut packet, 2, count);
                device.does_locked_what_it_does_open(&packet, 0);
                device.does_locked_what_it_does_open(&packet, 1);
            }
        }
    }
    device.say_calls("other packets while locked");
}

impl<const RECORD: usize> Device<RECORD> {
    fn does_locked_what_it_does_open(&mut self, packet: &[u8; 12], loaded: u8) {
        let [open, mut locked] = [0, LOCKED].map(|lock| {
            self.bench.begin(&record(loaded + lock, 0), &self.image);
            agree(self.bench.send(packet, &[0x42; 512]));
            Left::by(&self.bench)
        });
        assert_eq!(
            [open.record[4], locked.record[4]],
            [loaded, loaded + LOCKED]
        );
        locked.record[4] -= LOCKED;
        if packet[0] == opcode::MODE_SENSE && packet[2] == page::CODE {
            assert_eq!([open.data[18], locked.data[18]], [0x09, 0x0B]);
            locked.data[18] = 0x09;
        }
        assert_eq!(open, locked, "{packet:02X?}, loaded {loaded}");
    }
}

/// Everything that a packet leaves.
#[derive(Debug, PartialEq, Eq)]
struct Left<const RECORD: usize> {
    record: [u8; RECORD],
    answer: [u8; 16],
    data: Vec<u8>,
    image: Vec<u8>,
}

impl<const RECORD: usize> Left<RECORD> {
    fn by(bench: &ImageBench<RECORD>) -> Left<RECORD> {
        Left {
            record: *bench.record(),
            answer: *bench.answer(),
            data: bench.data().to_vec(),
            image: bench.image().to_vec(),
        }
    }
}

#[test]
fn no_other_packet_looks_at_the_lock() {
    every_other_packet(stream());
    every_other_packet(floppy());
}

/// Packets of another length, over a damaged image or with a record that breaks its rules: nothing is locked or unloaded.
fn every_refusal<const RECORD: usize>(mut device: Device<RECORD>) {
    let (bench, image) = (&mut device.bench, &device.image);
    let mut damaged = image.clone();
    damaged[31] = 1;
    for door in 0..=255 {
        let good: [u8; RECORD] = record(door, 0);
        let mut lost = good;
        put_long(&mut lost, 0, 9);
        for packet in [
            plain(opcode::PREVENT_ALLOW, 0),
            plain(opcode::PREVENT_ALLOW, 1),
            plain(opcode::LOAD_UNLOAD, 0),
        ] {
            let longer = [&packet[..], &[0]].concat();
            for (number, record, image, bytes) in [
                (1, &good, image, &packet[..11]),
                (1, &good, image, &longer),
                (2, &good, &damaged, &packet[..]),
                (3, &lost, image, &packet[..]),
            ] {
                bench.begin(record, image);
                agree(bench.send(bytes, &[]));
                assert_eq!((bench.answer()[0], bench.record()), (number, record));
            }
        }
    }
    device.say_calls("refusals while locked");
}

#[test]
fn refused_packets_leave_the_door() {
    every_refusal(stream());
    every_refusal(floppy());
}

/// The floppy device's change is refused with 2 alone, locked or not, and then keeps the record.
#[test]
fn a_change_of_the_floppy_device_is_refused_as_ever() {
    let mut bench = FloppyBench::new(Bug::None, 0);
    let mut short = tape();
    put_long(&mut short, 8, 7);
    for door in 0..=255 {
        let before = record(door, 2);
        bench.begin(&before, &short);
        assert_eq!(agree(bench.change()), 2);
        assert_eq!(bench.record(), &before);
    }
}

#[derive(Clone, Copy, Debug, PartialEq, Eq)]
enum Step {
    Lock,
    Unlock,
    Load,
    Unload,
    Write,
    Ready,
    Change,
    Fresh,
}

const STEPS: [Step; 8] = [
    Step::Lock,
    Step::Unlock,
    Step::Load,
    Step::Unload,
    Step::Write,
    Step::Ready,
    Step::Change,
    Step::Fresh,
];

/// What A8 and 01 say of a drive that takes these steps, in few words.
#[derive(Clone, Copy, Debug, Default, PartialEq, Eq)]
struct Small {
    position: u32,
    loaded: bool,
    locked: bool,
    attention: Triple,
    sense: Triple,
}

impl Small {
    fn started(attention: Triple, locked: bool) -> Small {
        Small {
            position: 0,
            loaded: true,
            locked,
            attention,
            sense: triple::NOTHING,
        }
    }

    fn after(mut self, step: Step) -> Small {
        match step {
            Step::Change => return Small::started(triple::MEDIUM_CHANGED, self.locked),
            Step::Fresh => return Small::started(triple::RESET, false),
            _ => self.sense = take(&mut self.attention),
        }
        match step {
            _ if self.sense != triple::NOTHING => (),
            Step::Lock => self.locked = true,
            Step::Unlock => self.locked = false,
            Step::Unload if self.locked => self.sense = triple::REMOVAL_PREVENTED,
            Step::Load | Step::Unload => {
                self.position = 0;
                self.loaded = step == Step::Load;
            }
            _ if !self.loaded => self.sense = triple::NOT_LOADED,
            Step::Write => self.position += 1,
            _ => (),
        }
        self
    }

    fn read<const RECORD: usize>(record: &[u8; RECORD]) -> Small {
        let attentions = [triple::NOTHING, triple::MEDIUM_CHANGED, triple::RESET];
        Small {
            position: long_at(record, 0),
            loaded: record[4] % 2 == 1,
            locked: record[4] >= LOCKED,
            attention: attentions[usize::from(record[5])],
            sense: [record[8], record[9], record[10]],
        }
    }
}

fn take_step<const RECORD: usize>(bench: &mut ImageBench<RECORD>, step: Step)
where
    ImageBench<RECORD>: Starts,
{
    let packet = match step {
        Step::Lock => plain(opcode::PREVENT_ALLOW, 1),
        Step::Unlock => plain(opcode::PREVENT_ALLOW, 0),
        Step::Load => plain(opcode::LOAD_UNLOAD, 1),
        Step::Unload => plain(opcode::LOAD_UNLOAD, 0),
        Step::Write => [opcode::WRITE, 1, 0, 0, 1, 0, 0, 0, 0, 0, 0, 0],
        Step::Ready => plain(opcode::TEST_UNIT_READY, 0),
        Step::Change => return bench.change_cartridge(),
        Step::Fresh => return bench.make_fresh(),
    };
    agree(bench.send(&packet, &[0x42; 512]));
}

/// Every sequence of four steps from a drive with each door.
fn every_sequence<const RECORD: usize>(mut device: Device<RECORD>)
where
    ImageBench<RECORD>: Starts,
{
    let every = STEPS.len();
    for number in 0..DOORS.len() * every.pow(4) {
        let door = DOORS[number / every.pow(4)];
        let begun = with_sense(&record(door, 0), triple::NOTHING);
        let steps = [0, 1, 2, 3].map(|place| STEPS[number / every.pow(place) % every]);
        device.bench.begin(&begun, &device.image);
        let mut expected = Small::read(&begun);
        for step in steps {
            take_step(&mut device.bench, step);
            expected = expected.after(step);
            let left = Small::read(device.bench.record());
            assert_eq!(left, expected, "{steps:?} from door {door}");
        }
    }
    device.say_calls("small world of the door");
}

#[test]
fn a_small_world_in_full() {
    every_sequence(stream());
    every_sequence(floppy());
}
