//! A packet device over an image, engine and model side by side.

use std::collections::{BTreeMap, BTreeSet};

use model::Bug;
use model::packet::Ending;
use tapecard::bytes::{long_at, opcode};

use crate::caught::caught;
use crate::{Difference, Guarded, Origin};

/// What an answer holds before a call, to see that the whole of it is written.
pub(crate) const UNWRITTEN: [u8; 16] = [0x5A; 16];

/// The archive's packet call of a device whose record has `RECORD` bytes.
pub(crate) type EnginePacket<const RECORD: usize> =
    fn(&mut [u8; RECORD], &mut [u8], &[u8], &mut [u8], &mut [u8; 16]);

/// The model's packet call of such a device.
pub(crate) type ModelPacket<const RECORD: usize> =
    fn(Bug, &mut [u8; RECORD], &mut [u8], &[u8], &mut [u8]) -> ([u8; 16], Ending);

/// Everything that one of the two sides has.
pub(crate) struct Side {
    pub record: Guarded,
    pub image: Guarded,
    pub data: Guarded,
    pub answer: Guarded,
}

impl Side {
    pub fn new(record: &[u8]) -> Side {
        Side {
            record: Guarded::new(record),
            image: Guarded::new(&[]),
            data: Guarded::new(&[]),
            answer: Guarded::new(&UNWRITTEN),
        }
    }

    pub fn guards_hold(&self) -> bool {
        let all = [&self.record, &self.image, &self.data, &self.answer];
        all.iter().all(|part| part.guards_hold())
    }

    /// The first part that is another on the other side.
    pub fn differing_from(&self, other: &Side) -> Option<&'static str> {
        let parts = [
            ("the answer", &self.answer, &other.answer),
            ("the record", &self.record, &other.record),
            ("the image", &self.image, &other.image),
            ("the data buffer", &self.data, &other.data),
        ];
        let differs = |(_, own, its): &(_, &Guarded, &Guarded)| own.bytes() != its.bytes();
        parts.into_iter().find(differs).map(|(what, ..)| what)
    }
}

/// Whether the blocks that a READ copied were marked.
#[derive(Clone, Copy, Debug, PartialEq, Eq, PartialOrd, Ord)]
pub enum Marked {
    Not,
    Partly,
    Wholly,
}

impl Marked {
    /// None where the answer tells of no block.
    fn in_answer(answer: &[u8; 16]) -> Option<Marked> {
        match (long_at(answer, 4), long_at(answer, 12)) {
            (0, _) => None,
            (_, 0) => Some(Marked::Not),
            (copied, marked) if marked < copied => Some(Marked::Partly),
            _ => Some(Marked::Wholly),
        }
    }
}

/// What 1Bh and 1Eh ask for: the low bit of byte 4 decides in both.
#[derive(Clone, Copy, Debug, PartialEq, Eq, PartialOrd, Ord)]
pub enum DoorAsked {
    Unload,
    Load,
    Unlock,
    Lock,
}

impl DoorAsked {
    pub const ALL: [DoorAsked; 4] = [
        DoorAsked::Unload,
        DoorAsked::Load,
        DoorAsked::Unlock,
        DoorAsked::Lock,
    ];

    /// None for every other packet, and for one that is too short.
    fn in_packet(packet: &[u8]) -> Option<DoorAsked> {
        match (*packet.first()?, packet.get(4)? % 2) {
            (opcode::LOAD_UNLOAD, 0) => Some(DoorAsked::Unload),
            (opcode::LOAD_UNLOAD, _) => Some(DoorAsked::Load),
            (opcode::PREVENT_ALLOW, 0) => Some(DoorAsked::Unlock),
            (opcode::PREVENT_ALLOW, _) => Some(DoorAsked::Lock),
            _ => None,
        }
    }
}

/// What packets have shown so far.
#[derive(Default)]
pub struct PacketSeen {
    /// Calls compared.
    pub calls: u64,
    /// By opcode, its variant (SPACE: code and 8 for going back; MODE SENSE: page; MODE SELECT: list length) and ending.
    pub endings: BTreeMap<(u8, u8, Ending), u64>,
    /// Sense triples in the engine's record after CHECK CONDITION.
    pub triples: BTreeSet<[u8; 3]>,
    /// Refusal numbers that the engine gave to packets.
    pub refusals: BTreeMap<u8, u64>,
    /// Numbers that the engine gave to the other calls that answer, by their names.
    pub numbers: BTreeSet<(&'static str, u8)>,
    /// First bytes of packets that passed refusals and attention.
    pub opcodes: BTreeSet<u8>,
    /// READs that copied blocks, by their ending and by whether the blocks were marked.
    pub reads: BTreeMap<(Ending, Marked), u64>,
    /// What was asked of the door, by the record before it (1 loaded, 2 locked, 3 both) and by its ending.
    pub doors: BTreeMap<(DoorAsked, u8, Ending), u64>,
}

impl PacketSeen {
    /// Notes a packet by the record before it, the one after it, and its answer.
    pub(crate) fn note(
        &mut self,
        packet: &[u8],
        before: &[u8],
        after: &[u8],
        answer: &[u8; 16],
        ending: Ending,
    ) {
        if answer[0] != 0 {
            *self.refusals.entry(answer[0]).or_default() += 1;
        } else if answer[1] != 0 {
            self.triples.insert([after[8], after[9], after[10]]);
        }
        let Some(&opcode) = packet.first() else {
            return;
        };
        let early = matches!(
            ending,
            Ending::Refused(1..=3 | 9 | 10) | Ending::MediumChanged | Ending::WasReset
        );
        if !early {
            self.opcodes.insert(opcode);
        }
        let key = (opcode, variant_of(packet), ending);
        *self.endings.entry(key).or_default() += 1;
        if let (opcode::READ, Some(marked)) = (opcode, Marked::in_answer(answer)) {
            *self.reads.entry((ending, marked)).or_default() += 1;
        }
        if let Some(asked) = DoorAsked::in_packet(packet) {
            let door = before[4] % 4;
            *self.doors.entry((asked, door, ending)).or_default() += 1;
        }
    }
}

/// A session over one image, of a device whose record has `RECORD` bytes.
pub struct ImageBench<const RECORD: usize> {
    pub(crate) bug: Bug,
    pub(crate) engine: Side,
    pub(crate) model: Side,
    engine_packet: EnginePacket<RECORD>,
    model_packet: ModelPacket<RECORD>,
    packet: Guarded,
    record_before: [u8; RECORD],
    /// The image as it was before a call, kept up where a call stores.
    image_before: Vec<u8>,
    pub origin: Origin,
    pub seen: PacketSeen,
}

impl<const RECORD: usize> ImageBench<RECORD> {
    pub(crate) fn of_device(
        engine_packet: EnginePacket<RECORD>,
        model_packet: ModelPacket<RECORD>,
        bug: Bug,
        seed: u64,
    ) -> ImageBench<RECORD> {
        ImageBench {
            bug,
            engine: Side::new(&[0; RECORD]),
            model: Side::new(&[0; RECORD]),
            engine_packet,
            model_packet,
            packet: Guarded::new(&[]),
            record_before: [0; RECORD],
            image_before: Vec::new(),
            origin: Origin {
                seed,
                ..Origin::default()
            },
            seen: PacketSeen::default(),
        }
    }

    /// Begins a session: both sides get this record and this image.
    pub fn begin(&mut self, record: &[u8; RECORD], image: &[u8]) {
        self.origin.session += 1;
        self.set_record(record);
        self.set_image(image);
    }

    pub fn record(&self) -> &[u8; RECORD] {
        self.engine.record.array()
    }

    pub fn image(&self) -> &[u8] {
        self.engine.image.bytes()
    }

    /// The data buffer after the last packet.
    pub fn data(&self) -> &[u8] {
        self.engine.data.bytes()
    }

    /// The answer to the last packet, or to another call that answers.
    pub fn answer(&self) -> &[u8; 16] {
        self.engine.answer.array()
    }

    pub fn set_record(&mut self, record: &[u8; RECORD]) {
        self.engine.record.set(record);
        self.model.record.set(record);
    }

    pub fn set_image(&mut self, image: &[u8]) {
        self.engine.image.set(image);
        self.model.image.set(image);
        self.keep_image();
    }

    /// Changes bytes of the image on both sides.
    pub fn edit_image(&mut self, edit: impl Fn(&mut [u8])) {
        edit(self.engine.image.bytes_mut());
        edit(self.model.image.bytes_mut());
        self.keep_image();
    }

    /// The record as it was before the last call.
    pub(crate) fn record_before(&self) -> &[u8; RECORD] {
        &self.record_before
    }

    /// The image as it was before the last call, until it is kept anew.
    pub(crate) fn image_before(&self) -> &[u8] {
        &self.image_before
    }

    pub(crate) fn keep_image(&mut self) {
        self.image_before.clear();
        self.image_before
            .extend_from_slice(self.engine.image.bytes());
    }

    /// Sends one packet to both sides and compares record, image, buffer, answer and guards.
    pub fn send(&mut self, packet: &[u8], data: &[u8]) -> Result<Ending, Box<Difference>> {
        self.packet.set(packet);
        self.engine.data.set(data);
        self.model.data.set(data);
        self.forget_answers();
        self.start_call();
        (self.engine_packet)(
            self.engine.record.array_mut(),
            self.engine.image.bytes_mut(),
            self.packet.bytes(),
            self.engine.data.bytes_mut(),
            self.engine.answer.array_mut(),
        );
        let Some(ending) = self.ask_model(packet) else {
            return Err(self.difference("that the model gave up", "packet", data));
        };
        self.compare("packet", data)?;
        if self.packet.bytes() != packet || !self.packet.guards_hold() {
            return Err(self.difference("the packet's own bytes", "packet", data));
        }
        let stored = self.engine.answer.bytes()[4..8] != [0; 4] && packet[0] != opcode::READ;
        if stored {
            self.keep_image();
        }
        self.seen.note(
            packet,
            &self.record_before,
            self.engine.record.bytes(),
            self.engine.answer.array(),
            ending,
        );
        Ok(ending)
    }

    fn ask_model(&mut self, packet: &[u8]) -> Option<Ending> {
        let side = &mut self.model;
        let bug = self.bug;
        let call = self.model_packet;
        let (answer, ending) = caught(bug, || {
            call(
                bug,
                side.record.array_mut(),
                side.image.bytes_mut(),
                packet,
                side.data.bytes_mut(),
            )
        })?;
        self.model.answer.set(&answer);
        Some(ending)
    }

    pub(crate) fn forget_answers(&mut self) {
        self.engine.answer.set(&UNWRITTEN);
        self.model.answer.set(&UNWRITTEN);
    }

    pub(crate) fn start_call(&mut self) {
        self.origin.call += 1;
        self.seen.calls += 1;
        self.record_before = *self.engine.record.array();
    }

    pub(crate) fn compare(&self, call: &str, data_before: &[u8]) -> Result<(), Box<Difference>> {
        let what = match self.engine.differing_from(&self.model) {
            Some(part) => part,
            None if !self.engine.guards_hold() => "the bytes around a buffer",
            None => return Ok(()),
        };
        Err(self.difference(what, call, data_before))
    }

    fn difference(&self, what: &str, call: &str, data_before: &[u8]) -> Box<Difference> {
        let difference = Difference::new(self.origin, what, call)
            .with("packet", self.packet.bytes())
            .with("record before", &self.record_before)
            .with("image before", &self.image_before)
            .with("data before", data_before)
            .with("engine's answer", self.engine.answer.bytes())
            .with("model's answer", self.model.answer.bytes())
            .with("engine's record", self.engine.record.bytes())
            .with("model's record", self.model.record.bytes())
            .with_both("image", self.engine.image.bytes(), self.model.image.bytes())
            .with_both("data", self.engine.data.bytes(), self.model.data.bytes());
        Box::new(difference)
    }
}

fn variant_of(packet: &[u8]) -> u8 {
    if packet.len() != 12 {
        return 0;
    }
    match packet[0] {
        opcode::SPACE => packet[1] % 8 + 8 * (packet[2] / 128),
        opcode::MODE_SELECT => packet[4],
        opcode::MODE_SENSE => packet[2] % 64,
        _ => 0,
    }
}
