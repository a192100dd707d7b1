//! The packet drive with a filemark index (02, A4), engine and model side by side, and beside them the engine's plain packet drive.

use std::collections::BTreeMap;

use model::packet::Ending;
use model::{Bug, Header};
use tapecard::bytes::{long_at, opcode};
use tapecard::index::{ENTRY_LENGTH, places};
use tapecard::raw;

use crate::caught::caught;
use crate::image_bench::{Side, UNWRITTEN};
use crate::{Difference, Guarded, Origin, PacketSeen, StreamBench};

/// What a packet has made of the entries.
#[derive(Clone, Copy, Debug, PartialEq, Eq, PartialOrd, Ord)]
pub enum Entries {
    Kept,
    Added,
    Dropped,
    /// Some dropped and some added.
    Replaced,
}

impl Entries {
    pub const ALL: [Entries; 4] = [
        Entries::Kept,
        Entries::Added,
        Entries::Dropped,
        Entries::Replaced,
    ];

    fn between(before: &[u8], after: &[u8]) -> Entries {
        let [before, after] = [before, after].map(|index| places(index).collect::<Vec<u32>>());
        let dropped = before.iter().any(|place| !after.contains(place));
        let added = after.iter().any(|place| !before.contains(place));
        match (dropped, added) {
            (false, false) => Entries::Kept,
            (false, true) => Entries::Added,
            (true, false) => Entries::Dropped,
            (true, true) => Entries::Replaced,
        }
    }
}

/// A session of the packet drive over one image and its index.
pub struct IndexBench {
    bug: Bug,
    engine: Side,
    engine_index: Guarded,
    model: Side,
    model_index: Guarded,
    /// The engine's packet drive that knows of no index.
    plain: Side,
    packet: Guarded,
    record_before: [u8; 16],
    /// The image as it was before a call, kept up where a call stores.
    image_before: Vec<u8>,
    index_before: Vec<u8>,
    /// Bytes lent beyond the index.
    beyond: usize,
    /// Whether an index is made again for every other image.
    follows_image: bool,
    /// Whether that is still to be done.
    due: bool,
    pub origin: Origin,
    pub seen: PacketSeen,
    /// What packets made of the entries, by opcode.
    pub entries: BTreeMap<(u8, Entries), u64>,
}

impl IndexBench {
    pub fn new(bug: Bug, seed: u64) -> IndexBench {
        IndexBench {
            bug,
            engine: Side::new(&[0; 16]),
            engine_index: Guarded::new(&[]),
            model: Side::new(&[0; 16]),
            model_index: Guarded::new(&[]),
            plain: Side::new(&[0; 16]),
            packet: Guarded::new(&[]),
            record_before: [0; 16],
            image_before: Vec::new(),
            index_before: Vec::new(),
            beyond: 0,
            follows_image: true,
            due: false,
            origin: Origin {
                seed,
                ..Origin::default()
            },
            seen: PacketSeen::default(),
            entries: BTreeMap::new(),
        }
    }

    pub fn index(&self) -> &[u8] {
        self.engine_index.bytes()
    }

    /// The data buffer after the last packet.
    pub fn data(&self) -> &[u8] {
        self.engine.data.bytes()
    }

    /// Lends this index from now on, whatever the image says.
    pub fn set_index(&mut self, index: &[u8]) {
        self.follows_image = false;
        self.due = false;
        self.engine_index.set(index);
        self.model_index.set(index);
    }

    /// Lends an index that is made for every image, with so many bytes beyond it.
    pub fn follow_image(&mut self, beyond: usize) {
        self.follows_image = true;
        self.due = true;
        self.beyond = beyond;
    }

    /// Makes the index that is due, over bytes that say nothing; an image that is not taken leaves the one that there is.
    pub fn make_due(&mut self) -> Result<(), Box<Difference>> {
        if !self.due {
            return Ok(());
        }
        if let Some(header) = Header::of(self.engine.image.bytes()) {
            let length = ENTRY_LENGTH * header.capacity as usize + self.beyond;
            let unmade = vec![self.origin.call as u8; length];
            self.engine_index.set(&unmade);
            self.model_index.set(&unmade);
        }
        self.due = false;
        self.make()?;
        Ok(())
    }

    /// Makes the index afresh on both sides and compares everything; the number answered.
    pub fn make(&mut self) -> Result<u8, Box<Difference>> {
        self.forget_answers();
        self.start_call();
        raw::index_make(
            self.engine.image.bytes(),
            self.engine_index.bytes_mut(),
            self.engine.answer.array_mut(),
        );
        let (bug, image) = (self.bug, self.model.image.bytes());
        let index = self.model_index.bytes_mut();
        let Some(answer) = caught(bug, || model::index::make_with(bug, image, index)) else {
            return Err(self.difference("that the model gave up", "make", &[]));
        };
        self.model.answer.set(&answer);
        self.compare("make", &[])?;
        let number = self.engine.answer.bytes()[0];
        if number != 0 && self.index() != self.index_before {
            return Err(self.broken("a refused make has changed the index", "make", &[]));
        }
        self.seen.numbers.insert(("make", number));
        Ok(number)
    }

    fn ask_engine(&mut self) {
        raw::index_packet(
            self.engine.record.array_mut(),
            self.engine.image.bytes_mut(),
            self.engine_index.bytes_mut(),
            self.packet.bytes(),
            self.engine.data.bytes_mut(),
            self.engine.answer.array_mut(),
        );
    }

    fn ask_model(&mut self, packet: &[u8]) -> Option<Ending> {
        let (bug, side) = (self.bug, &mut self.model);
        let index = self.model_index.bytes_mut();
        let (answer, ending) = caught(bug, || {
            model::index::packet_with(
                bug,
                side.record.array_mut(),
                side.image.bytes_mut(),
                index,
                packet,
                side.data.bytes_mut(),
            )
        })?;
        self.model.answer.set(&answer);
        Some(ending)
    }

    /// The same packet without an index, where the index was not refused: "the same answer, sense and position as without it".
    fn ask_plain(&mut self, data: &[u8]) -> Result<(), Box<Difference>> {
        let plain = &mut self.plain;
        plain.data.set(data);
        plain.answer.set(&UNWRITTEN);
        raw::packet(
            plain.record.array_mut(),
            plain.image.bytes_mut(),
            self.packet.bytes(),
            plain.data.bytes_mut(),
            plain.answer.array_mut(),
        );
        let engine = &self.engine;
        let alike = plain.answer.bytes() == engine.answer.bytes()
            && plain.record.bytes() == engine.record.bytes()
            && plain.image.bytes() == engine.image.bytes()
            && plain.data.bytes() == engine.data.bytes();
        if alike {
            return Ok(());
        }
        Err(self.broken(
            "without the index the engine does otherwise",
            "packet",
            data,
        ))
    }

    /// "After every packet not refused it equals the index made afresh from the image", "and bytes beyond stay."
    fn index_is_fresh(&self) -> bool {
        let mut fresh = self.index_before.clone();
        let mut answer = UNWRITTEN;
        raw::index_make(self.engine.image.bytes(), &mut fresh, &mut answer);
        answer[0] == 0 && fresh == self.index()
    }

    fn nothing_is_altered(&self, data: &[u8]) -> bool {
        let engine = &self.engine;
        engine.record.bytes() == self.record_before
            && engine.image.bytes() == self.image_before
            && self.index() == self.index_before
            && engine.data.bytes() == data
    }

    /// What holds of every answer, whatever the model says.
    fn keeps_the_rules(&mut self, data: &[u8]) -> Result<(), Box<Difference>> {
        let number = self.engine.answer.bytes()[0];
        if number == 0 && !self.index_is_fresh() {
            return Err(self.broken("the index is not the image's", "packet", data));
        }
        if number != 0 && !self.nothing_is_altered(data) {
            return Err(self.broken("a refused packet has changed something", "packet", data));
        }
        if number != 9 && number != 10 {
            self.ask_plain(data)?;
        }
        Ok(())
    }

    fn sides(&mut self) -> [&mut Side; 3] {
        [&mut self.engine, &mut self.model, &mut self.plain]
    }

    fn forget_answers(&mut self) {
        self.engine.answer.set(&UNWRITTEN);
        self.model.answer.set(&UNWRITTEN);
    }

    fn start_call(&mut self) {
        self.origin.call += 1;
        self.seen.calls += 1;
        self.record_before = *self.engine.record.array();
        self.index_before.clear();
        self.index_before
            .extend_from_slice(self.engine_index.bytes());
    }

    fn image_is_another(&mut self) {
        self.image_before.clear();
        self.image_before
            .extend_from_slice(self.engine.image.bytes());
    }

    fn compare(&self, call: &str, data_before: &[u8]) -> Result<(), Box<Difference>> {
        let guards_hold = self.engine.guards_hold() && self.engine_index.guards_hold();
        let what = match self.engine.differing_from(&self.model) {
            Some(part) => part,
            None if self.engine_index.bytes() != self.model_index.bytes() => "the index",
            None if !guards_hold => "the bytes around a buffer",
            None => return Ok(()),
        };
        Err(self.difference(what, call, data_before))
    }

    fn difference(&self, what: &str, call: &str, data_before: &[u8]) -> Box<Difference> {
        self.case(Difference::new(self.origin, what, call), data_before)
    }

    fn broken(&self, sentence: &str, call: &str, data_before: &[u8]) -> Box<Difference> {
        let difference = Difference::told(sentence, self.origin, call);
        let plain = &self.plain;
        let case = self
            .case(difference, data_before)
            .with("answer without the index", plain.answer.bytes())
            .with("record without the index", plain.record.bytes());
        Box::new(case)
    }

    fn case(&self, difference: Difference, data_before: &[u8]) -> Box<Difference> {
        let (engine, model) = (&self.engine, &self.model);
        let case = difference
            .with("packet", self.packet.bytes())
            .with("record before", &self.record_before)
            .with("image before", &self.image_before)
            .with("index before", &self.index_before)
            .with("data before", data_before)
            .with("engine's answer", engine.answer.bytes())
            .with("model's answer", model.answer.bytes())
            .with("engine's record", engine.record.bytes())
            .with("model's record", model.record.bytes())
            .with("engine's index", self.index())
            .with_both("image", engine.image.bytes(), model.image.bytes())
            .with_both("index", self.index(), self.model_index.bytes())
            .with_both("data", engine.data.bytes(), model.data.bytes());
        Box::new(case)
    }

    fn note(&mut self, packet: &[u8], ending: Ending) {
        let answer = *self.engine.answer.array();
        self.seen.note(
            packet,
            &self.record_before,
            self.engine.record.bytes(),
            &answer,
            ending,
        );
        if answer[0] == 0 {
            let end = ENTRY_LENGTH * long_at(self.engine.image.bytes(), 4) as usize;
            let entries = Entries::between(&self.index_before[..end], &self.index()[..end]);
            *self.entries.entry((packet[0], entries)).or_default() += 1;
        }
    }
}

impl StreamBench for IndexBench {
    fn seen(&self) -> &PacketSeen {
        &self.seen
    }

    fn record(&self) -> &[u8; 16] {
        self.engine.record.array()
    }

    fn image(&self) -> &[u8] {
        self.engine.image.bytes()
    }

    fn answer(&self) -> &[u8; 16] {
        self.engine.answer.array()
    }

    fn begin(&mut self, record: &[u8; 16], image: &[u8]) {
        self.origin.session += 1;
        self.set_record(record);
        self.set_image(image);
    }

    fn set_record(&mut self, record: &[u8; 16]) {
        for side in self.sides() {
            side.record.set(record);
        }
    }

    fn set_image(&mut self, image: &[u8]) {
        for side in self.sides() {
            side.image.set(image);
        }
        self.image_is_another();
        self.due = self.follows_image;
    }

    fn edit_image(&mut self, edit: impl Fn(&mut [u8])) {
        for side in self.sides() {
            edit(side.image.bytes_mut());
        }
        self.image_is_another();
        self.due = self.follows_image;
    }

    /// No index is looked at; the plain drive's record is made fresh too.
    fn fresh(&mut self) -> Result<(), Box<Difference>> {
        self.start_call();
        raw::fresh(self.engine.record.array_mut());
        raw::fresh(self.plain.record.array_mut());
        model::packet::fresh_with(self.bug, self.model.record.array_mut());
        self.compare("fresh", &[])
    }

    fn change(&mut self) -> Result<(), Box<Difference>> {
        self.start_call();
        raw::change(self.engine.record.array_mut());
        raw::change(self.plain.record.array_mut());
        model::packet::change_with(self.bug, self.model.record.array_mut());
        self.compare("change", &[])
    }

    fn send(&mut self, packet: &[u8], data: &[u8]) -> Result<Ending, Box<Difference>> {
        self.make_due()?;
        self.packet.set(packet);
        self.engine.data.set(data);
        self.model.data.set(data);
        self.forget_answers();
        self.start_call();
        self.ask_engine();
        let Some(ending) = self.ask_model(packet) else {
            return Err(self.difference("that the model gave up", "packet", data));
        };
        self.compare("packet", data)?;
        if self.packet.bytes() != packet || !self.packet.guards_hold() {
            return Err(self.difference("the packet's own bytes", "packet", data));
        }
        self.keeps_the_rules(data)?;
        let stored = self.engine.answer.bytes()[4..8] != [0; 4] && packet[0] != opcode::READ;
        if stored {
            self.image_is_another();
        }
        self.note(packet, ending);
        Ok(ending)
    }
}
