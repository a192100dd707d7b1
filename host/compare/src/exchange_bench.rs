//! Tape files (02, A7) written out and read in, engine and model side by side, and beside them what holds of the engine alone.

use std::collections::BTreeMap;

use model::Bug;
use model::packet::Ending;
use tapecard::bytes::{kind, long_at, put_long};
use tapecard::{exchange, raw};

use crate::caught::caught;
use crate::image_bench::UNWRITTEN;
use crate::{Difference, Guarded, PacketBench};

const RECORDED_AT: usize = 8;

/// Which of the two calls.
#[derive(Clone, Copy, Debug, PartialEq, Eq, PartialOrd, Ord)]
pub enum Exchange {
    Export,
    Import,
}

/// Where a file that was taken ends.
#[derive(Clone, Copy, Debug, PartialEq, Eq, PartialOrd, Ord)]
pub enum FileEnd {
    /// With its last item: it has no end mark.
    Unmarked,
    Marked,
    /// Bytes follow its end mark.
    MarkedAmid,
}

impl FileEnd {
    pub const ALL: [FileEnd; 3] = [FileEnd::Unmarked, FileEnd::Marked, FileEnd::MarkedAmid];

    fn of(file: &[u8], used: usize) -> FileEnd {
        let mark = exchange::END_MARK.to_le_bytes();
        match (file[..used].ends_with(&mark), used < file.len()) {
            (_, true) => FileEnd::MarkedAmid,
            // No record ends with these bytes: its last word is its length.
            (true, false) => FileEnd::Marked,
            (false, false) => FileEnd::Unmarked,
        }
    }
}

/// What tape files have shown so far.
#[derive(Default)]
pub struct ExchangeSeen {
    /// Numbers that the engine gave, by call.
    pub numbers: BTreeMap<(Exchange, u8), u64>,
    /// Ends of the files that were taken.
    pub ends: BTreeMap<FileEnd, u64>,
    /// Elements of the images after an import that was taken, by their kinds.
    pub stored: BTreeMap<u8, u64>,
    /// Imports that left U smaller (-1), as it was (0) or larger (1).
    pub recorded: BTreeMap<i8, u64>,
    /// Elements of imported files that READ brought back.
    pub read_back: BTreeMap<Ending, u64>,
}

/// An image, a file and the stream device's record.
pub struct ExchangeBench {
    /// The stream device over the same record and image.
    pub stream: PacketBench,
    engine_file: Guarded,
    model_file: Guarded,
    /// The file, or what the buffer for one held, before the call.
    file_before: Vec<u8>,
    pub seen: ExchangeSeen,
}

impl ExchangeBench {
    pub fn new(bug: Bug, seed: u64) -> ExchangeBench {
        ExchangeBench {
            stream: PacketBench::new(bug, seed),
            engine_file: Guarded::new(&[]),
            model_file: Guarded::new(&[]),
            file_before: Vec::new(),
            seen: ExchangeSeen::default(),
        }
    }

    /// The file after the last call.
    pub fn file(&self) -> &[u8] {
        self.engine_file.bytes()
    }

    /// Writes the image out on both sides, over these bytes, and compares everything; the number answered.
    pub fn export(&mut self, room: &[u8]) -> Result<u8, Box<Difference>> {
        self.start(room);
        raw::export(
            self.stream.engine.image.bytes(),
            self.engine_file.bytes_mut(),
            self.stream.engine.answer.array_mut(),
        );
        let (bug, image) = (self.stream.bug, self.stream.model.image.bytes());
        let file = self.model_file.bytes_mut();
        let answer = caught(bug, || model::exchange::export_with(bug, image, file));
        self.compare("export", answer)?;
        self.export_keeps_the_rules()?;
        Ok(self.noted(Exchange::Export))
    }

    /// Reads this file in on both sides and compares everything; the number answered.
    pub fn import(&mut self, file: &[u8]) -> Result<u8, Box<Difference>> {
        self.start(file);
        let engine = &mut self.stream.engine;
        raw::import(
            engine.record.array_mut(),
            engine.image.bytes_mut(),
            self.engine_file.bytes(),
            engine.answer.array_mut(),
        );
        let (bug, side) = (self.stream.bug, &mut self.stream.model);
        let (record, image) = (side.record.array_mut(), side.image.bytes_mut());
        let answer = caught(bug, || {
            model::exchange::import_with(bug, record, image, file)
        });
        self.compare("import", answer)?;
        self.import_keeps_the_rules()?;
        let number = self.noted(Exchange::Import);
        if number == 0 {
            self.note_import();
        }
        self.stream.keep_image();
        Ok(number)
    }

    fn start(&mut self, file: &[u8]) {
        self.engine_file.set(file);
        self.model_file.set(file);
        self.file_before.clear();
        self.file_before.extend_from_slice(file);
        self.stream.forget_answers();
        self.stream.start_call();
    }

    /// Answers, records, images, files and guards.
    fn compare(&mut self, call: &str, answer: Option<[u8; 16]>) -> Result<(), Box<Difference>> {
        let Some(answer) = answer else {
            return Err(self.difference("that the model gave up", call));
        };
        self.stream.model.answer.set(&answer);
        let engine = &self.stream.engine;
        let guards_hold = engine.guards_hold() && self.engine_file.guards_hold();
        let what = match engine.differing_from(&self.stream.model) {
            Some(part) => part,
            None if self.engine_file.bytes() != self.model_file.bytes() => "the file",
            None if !guards_hold => "the bytes around a buffer",
            None => return Ok(()),
        };
        Err(self.difference(what, call))
    }

    /// What holds of every export, whatever the model says.
    fn export_keeps_the_rules(&self) -> Result<(), Box<Difference>> {
        let engine = &self.stream.engine;
        let answer: &[u8; 16] = engine.answer.array();
        let used = long_at(answer, 8) as usize;
        let broken = if engine.image.bytes() != self.stream.image_before() {
            "an export has changed the image"
        } else if answer[0] != 0 && self.file() != self.file_before {
            "a refused export has changed the file buffer"
        } else if self.file()[used..] != self.file_before[used..] {
            "an export has changed bytes beyond its file"
        } else if answer[0] == 0 && !self.export_comes_back(used) {
            "an exported file does not bring the elements back"
        } else {
            return Ok(());
        };
        Err(self.broken(broken, "export"))
    }

    /// "Export then import returns the elements, marked blocks as plain ones and every unreadable kind as 0."
    fn export_comes_back(&self, used: usize) -> bool {
        let ours = self.stream.engine.image.bytes();
        let mut theirs = emptied(ours);
        let mut answer = UNWRITTEN;
        raw::import(&mut [0; 16], &mut theirs, &self.file()[..used], &mut answer);
        answer[..4] == [0; 4] && theirs == taken_again(ours, &emptied(ours))
    }

    /// What holds of every import, whatever the model says.
    fn import_keeps_the_rules(&self) -> Result<(), Box<Difference>> {
        let engine = &self.stream.engine;
        let (record, image) = (engine.record.bytes(), engine.image.bytes());
        let record_before = self.stream.record_before();
        let image_before = self.stream.image_before();
        let is_refused = engine.answer.bytes()[0] != 0;
        let mut changed = *record_before;
        raw::change(&mut changed);
        let broken = if self.file() != self.file_before {
            "an import has changed the file"
        } else if is_refused && (record != record_before || image != image_before) {
            "a refused import has changed something"
        } else if !is_refused && record != changed {
            "an import has not left the record as a change does"
        } else if !is_refused && !self.import_goes_out_again() {
            "an imported file is not what the image is written out as"
        } else {
            return Ok(());
        };
        Err(self.broken(broken, "import"))
    }

    /// What was taken is written out as the same bytes, with an end mark where it had none.
    fn import_goes_out_again(&self) -> bool {
        let used = long_at(self.stream.answer(), 8) as usize;
        let mark = exchange::END_MARK.to_le_bytes();
        let mut taken = self.file_before[..used].to_vec();
        if FileEnd::of(&self.file_before, used) == FileEnd::Unmarked {
            taken.extend(mark);
        }
        let mut written = vec![0; taken.len()];
        let mut answer = UNWRITTEN;
        raw::export(self.stream.engine.image.bytes(), &mut written, &mut answer);
        answer[0] == 0 && written == taken
    }

    fn noted(&mut self, call: Exchange) -> u8 {
        let number = self.stream.answer()[0];
        *self.seen.numbers.entry((call, number)).or_default() += 1;
        number
    }

    fn note_import(&mut self) {
        let used = long_at(self.stream.answer(), 8) as usize;
        let end = FileEnd::of(&self.file_before, used);
        *self.seen.ends.entry(end).or_default() += 1;
        let image = self.stream.engine.image.bytes();
        let [before, after] =
            [self.stream.image_before(), image].map(|image| long_at(image, RECORDED_AT));
        let growth = after.cmp(&before) as i8;
        *self.seen.recorded.entry(growth).or_default() += 1;
        let kinds_at = long_at(image, 12) as usize;
        for &kind in &image[kinds_at..kinds_at + after as usize] {
            *self.seen.stored.entry(kind).or_default() += 1;
        }
    }

    fn difference(&self, what: &str, call: &str) -> Box<Difference> {
        self.case(Difference::new(self.stream.origin, what, call))
    }

    fn broken(&self, sentence: &str, call: &str) -> Box<Difference> {
        self.case(Difference::told(sentence, self.stream.origin, call))
    }

    fn case(&self, difference: Difference) -> Box<Difference> {
        let (engine, model) = (&self.stream.engine, &self.stream.model);
        let case = difference
            .with("record before", self.stream.record_before())
            .with("image before", self.stream.image_before())
            .with("file before", &self.file_before)
            .with("engine's answer", engine.answer.bytes())
            .with("model's answer", model.answer.bytes())
            .with("engine's record", engine.record.bytes())
            .with("model's record", model.record.bytes())
            .with_both("image", engine.image.bytes(), model.image.bytes())
            .with_both("file", self.file(), self.model_file.bytes());
        Box::new(case)
    }
}

/// The image with nothing recorded and other bytes throughout behind its header.
fn emptied(image: &[u8]) -> Vec<u8> {
    let mut emptied = image.to_vec();
    emptied[32..].iter_mut().for_each(|byte| *byte ^= 0x5A);
    put_long(&mut emptied, RECORDED_AT, 0);
    emptied
}

/// What an import of our elements makes of that image.
fn taken_again(ours: &[u8], emptied: &[u8]) -> Vec<u8> {
    let header = model::Header::of(ours).expect("an image that was written out");
    let size = header.block_size as usize;
    let mut taken = emptied.to_vec();
    put_long(&mut taken, RECORDED_AT, header.recorded);
    for element in 0..header.recorded as usize {
        let kind_at = header.kinds_at as usize + element;
        let at = header.blocks_at as usize + element * size;
        taken[kind_at] = match ours[kind_at] {
            kind::FILEMARK => kind::FILEMARK,
            kind::DATA | kind::MARKED => kind::DATA,
            _ => 0,
        };
        if ours[kind_at] != kind::FILEMARK {
            taken[at..at + size].copy_from_slice(&ours[at..at + size]);
        }
    }
    taken
}
