//! The floppy tape device, engine and model side by side.

use model::Bug;
use tapecard::raw;

use crate::Difference;
use crate::image_bench::ImageBench;

/// A session of the floppy tape device over one image.
pub type FloppyBench = ImageBench<{ raw::FLOPPY_RECORD }>;

/// A call over a record and an image that is only read, with an answer.
type EngineStart = fn(&mut [u8; raw::FLOPPY_RECORD], &[u8], &mut [u8; 16]);
type ModelStart = fn(Bug, &mut [u8; raw::FLOPPY_RECORD], &[u8]) -> [u8; 16];

impl FloppyBench {
    pub fn new(bug: Bug, seed: u64) -> FloppyBench {
        ImageBench::of_device(raw::floppy_packet, model::floppy::packet_with, bug, seed)
    }

    /// Makes both records fresh and compares everything; the number answered.
    pub fn fresh(&mut self) -> Result<u8, Box<Difference>> {
        self.start("fresh", raw::floppy_fresh, model::floppy::fresh_with)
    }

    /// Changes the cartridge to the image on both sides and compares everything; the number answered.
    pub fn change(&mut self) -> Result<u8, Box<Difference>> {
        self.start("change", raw::floppy_change, model::floppy::change_with)
    }

    fn start(
        &mut self,
        name: &'static str,
        engine_call: EngineStart,
        model_call: ModelStart,
    ) -> Result<u8, Box<Difference>> {
        self.forget_answers();
        self.start_call();
        let engine = &mut self.engine;
        engine_call(
            engine.record.array_mut(),
            engine.image.bytes(),
            engine.answer.array_mut(),
        );
        let model = &mut self.model;
        let answer = model_call(self.bug, model.record.array_mut(), model.image.bytes());
        model.answer.set(&answer);
        self.compare(name, &[])?;
        let number = self.answer()[0];
        self.seen.numbers.insert((name, number));
        Ok(number)
    }
}
