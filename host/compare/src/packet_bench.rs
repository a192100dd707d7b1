//! The packet drive, engine and model side by side.

use model::Bug;
use tapecard::raw;

use crate::Difference;
use crate::image_bench::ImageBench;

/// A session of the packet drive over one image.
pub type PacketBench = ImageBench<{ raw::PACKET_RECORD }>;

impl PacketBench {
    pub fn new(bug: Bug, seed: u64) -> PacketBench {
        ImageBench::of_device(raw::packet, model::packet::packet_with, bug, seed)
    }

    /// Makes both records fresh and compares them.
    pub fn fresh(&mut self) -> Result<(), Box<Difference>> {
        self.start_call();
        raw::fresh(self.engine.record.array_mut());
        model::packet::fresh_with(self.bug, self.model.record.array_mut());
        self.compare("fresh", &[])
    }

    /// Changes the cartridge on both sides and compares them.
    pub fn change(&mut self) -> Result<(), Box<Difference>> {
        self.start_call();
        raw::change(self.engine.record.array_mut());
        model::packet::change_with(self.bug, self.model.record.array_mut());
        self.compare("change", &[])
    }
}
