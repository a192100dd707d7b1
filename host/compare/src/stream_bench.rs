//! What sessions of packets ask of a bench of the stream device, be it with a filemark index or without.

use model::packet::Ending;

use crate::{Difference, PacketBench, PacketSeen};

/// Engine and model of the stream device over one image, side by side.
pub trait StreamBench {
    fn seen(&self) -> &PacketSeen;
    fn record(&self) -> &[u8; 16];
    fn image(&self) -> &[u8];
    /// The answer to the last packet.
    fn answer(&self) -> &[u8; 16];

    /// Begins a session: both sides get this record and this image.
    fn begin(&mut self, record: &[u8; 16], image: &[u8]);
    fn set_record(&mut self, record: &[u8; 16]);
    fn set_image(&mut self, image: &[u8]);
    /// Changes bytes of the image on both sides.
    fn edit_image(&mut self, edit: impl Fn(&mut [u8]));

    /// Makes both records fresh and compares them.
    fn fresh(&mut self) -> Result<(), Box<Difference>>;
    /// Changes the cartridge on both sides and compares them.
    fn change(&mut self) -> Result<(), Box<Difference>>;
    /// Sends one packet to both sides and compares everything.
    fn send(&mut self, packet: &[u8], data: &[u8]) -> Result<Ending, Box<Difference>>;
}

/// Each by the bench's own method of the same name.
impl StreamBench for PacketBench {
    fn seen(&self) -> &PacketSeen {
        &self.seen
    }

    fn record(&self) -> &[u8; 16] {
        self.record()
    }

    fn image(&self) -> &[u8] {
        self.image()
    }

    fn answer(&self) -> &[u8; 16] {
        self.answer()
    }

    fn begin(&mut self, record: &[u8; 16], image: &[u8]) {
        self.begin(record, image);
    }

    fn set_record(&mut self, record: &[u8; 16]) {
        self.set_record(record);
    }

    fn set_image(&mut self, image: &[u8]) {
        self.set_image(image);
    }

    fn edit_image(&mut self, edit: impl Fn(&mut [u8])) {
        self.edit_image(edit);
    }

    fn fresh(&mut self) -> Result<(), Box<Difference>> {
        self.fresh()
    }

    fn change(&mut self) -> Result<(), Box<Difference>> {
        self.change()
    }

    fn send(&mut self, packet: &[u8], data: &[u8]) -> Result<Ending, Box<Difference>> {
        self.send(packet, data)
    }
}
