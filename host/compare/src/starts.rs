//! The two calls that begin, by one name for both packet devices.

use crate::{FloppyBench, PacketBench, agree};

/// Over an image that the device takes, engine and model agreeing.
pub trait Starts {
    /// Makes the record fresh.
    fn make_fresh(&mut self);
    /// Changes the cartridge.
    fn change_cartridge(&mut self);
}

impl Starts for PacketBench {
    fn make_fresh(&mut self) {
        agree(self.fresh());
    }

    fn change_cartridge(&mut self) {
        agree(self.change());
    }
}

impl Starts for FloppyBench {
    fn make_fresh(&mut self) {
        assert_eq!(agree(self.fresh()), 0);
    }

    fn change_cartridge(&mut self) {
        assert_eq!(agree(self.change()), 0);
    }
}
