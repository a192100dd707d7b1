//! The interface in bytes, safe but untyped: records, answers and descriptions as the layouts have them.

pub use crate::ffi::{
    change, export, floppy_change, floppy_fresh, floppy_packet, fresh, import, index_make,
    index_packet, packet, pulse_insert, pulse_power_on, pulse_remove, pulse_tick, pulse_train,
    pulse_trains, pulse_wait,
};

/// Bytes of the stream device's packet record.
pub const PACKET_RECORD: usize = 16;
/// Bytes of the floppy device's packet record.
pub const FLOPPY_RECORD: usize = 32;
/// Bytes of a packet answer, whichever device gave it.
pub const PACKET_ANSWER: usize = 16;
/// Bytes of a pulse record.
pub const PULSE_RECORD: usize = 32;
/// Bytes of a pulse answer.
pub const PULSE_ANSWER: usize = 8;
/// Bytes of a cartridge description.
pub const CARTRIDGE: usize = 8;
