//! Whose record a file holds: it says so by its length, and where two drives have one length by what is in it.

use std::path::Path;

use tapecard::{Device, floppy, pulse};

use crate::command_line::failure::Failure;
use crate::tape::header::LARGEST_CAPACITY;
use crate::words;

/// Refuses a record that another drive has left.
pub fn judge(path: &Path, device: Device, bytes: &[u8]) -> Result<(), Failure> {
    match owner_seen_in(bytes) {
        Some(owner) if owner != device => Err(Failure::work(format!(
            "{} holds a record of the {owner} ({}), not of the {device}; name another file, or remove it to start afresh",
            words::shown(path),
            command_of(owner)
        ))),
        _ => Ok(()),
    }
}

/// Records of the floppy device and of the pulse drive have one length, and to write one over the other would lose it.
///
/// Where the floppy device has BSEG, SEGTRK and TRKS the pulse drive has the bits of an open report and the arguments of a command
/// that waits. It never has both, so only the floppy device leaves numbers in all three.
fn owner_seen_in(bytes: &[u8]) -> Option<Device> {
    let bytes: [u8; 32] = bytes.try_into().ok()?;
    let (floppy, mut pulse) = (floppy::Record(bytes), pulse::Record(bytes));
    let blocks = floppy.tape().product();
    if (1..=LARGEST_CAPACITY.into()).contains(&blocks) && u64::from(floppy.position()) <= blocks {
        return Some(Device::Floppy);
    }
    pulse.tick().is_ok().then_some(Device::Pulse)
}

/// A file whose length is not that of this device's record.
pub fn wrong_length(path: &Path, device: Device, length: u64) -> Failure {
    let all = [Device::Stream, Device::Floppy, Device::Pulse];
    let fits = all
        .iter()
        .filter(|other| other.record_length() as u64 == length);
    let owners: Vec<String> = fits
        .map(|owner| format!("of the {owner} ({})", command_of(*owner)))
        .collect();
    let guess = match owners.is_empty() {
        true => String::new(),
        false => format!(": it may be one {}", owners.join(" or ")),
    };
    Failure::work(format!(
        "{} has {} and a record of the {device} has {}{guess}; name another file, or remove it to start afresh",
        words::shown(path),
        words::count(length, "byte"),
        device.record_length()
    ))
}

/// The command that keeps records of this device.
fn command_of(device: Device) -> &'static str {
    match device {
        Device::Stream | Device::Exchange => "tapecard packet --device stream",
        Device::Floppy => "tapecard packet --device floppy",
        Device::Pulse => "tapecard pulse",
    }
}
