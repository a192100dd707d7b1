//! README: an independent drive, plain and slow, written from the requirements alone, on the same bytes as the proved engines.
//!
//! [`packet`] is the packet drive, [`index`] the same with a filemark index beside its image, [`floppy`] the floppy tape device,
//! [`exchange`] an image written out as a SIMH tape file and one read in, and [`pulse`] the pulse drive. The code follows the
//! requirements' order and quotes their sentences, one element and one tick at a time, so that a difference between engine and model
//! can be settled by reading. [`Bug`] plants a known mistake, to show that the comparison would find it; [`Bug::None`] is the drive
//! itself.

mod bug;
mod bytes;
mod commands;
mod door;
pub mod exchange;
pub mod floppy;
mod image;
pub mod index;
pub mod packet;
pub mod pulse;
mod reading;
mod record;
mod reply;

pub use bug::Bug;
pub use image::Header;
