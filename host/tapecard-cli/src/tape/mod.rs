//! The tape in the drive: packets, the image that they work on, and the files that stand on it.

pub mod catalogue;
pub mod checksum;
pub mod drive;
pub mod header;
pub mod label;
pub mod packets;
pub mod reading;
pub mod stretches;
pub mod strip;
pub mod survey;
