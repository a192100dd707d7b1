//! README: the drive card's proved engines, a packet drive (two devices) and a pulse drive, as safe Rust types over the archive
//! `libtapecard.a` (made by `make archive`).
//!
//! [`packet`] answers 12-byte command packets over a lent cartridge image, as the stream device; [`floppy`] answers them as the
//! floppy device, blocks by number. [`index`] is the stream device with an index of the filemarks beside the image. [`exchange`] writes
//! an image out as a SIMH tape file and reads one in. [`pulse`] turns a pulse drive's record into the next by trains, one or a list of
//! them, ticks, insertion and removal. A call that is refused says so by a [`Refusal`] and changes nothing. [`sense_words`] puts
//! statuses and sense triples into words. [`bytes`] names opcodes, sense triples and trains, and reads and stores the numbers beside
//! them. [`raw`] is the interface in bytes, for tests and tools that look at whole answers.
//!
//! ```no_run
//! use tapecard::bytes::opcode;
//! use tapecard::packet::{Record, packet};
//!
//! let mut image = std::fs::read("cartridge.img").expect("an image");
//! let mut record = Record::fresh();
//! let mut room = [0; 36];
//! let answer = packet(&mut record, &mut image, &[opcode::INQUIRY, 0, 0, 0, 36, 0, 0, 0, 0, 0, 0, 0], &mut room)?;
//! assert_eq!(&room[8..16], b"TYPEHAUS");
//! assert_eq!(answer.bytes, 36);
//! # Ok::<(), tapecard::Refusal>(())
//! ```

pub mod bytes;
mod device;
pub mod exchange;
mod ffi;
pub mod floppy;
pub mod index;
pub mod packet;
pub mod pulse;
pub mod raw;
mod refusal;
pub mod sense_words;

pub use device::Device;
pub use refusal::Refusal;
