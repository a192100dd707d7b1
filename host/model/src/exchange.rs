//! SIMH tape files (02, A7): "Write ours out and read theirs in."

mod export;
mod import;

pub use export::{export, export_with};
pub use import::{import, import_with};

/// "a little-endian length of four bytes before and after each record".
const WORD_LENGTH: usize = 4;

/// "zero for a tape mark".
const TAPE_MARK: u32 = 0;

/// "FFFFFFFFh for end of medium".
const END_MARK: u32 = 0xFFFF_FFFF;

/// "an unreadable one has the high bit of its length set".
const HIGH_BIT: u32 = 0x8000_0000;
