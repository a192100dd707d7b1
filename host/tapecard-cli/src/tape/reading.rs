//! Blocks read from the tape, around those that cannot be read.

use crate::command_line::failure::Failure;
use crate::tape::drive::{CHUNK, Drive, Ended};
use crate::tape::packets;
use crate::terminal::progress::Progress;

/// So many blocks from a place on.
#[derive(Clone, Copy, Debug, PartialEq, Eq)]
pub struct Blocks {
    pub place: u32,
    pub blocks: u32,
}

pub struct Bytes {
    /// In whole blocks, zeros where one could not be read.
    pub bytes: Vec<u8>,
    /// The places of the unreadable ones.
    pub missing: Vec<u32>,
    /// How many of the others are marked.
    pub marked: u32,
}

pub fn read(drive: &mut Drive, wanted: Blocks, progress: &mut Progress) -> Result<Bytes, Failure> {
    let size = drive.block_size();
    let mut bytes = vec![0; wanted.blocks as usize * size];
    let mut missing = Vec::new();
    let mut marked = 0;
    let mut done = 0;
    drive.order(&packets::locate(wanted.place))?;
    while done < wanted.blocks {
        let asked = CHUNK.min(wanted.blocks - done);
        let room = &mut bytes[done as usize * size..][..asked as usize * size];
        let read = drive.send(&packets::read(asked), room)?;
        done += read.blocks;
        marked += read.marked;
        match read.ended {
            Ended::Good => {}
            Ended::Unreadable => {
                missing.push(wanted.place + done);
                done += 1;
            }
            _ => return Err(drive.unexpected()),
        }
        progress.advance(u64::from(asked.min(read.blocks + 1)));
    }
    Ok(Bytes {
        bytes,
        missing,
        marked,
    })
}
