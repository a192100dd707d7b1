//! What a READ of either packet device copies, and how many of the blocks copied were marked (02, A6).

use crate::bug::Bug;
use crate::commands::{SPACE, WRITE};
use crate::image::{Header, Kind};
use crate::reply::{Ending, Reply};

/// A READ under way.
pub struct Reading {
    bug: Bug,
    header: Header,
    /// The place that it began at.
    from: u32,
    asked: u32,
    copied: u32,
    marked: u32,
}

impl Reading {
    pub fn begun(bug: Bug, header: &Header, from: u32, asked: u32) -> Reading {
        Reading {
            bug,
            header: *header,
            from,
            asked,
            copied: 0,
            marked: 0,
        }
    }

    /// Blocks that are still to be copied: N minus blocks copied.
    pub fn left(&self) -> u32 {
        self.asked - self.copied
    }

    /// Bytes filled in the data buffer.
    pub fn bytes(&self) -> u32 {
        self.copied * self.header.block_size
    }

    /// Copies the block at this place behind those that were copied before.
    pub fn copy(&mut self, image: &[u8], element: u32, data: &mut [u8]) {
        let at = self.bytes() as usize;
        let block = self.header.block(image, element);
        data[at..at + block.len()].copy_from_slice(block);
        self.copied += 1;
        if self.header.kind_of(self.bug, image, element) == Kind::Marked {
            self.marked += 1;
        }
    }

    /// The reply that it ended with, and what was copied.
    pub fn told(&self, image: &[u8], reply: Reply) -> Reply {
        let marked = self.marked_told(image, reply.ending);
        reply
            .with_blocks(self.copied)
            .with_bytes(self.bytes())
            .with_marked(marked)
    }

    // 02, A6: "a READ's answer also says how many of the blocks copied were marked."
    fn marked_told(&self, image: &[u8], ending: Ending) -> u32 {
        let end_of_asked = (self.from + self.asked).min(self.header.capacity);
        let stopped_at_element = matches!(ending, Ending::AtFilemark | Ending::AtUnreadable);
        match self.bug {
            Bug::MarkedCountsPlain => self.copied,
            Bug::MarkedCountsBefore => self.marked + self.header.marked_in(image, 0..self.from),
            Bug::MarkedCountsAsked => self.header.marked_in(image, self.from..end_of_asked),
            Bug::MarkedCountsStop if stopped_at_element => self.marked + 1,
            _ => self.marked,
        }
    }
}

/// The marked blocks from a drive's place on, which no packet shows but by mistake.
pub struct MarksAhead(u32);

impl MarksAhead {
    /// They are looked for only where a mistake is planted.
    pub fn of(bug: Bug, image: &[u8], place: u32) -> MarksAhead {
        match Header::of(image) {
            Some(header) if bug != Bug::None => {
                MarksAhead(header.marked_in(image, place..header.recorded))
            }
            _ => MarksAhead(0),
        }
    }

    /// The reply, which says of no other packet than READ, and of no refusal, that blocks were marked.
    pub fn shown_by_mistake(&self, bug: Bug, packet: &[u8], reply: Reply) -> Reply {
        let opcode = packet.first();
        let shown = match bug {
            Bug::WriteShowsMarked => opcode == Some(&WRITE),
            Bug::SpaceShowsMarked => opcode == Some(&SPACE),
            Bug::RefusalShowsMarked => reply.ending == Ending::Refused(4),
            _ => false,
        };
        if shown {
            return reply.with_marked(self.0);
        }
        reply
    }
}
