//! The kinds of a tape's elements, found by reading them.

use std::iter::repeat_n;

use crate::command_line::failure::Failure;
use crate::tape::drive::{CHUNK, Drive, Ended};
use crate::tape::packets;
use crate::words;

/// One kind of element.
#[derive(Clone, Copy, Debug, PartialEq, Eq)]
pub enum Kind {
    Data,
    Filemark,
    Unreadable,
    /// Data with a deleted address mark.
    Marked,
}

/// How many there are of each: `7 data blocks (2 marked), 2 filemarks, 0 unreadable`.
pub fn counts(kinds: &[Kind]) -> String {
    let count = |kind: Kind| kinds.iter().filter(|k| **k == kind).count() as u64;
    let marked = count(Kind::Marked);
    let of_these_marked = match marked {
        0 => String::new(),
        _ => format!(" ({marked} marked)"),
    };
    format!(
        "{}{of_these_marked}, {}, {} unreadable",
        words::count(count(Kind::Data) + marked, "data block"),
        words::count(count(Kind::Filemark), "filemark"),
        count(Kind::Unreadable)
    )
}

/// Blocks that a READ copied from a place on, so many of them marked.
struct Copied {
    place: u32,
    blocks: u32,
    marked: u32,
}

impl Copied {
    /// The kind of all of them, where they are alike.
    fn kind(&self) -> Option<Kind> {
        match self.marked {
            0 => Some(Kind::Data),
            marked if marked >= self.blocks => Some(Kind::Marked),
            _ => None,
        }
    }
}

/// The kinds of all recorded elements; `seen` hears how many are new each time.
pub fn survey(drive: &mut Drive, mut seen: impl FnMut(u64)) -> Result<Vec<Kind>, Failure> {
    let mut room = vec![0; CHUNK as usize * drive.block_size()];
    let mut kinds = Vec::new();
    loop {
        let before = kinds.len();
        let (copied, ended) = read_at(drive, before as u32, CHUNK, &mut room)?;
        let stop = match ended {
            Ended::Good | Ended::EndOfData => None,
            Ended::Filemark => Some(Kind::Filemark),
            Ended::Unreadable => Some(Kind::Unreadable),
            _ => return Err(drive.unexpected()),
        };
        tell_apart(drive, copied, &mut room, &mut kinds)?;
        kinds.extend(stop);
        seen((kinds.len() - before) as u64);
        if ended == Ended::EndOfData {
            return Ok(kinds);
        }
    }
}

fn read_at(
    drive: &mut Drive,
    place: u32,
    blocks: u32,
    room: &mut [u8],
) -> Result<(Copied, Ended), Failure> {
    drive.order(&packets::locate(place))?;
    let done = drive.send(&packets::read(blocks), room)?;
    let copied = Copied {
        place,
        blocks: done.blocks,
        marked: done.marked,
    };
    Ok((copied, done.ended))
}

/// The kind of each block: where some are marked and some are not, the first half is read again to tell how many there are.
fn tell_apart(
    drive: &mut Drive,
    copied: Copied,
    room: &mut [u8],
    kinds: &mut Vec<Kind>,
) -> Result<(), Failure> {
    if let Some(kind) = copied.kind() {
        kinds.extend(repeat_n(kind, copied.blocks as usize));
        return Ok(());
    }
    let (first, ended) = read_at(drive, copied.place, copied.blocks / 2, room)?;
    if ended != Ended::Good {
        return Err(drive.unexpected());
    }
    let rest = Copied {
        place: copied.place + first.blocks,
        blocks: copied.blocks - first.blocks,
        marked: copied.marked.saturating_sub(first.marked),
    };
    tell_apart(drive, first, room, kinds)?;
    tell_apart(drive, rest, room, kinds)
}

#[cfg(test)]
mod tests {
    use super::*;
    use crate::tape::header::{Header, LENGTH};

    /// A tape with these kinds is surveyed as what they mean.
    fn is_surveyed(kinds: &[u8]) {
        let mut image = Header::blank(512, kinds.len() as u32, 0, false, 0)
            .full()
            .image();
        image[LENGTH..][..kinds.len()].copy_from_slice(kinds);
        let mut drive = Drive::with(image).expect("a whole image");
        let found = survey(&mut drive, |_| ()).expect("a tape to read");
        let meant = kinds.iter().map(|kind| match kind {
            1 => Kind::Data,
            2 => Kind::Filemark,
            4 => Kind::Marked,
            _ => Kind::Unreadable,
        });
        assert_eq!(found, meant.collect::<Vec<Kind>>());
    }

    #[test]
    fn a_single_marked_block_is_found_wherever_it_is() {
        for place in 0..130 {
            let mut kinds = [1; 130];
            kinds[place] = 4;
            is_surveyed(&kinds);
        }
    }

    #[test]
    fn marked_and_plain_blocks_are_told_apart_around_what_stops_a_read() {
        for seed in 1..200_u64 {
            let turned = |place: u64| (seed * 0x9E37_79B9 * (place + seed)) >> 7;
            let kinds: Vec<u8> = (0..seed)
                .map(|place| [1, 1, 1, 4, 4, 4, 2, 0][turned(place) as usize % 8])
                .collect();
            is_surveyed(&kinds);
        }
    }

    #[test]
    fn every_other_block_and_all_of_them() {
        for kinds in [[1, 4], [4, 1], [4, 4], [1, 1]] {
            is_surveyed(&kinds.repeat(100));
        }
    }
}
