//! Where the files of a tape lie: between its filemarks, whatever is in them.

use crate::command_line::failure::Failure;
use crate::tape::drive::Drive;

/// The part of the tape that is a file.
#[derive(Clone, Copy, Debug, PartialEq, Eq)]
pub struct Stretch {
    /// The place of its first element; of a file that has none, its filemark's.
    pub place: u32,
    /// Its elements, a label among them, its filemark not.
    pub blocks: u32,
    /// A filemark stands behind it.
    pub closed: bool,
}

/// One for each file, in the order of the tape. No block is read for it.
pub fn stretches(drive: &mut Drive) -> Result<Vec<Stretch>, Failure> {
    let filemarks = drive.filemarks()?;
    let end = drive.go_to_end_of_data()?;
    Ok(between(&filemarks, end))
}

/// Two filemarks with nothing between them have an empty file there; nothing behind the last one is no file.
fn between(filemarks: &[u32], end: u32) -> Vec<Stretch> {
    let mut stretches = Vec::new();
    let mut place = 0;
    for filemark in filemarks {
        stretches.push(Stretch {
            place,
            blocks: filemark - place,
            closed: true,
        });
        place = filemark + 1;
    }
    if place < end {
        stretches.push(Stretch {
            place,
            blocks: end - place,
            closed: false,
        });
    }
    stretches
}

#[cfg(test)]
mod tests {
    use super::*;

    /// Place, blocks and whether it is closed, of each stretch.
    fn told(filemarks: &[u32], end: u32) -> Vec<(u32, u32, bool)> {
        let tell = |s: &Stretch| (s.place, s.blocks, s.closed);
        between(filemarks, end).iter().map(tell).collect()
    }

    #[test]
    fn a_file_ends_with_its_filemark_or_with_the_data() {
        assert_eq!(told(&[], 0), []);
        assert_eq!(told(&[], 5), [(0, 5, false)]);
        assert_eq!(told(&[5], 6), [(0, 5, true)]);
        assert_eq!(
            told(&[2, 5], 7),
            [(0, 2, true), (3, 2, true), (6, 1, false)]
        );
    }

    #[test]
    fn empty_files_are_files() {
        assert_eq!(told(&[0], 1), [(0, 0, true)]);
        assert_eq!(told(&[0, 1], 2), [(0, 0, true), (1, 0, true)]);
        assert_eq!(told(&[1, 2], 3), [(0, 1, true), (2, 0, true)]);
        assert_eq!(told(&[0], 2), [(0, 0, true), (1, 1, false)]);
    }
}
