//! A tape file in its items, each of which can be damaged.

use tapecard::exchange::{END_MARK, TAPE_MARK, UNREADABLE};

/// A piece of a file.
#[derive(Clone)]
pub enum Part {
    /// A word alone: a tape mark, the end mark, or any other.
    Word(u32),
    Record {
        first: u32,
        bytes: Vec<u8>,
        pad: Option<u8>,
        second: u32,
    },
    /// Bytes that are no item.
    Bytes(Vec<u8>),
}

impl Part {
    pub const MARK: Part = Part::Word(TAPE_MARK);
    pub const END: Part = Part::Word(END_MARK);

    /// A record of these bytes, with a pad byte where it needs one.
    pub fn record(bytes: &[u8]) -> Part {
        Part::flagged(0, bytes)
    }

    pub fn unreadable(bytes: &[u8]) -> Part {
        Part::flagged(UNREADABLE, bytes)
    }

    fn flagged(flag: u32, bytes: &[u8]) -> Part {
        let word = bytes.len() as u32 + flag;
        Part::Record {
            first: word,
            bytes: bytes.to_vec(),
            pad: (bytes.len() % 2 == 1).then_some(0),
            second: word,
        }
    }

    fn put(&self, file: &mut Vec<u8>) {
        match self {
            Part::Word(word) => file.extend(word.to_le_bytes()),
            Part::Bytes(bytes) => file.extend(bytes),
            Part::Record {
                first,
                bytes,
                pad,
                second,
            } => {
                file.extend(first.to_le_bytes());
                file.extend(bytes);
                file.extend(pad);
                file.extend(second.to_le_bytes());
            }
        }
    }
}

/// Parts in their order.
#[derive(Clone, Default)]
pub struct TapeFile {
    pub parts: Vec<Part>,
}

impl TapeFile {
    pub fn of(parts: &[Part]) -> TapeFile {
        TapeFile {
            parts: parts.to_vec(),
        }
    }

    /// The parts of an exported file, whose records have so many bytes.
    pub fn read(file: &[u8], size: usize) -> TapeFile {
        let word_at = |at: usize| {
            let word: [u8; 4] = file[at..at + 4].try_into().expect("four bytes");
            u32::from_le_bytes(word)
        };
        let (mut parts, mut at) = (Vec::new(), 0);
        while at < file.len() {
            let first = word_at(at);
            if [TAPE_MARK, END_MARK].contains(&first) {
                parts.push(Part::Word(first));
                at += 4;
                continue;
            }
            parts.push(Part::Record {
                first,
                bytes: file[at + 4..at + 4 + size].to_vec(),
                pad: None,
                second: word_at(at + 4 + size),
            });
            at += size + 8;
        }
        TapeFile { parts }
    }

    pub fn bytes(&self) -> Vec<u8> {
        let mut file = Vec::new();
        self.parts.iter().for_each(|part| part.put(&mut file));
        file
    }
}

#[cfg(test)]
mod tests {
    use super::*;

    #[test]
    fn a_file_in_its_bytes() {
        let parts = [
            Part::record(&[1, 2]),
            Part::MARK,
            Part::unreadable(&[3]),
            Part::Bytes(vec![9]),
            Part::END,
        ];
        let expected = [
            &[2, 0, 0, 0, 1, 2, 2, 0, 0, 0][..],
            &[0; 4],
            &[1, 0, 0, 0x80, 3, 0, 1, 0, 0, 0x80],
            &[9],
            &[0xFF; 4],
        ];
        assert_eq!(TapeFile::of(&parts).bytes(), expected.concat());
    }

    #[test]
    fn what_is_read_is_what_was_put() {
        let parts = [
            Part::unreadable(&[7; 4]),
            Part::MARK,
            Part::record(&[8; 4]),
            Part::END,
        ];
        let file = TapeFile::of(&parts).bytes();
        let read = TapeFile::read(&file, 4);
        assert_eq!(read.parts.len(), 4);
        assert_eq!(read.bytes(), file);
    }
}
