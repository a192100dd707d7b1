//! The label: the first block of a file on the tape. It holds what the file's padded blocks don't show: its exact length, its
//! name, and a checksum. docs/COMMAND.md has its layout.

use super::checksum::crc32;

const MARK: &[u8; 8] = b"TAPEFIL2";
/// The mark of a label without a checksum, as it was written once.
const OLD_MARK: &[u8; 8] = b"TAPEFILE";
/// A label fits the smallest block.
pub const LONGEST_NAME: usize = 255;

#[derive(Debug, PartialEq, Eq)]
pub struct Label {
    pub length: u64,
    pub name: Vec<u8>,
    /// CRC-32 of the file's bytes; an old label has none.
    pub checksum: Option<u32>,
}

impl Label {
    /// The label of a file with this name and these bytes.
    pub fn of(name: Vec<u8>, bytes: &[u8]) -> Label {
        Label {
            length: bytes.len() as u64,
            name,
            checksum: Some(crc32(bytes)),
        }
    }

    /// The label as a block of this size.
    pub fn block(&self, block_size: usize) -> Vec<u8> {
        let mut block = match self.checksum {
            Some(_) => MARK.to_vec(),
            None => OLD_MARK.to_vec(),
        };
        block.extend(self.length.to_be_bytes());
        block.extend((self.name.len() as u16).to_be_bytes());
        block.extend(self.checksum.map(u32::to_be_bytes).iter().flatten());
        block.extend(&self.name);
        block.resize(block_size, 0);
        block
    }

    /// Reads a block; `None` where it is no label.
    pub fn read(block: &[u8]) -> Option<Label> {
        let (mark, rest) = block.split_first_chunk::<8>()?;
        let (length, rest) = rest.split_first_chunk()?;
        let (name_length, rest) = rest.split_first_chunk()?;
        let (checksum, rest) = match mark {
            MARK => {
                let (checksum, rest) = rest.split_first_chunk()?;
                (Some(u32::from_be_bytes(*checksum)), rest)
            }
            OLD_MARK => (None, rest),
            _ => return None,
        };
        let name_length = u16::from_be_bytes(*name_length).into();
        let (name, padding) = rest.split_at_checked(name_length)?;
        let whole = name_length <= LONGEST_NAME && padding.iter().all(|b| *b == 0);
        whole.then_some(Label {
            length: u64::from_be_bytes(*length),
            name: name.to_vec(),
            checksum,
        })
    }

    /// Blocks that the file's bytes fill, the label not counted.
    pub fn data_blocks(&self, block_size: usize) -> u64 {
        self.length.div_ceil(block_size as u64)
    }
}

#[cfg(test)]
mod tests {
    use super::*;

    fn label(checksum: Option<u32>) -> Label {
        Label {
            length: 1025,
            name: "ไทย.glyphs".into(),
            checksum,
        }
    }

    #[test]
    fn read_back_with_a_checksum_and_without() {
        for label in [label(None), label(Some(0x1234_5678))] {
            for size in [512, 1024] {
                assert_eq!(Label::read(&label.block(size)).as_ref(), Some(&label));
                assert_eq!(label.block(size).len(), size);
            }
            assert_eq!(label.data_blocks(512), 3);
        }
    }

    #[test]
    fn high_numbers_stand_with_their_first_byte_first() {
        let label = Label {
            length: 0xFFFE_FDFC_FBFA_F9F8,
            name: vec![b'f'; 255],
            checksum: Some(0xFFFE_FDFC),
        };
        let block = label.block(512);
        assert_eq!(
            block[8..22],
            *b"\xFF\xFE\xFD\xFC\xFB\xFA\xF9\xF8\0\xFF\xFF\xFE\xFD\xFC"
        );
        assert_eq!(Label::read(&block), Some(label));
    }

    #[test]
    fn other_blocks_are_no_labels() {
        for label in [label(None), label(Some(1))] {
            let mut odd = label.block(512);
            odd[511] = 1;
            assert_eq!(Label::read(&odd), None);
            odd[511] = 0;
            odd[16] = 0xFF;
            assert_eq!(Label::read(&odd), None);
        }
        assert_eq!(Label::read(&[0; 512]), None);
        assert_eq!(Label::read(b"TAPE"), None);
        assert_eq!(Label::read(b"TAPEFIL2"), None);
    }
}
