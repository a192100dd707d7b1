//! The card's own reading and writing of a SIMH tape file, held to the walk and to READ: what it says of one is shown and kept where
//! all agree.

use std::mem;

use tapecard::Refusal;
use tapecard::exchange::{self, Exported, Imported, most_bytes};
use tapecard::packet::Record;

use crate::command_line::failure::Failure;
use crate::simh::walk::{Contents, Walked, walk};
use crate::tape::drive::Drive;
use crate::tape::header::Header;
use crate::tape::survey::{self, Kind};
use crate::terminal::progress::Progress;

/// A tape written out.
pub struct Written {
    pub file: Vec<u8>,
    /// Of the tape's elements, the marked ones among them.
    pub kinds: Vec<Kind>,
}

pub fn export(drive: &mut Drive, header: &Header) -> Result<Written, Failure> {
    let mut progress = Progress::new("reading", header.recorded.into());
    let kinds = survey::survey(drive, |elements| progress.advance(elements))?;
    let mut file = vec![0; most_bytes(header.recorded, header.block_size)];
    let exported = exchange::export(drive.image(), &mut file)?;
    file.truncate(exported.bytes as usize);
    if !holds(&file, &kinds, header, exported) {
        return Err(fault(
            "the file that it wrote does not hold the elements that READ finds on the tape",
        ));
    }
    Ok(Written { file, kinds })
}

/// A marked block is written as plain data (02, A7).
fn holds(file: &[u8], kinds: &[Kind], header: &Header, exported: Exported) -> bool {
    let plain = |kind: &Kind| match kind {
        Kind::Marked => Kind::Data,
        other => *other,
    };
    let expected = Contents {
        kinds: kinds.iter().map(plain).collect(),
        bytes: exported.bytes as usize,
    };
    exported.elements as usize == kinds.len() && walk(file, header) == Ok(expected)
}

/// Reads the file into the image, or finds what is in the way; then image and record are as they were.
pub fn import(
    record: &mut Record,
    image: &mut Vec<u8>,
    header: &Header,
    file: &[u8],
) -> Result<Walked, Failure> {
    let walked = walk(file, header);
    let walked = agreed(exchange::import(record, image, file), walked)?;
    if let Ok(contents) = &walked {
        read_back(image, contents)?;
    }
    Ok(walked)
}

/// READ finds on the tape what the file holds; where it does not, the image is not worth keeping.
fn read_back(image: &mut Vec<u8>, contents: &Contents) -> Result<(), Failure> {
    let mut drive = Drive::with(mem::take(image))?;
    let mut progress = Progress::new("checking", contents.kinds.len() as u64);
    let kinds = survey::survey(&mut drive, |elements| progress.advance(elements))?;
    if kinds != contents.kinds {
        return Err(fault(
            "READ does not find the elements of the file on the tape that it stored them on",
        ));
    }
    *image = drive.into_image();
    Ok(())
}

fn agreed(answer: Result<Imported, Refusal>, walked: Walked) -> Result<Walked, Failure> {
    let by_card = match answer {
        Ok(imported) => Ok((imported.elements as usize, imported.bytes as usize)),
        Err(refusal) => Err(refusal.number),
    };
    let by_walk = match &walked {
        Ok(contents) => Ok((contents.kinds.len(), contents.bytes)),
        Err(found) => Err(found.wrong.number()),
    };
    if by_card == by_walk {
        return Ok(walked);
    }
    let told = |verdict| match verdict {
        Ok((elements, bytes)) => format!("{elements} elements in {bytes} bytes"),
        Err(number) => format!("refusal {number}"),
    };
    Err(fault(&format!(
        "it answered the file with {}, and item by item it is {}",
        told(by_card),
        told(by_walk)
    )))
}

fn fault(what: &str) -> Failure {
    Failure::Fault(format!(
        "the card broke its promise: {what}; nothing was changed. Build the command and the archive anew with make demo"
    ))
}

#[cfg(test)]
mod tests {
    use super::*;
    use crate::simh::walk::{Found, Wrong};
    use tapecard::Device;

    fn contents() -> Walked {
        let kinds = vec![Kind::Data, Kind::Filemark];
        Ok(Contents { kinds, bytes: 528 })
    }

    fn too_many() -> Walked {
        Err(Found {
            number: 2,
            offset: 520,
            wrong: Wrong::TooMany,
        })
    }

    fn imported(elements: u32, bytes: u32) -> Result<Imported, Refusal> {
        Ok(Imported { elements, bytes })
    }

    fn refused(number: u8) -> Result<Imported, Refusal> {
        let device = Device::Exchange;
        Err(Refusal { number, device })
    }

    #[test]
    fn a_card_that_says_what_the_walk_says() {
        assert_eq!(agreed(imported(2, 528), contents()).unwrap(), contents());
        assert_eq!(agreed(refused(13), too_many()).unwrap(), too_many());
    }

    #[test]
    fn a_card_that_says_something_else_is_at_fault() {
        let right = "2 elements in 528 bytes";
        for (answer, walked, said, walks) in [
            (
                imported(3, 528),
                contents(),
                "3 elements in 528 bytes",
                right,
            ),
            (
                imported(2, 524),
                contents(),
                "2 elements in 524 bytes",
                right,
            ),
            (refused(13), contents(), "refusal 13", right),
            (imported(2, 528), too_many(), right, "refusal 13"),
            (refused(12), too_many(), "refusal 12", "refusal 13"),
            (refused(2), too_many(), "refusal 2", "refusal 13"),
        ] {
            let Err(Failure::Fault(sentence)) = agreed(answer, walked) else {
                panic!("a card that said {said} was believed");
            };
            assert_eq!(
                sentence,
                format!(
                    "the card broke its promise: it answered the file with {said}, and item by item it is {walks}; nothing was \
                     changed. Build the command and the archive anew with make demo"
                )
            );
        }
    }

    /// A tape of a block, a filemark and an unreadable block, read back; any other elements are not its own.
    #[test]
    fn a_tape_that_does_not_hold_the_file_is_seen() {
        let mut image = Header::blank(512, 3, 0, false, 0).full().image();
        image[32..35].copy_from_slice(&[1, 2, 0]);
        let own = [Kind::Data, Kind::Filemark, Kind::Unreadable];
        let read = |kinds: &[Kind]| {
            let kinds = kinds.to_vec();
            let mut image = image.clone();
            let read = read_back(&mut image, &Contents { kinds, bytes: 1048 });
            read.map(|()| image)
        };
        assert_eq!(read(&own).expect("its own elements"), image);
        let marked = [Kind::Marked, Kind::Filemark, Kind::Unreadable];
        let turned = [Kind::Filemark, Kind::Data, Kind::Unreadable];
        let longer = [own.as_slice(), &[Kind::Filemark]].concat();
        for other in [&marked[..], &turned, &own[..2], &longer, &[]] {
            assert!(matches!(read(other), Err(Failure::Fault(_))), "{other:?}");
        }
    }

    /// A tape of a marked block, a filemark and an unreadable block, written out; any other file is not its own.
    #[test]
    fn a_file_that_does_not_hold_the_tape_is_seen() {
        let header = Header::blank(512, 3, 0, false, 0).full();
        let mut image = header.image();
        image[32..35].copy_from_slice(&[4, 2, 9]);
        let mut drive = Drive::with(image).expect("a whole image");
        let Written { file, kinds } = export(&mut drive, &header).expect("a file");
        assert_eq!(kinds, [Kind::Marked, Kind::Filemark, Kind::Unreadable]);
        assert_eq!(file.len(), 520 + 4 + 520 + 4);
        let exported = Exported {
            elements: 3,
            bytes: file.len() as u32,
        };
        let holds = |file: &[u8], elements: u32, bytes: u32| {
            holds(file, &kinds, &header, Exported { elements, bytes })
        };
        let bytes = exported.bytes;
        assert!(holds(&file, 3, bytes));
        assert!(!holds(&file, 2, bytes) && !holds(&file, 3, bytes - 4));
        assert!(!holds(&file[..524], 3, bytes) && !holds(&file[..524], 2, 524));
        for at in [0, 3, 516, 520, 527, 1043] {
            let mut other = file.clone();
            other[at] ^= 1;
            assert!(!holds(&other, 3, bytes), "byte {at}");
        }
    }
}
