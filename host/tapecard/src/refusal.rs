//! The house refusal numbers.

use std::error::Error;
use std::fmt;

use crate::Device;

/// A refused call: its number, and who gave it. Nothing was changed.
#[derive(Clone, Copy, Debug, PartialEq, Eq, Hash)]
pub struct Refusal {
    pub number: u8,
    pub device: Device,
}

impl Refusal {
    /// The sentence that says when this device gives this number.
    pub fn sentence(self) -> &'static str {
        match (self.number, self.device) {
            // 02, A1: "2 also when U is below C here", "3 also when the product exceeds C or P exceeds the product"
            (2, Device::Floppy) => "image breaks a header rule, or U is below C",
            (3, Device::Floppy) => {
                "packet record has P > U, a speed outside the five, a sense key above 15, \
                 BSEG*SEGTRK*TRKS > C, or P above that product"
            }
            // 02, A5: "4 if the level buffer is shorter than the list"
            (4, Device::Pulse) => "a lent level buffer is shorter than the list of trains",
            // 02, A7: "4 where its output buffer is too short"
            (4, Device::Exchange) => {
                "a lent file buffer is shorter than the exported file: lend 4 + U*(B + 8) bytes"
            }
            (number, _) => sentence_of(number),
        }
    }

    /// An answer's number byte: 0 is accepted, all others are refusals.
    pub(crate) fn check(device: Device, number: u8) -> Result<(), Refusal> {
        if number == 0 {
            Ok(())
        } else {
            Err(Refusal { number, device })
        }
    }
}

/// The house's table.
fn sentence_of(number: u8) -> &'static str {
    match number {
        1 => "packet is not 12 bytes",
        2 => "image breaks a header rule",
        3 => "packet record has P > U, a speed outside the five, or a sense key above 15",
        4 => "a lent data buffer is shorter than this transfer needs",
        5 => "a train of 0 pulses",
        6 => "cartridge description outside its ranges",
        7 => "insertion with a cartridge in, or removal with none",
        8 => "pulse record breaks the record rules",
        9 => "filemark index is shorter than four times the capacity: lend 4*C bytes",
        10 => "filemark index differs from a fresh one: make it afresh from the image",
        11 => {
            "lengths of a record in the tape file disagree or are cut: take another copy of the file"
        }
        12 => {
            "a record of the tape file is not of the image's block size: take an image with blocks of its length"
        }
        13 => {
            "the tape file has more elements than the cartridge's capacity: take an image that holds more"
        }
        _ => "no house refusal has this number",
    }
}

impl fmt::Display for Refusal {
    fn fmt(&self, f: &mut fmt::Formatter<'_>) -> fmt::Result {
        write!(f, "refusal {}: {}", self.number, self.sentence())
    }
}

impl Error for Refusal {}

#[cfg(test)]
mod tests {
    use super::*;

    fn shown(number: u8, device: Device) -> String {
        Refusal { number, device }.to_string()
    }

    #[test]
    fn shows_number_and_sentence() {
        assert_eq!(
            shown(1, Device::Stream),
            "refusal 1: packet is not 12 bytes"
        );
        assert_eq!(
            shown(99, Device::Pulse),
            "refusal 99: no house refusal has this number"
        );
    }

    #[test]
    fn the_floppy_device_gives_2_and_3_more_often() {
        assert_eq!(
            shown(2, Device::Stream),
            "refusal 2: image breaks a header rule"
        );
        assert_eq!(
            shown(2, Device::Floppy),
            "refusal 2: image breaks a header rule, or U is below C"
        );
        assert!(shown(3, Device::Floppy).ends_with("or P above that product"));
        assert_eq!(shown(4, Device::Floppy), shown(4, Device::Stream));
    }

    /// Both say what to do about it.
    #[test]
    fn an_index_that_is_not_the_images() {
        assert_eq!(
            shown(9, Device::Stream),
            "refusal 9: filemark index is shorter than four times the capacity: lend 4*C bytes"
        );
        assert_eq!(
            shown(10, Device::Stream),
            "refusal 10: filemark index differs from a fresh one: make it afresh from the image"
        );
    }

    /// A packet's transfer needs a data buffer, a list of trains a level buffer; a count of 0 is a train alone as well as in a list.
    #[test]
    fn the_pulse_drive_gives_4_for_its_level_buffer() {
        assert_eq!(
            shown(4, Device::Pulse),
            "refusal 4: a lent level buffer is shorter than the list of trains"
        );
        assert_eq!(
            shown(4, Device::Stream),
            "refusal 4: a lent data buffer is shorter than this transfer needs"
        );
        assert_eq!(shown(5, Device::Pulse), "refusal 5: a train of 0 pulses");
    }

    /// A file buffer is no data buffer; what stands in a file is a matter of import alone. All say what to do about it.
    #[test]
    fn tape_files_that_are_not_taken() {
        assert_eq!(
            shown(4, Device::Exchange),
            "refusal 4: a lent file buffer is shorter than the exported file: lend 4 + U*(B + 8) bytes"
        );
        assert_eq!(
            shown(11, Device::Exchange),
            "refusal 11: lengths of a record in the tape file disagree or are cut: take another copy of the file"
        );
        assert_eq!(
            shown(12, Device::Exchange),
            "refusal 12: a record of the tape file is not of the image's block size: \
             take an image with blocks of its length"
        );
        assert_eq!(
            shown(13, Device::Exchange),
            "refusal 13: the tape file has more elements than the cartridge's capacity: \
             take an image that holds more"
        );
        assert_eq!(shown(2, Device::Exchange), shown(2, Device::Stream));
    }

    #[test]
    fn zero_is_accepted() {
        assert_eq!(Refusal::check(Device::Pulse, 0), Ok(()));
        let refused = Refusal {
            number: 8,
            device: Device::Pulse,
        };
        assert_eq!(Refusal::check(Device::Pulse, 8), Err(refused));
    }
}
