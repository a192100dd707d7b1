//! Statuses, sense triples, opcodes of the packet drive and error numbers of the pulse drive in words.

use crate::bytes::{opcode, triple};
use crate::packet::{CHECK_CONDITION, GOOD, Sense};

/// A packet's status.
pub fn status(status: u8) -> &'static str {
    match status {
        GOOD => "GOOD",
        CHECK_CONDITION => "CHECK CONDITION",
        _ => "unknown status",
    }
}

/// A sense key by its SCSI-2 name.
pub fn key(key: u8) -> &'static str {
    match key {
        0x0 => "NO SENSE",
        0x1 => "RECOVERED ERROR",
        0x2 => "NOT READY",
        0x3 => "MEDIUM ERROR",
        0x4 => "HARDWARE ERROR",
        0x5 => "ILLEGAL REQUEST",
        0x6 => "UNIT ATTENTION",
        0x7 => "DATA PROTECT",
        0x8 => "BLANK CHECK",
        0x9 => "VENDOR SPECIFIC",
        0xA => "COPY ABORTED",
        0xB => "ABORTED COMMAND",
        0xC => "EQUAL",
        0xD => "VOLUME OVERFLOW",
        0xE => "MISCOMPARE",
        0xF => "RESERVED",
        _ => "no sense key",
    }
}

/// What a sense triple of this drive says, `None` for a triple that it never gives.
pub fn triple_in_words(key: u8, asc: u8, ascq: u8) -> Option<&'static str> {
    let words = match [key, asc, ascq] {
        triple::NOTHING => "nothing to report",
        triple::FILEMARK => "filemark detected",
        triple::EARLY_WARNING => "early warning passed",
        triple::BEGINNING => "beginning of tape",
        triple::NOT_LOADED => "no cartridge loaded",
        triple::UNREADABLE => "unreadable block",
        triple::LIST_LENGTH => "parameter list length error",
        triple::UNKNOWN_COMMAND => "unknown command",
        triple::BAD_FIELD => "invalid field in packet",
        triple::BAD_LIST => "invalid field in parameter list",
        triple::REMOVAL_PREVENTED => "medium removal prevented",
        triple::MEDIUM_CHANGED => "cartridge changed",
        triple::RESET => "power on or reset",
        triple::PROTECTED => "write protected",
        triple::END_OF_DATA => "end of data",
        triple::FULL => "end of tape",
        _ => return None,
    };
    Some(words)
}

/// The whole sense, such as `BLANK CHECK: end of data (8/00/05), residue 1`.
pub fn sense(sense: &Sense) -> String {
    let words =
        triple_in_words(sense.key, sense.asc, sense.ascq).unwrap_or("no sense of this drive");
    let mut text = format!("{}: {} ({})", key(sense.key), words, digits(sense));
    if sense.valid {
        text.push_str(&format!(", residue {}", sense.information));
    }
    text
}

/// The triple in digits, such as `8/00/05`.
pub fn digits(sense: &Sense) -> String {
    format!("{:X}/{:02X}/{:02X}", sense.key, sense.asc, sense.ascq)
}

/// A packet's first byte by its name, `None` for an opcode that the drive doesn't know.
pub fn command(opcode: u8) -> Option<&'static str> {
    let name = match opcode {
        opcode::TEST_UNIT_READY => "TEST UNIT READY",
        opcode::REWIND => "REWIND",
        opcode::REQUEST_SENSE => "REQUEST SENSE",
        opcode::READ => "READ",
        opcode::WRITE => "WRITE",
        opcode::WRITE_FILEMARK => "WRITE FILEMARK",
        opcode::SPACE => "SPACE",
        opcode::INQUIRY => "INQUIRY",
        opcode::MODE_SELECT => "MODE SELECT",
        opcode::MODE_SENSE => "MODE SENSE",
        opcode::LOAD_UNLOAD => "LOAD/UNLOAD",
        opcode::PREVENT_ALLOW => "PREVENT/ALLOW MEDIUM REMOVAL",
        opcode::LOCATE => "LOCATE",
        opcode::READ_POSITION => "READ POSITION",
        _ => return None,
    };
    Some(name)
}

/// An error number of the pulse drive, by the list of QIC-117.
pub fn pulse_error(error: u8) -> &'static str {
    match error {
        0 => "no error",
        1 => "command received while drive not ready",
        2 => "cartridge not present or removed",
        6 => "undefined or reserved command code",
        7 => "illegal track address specified for seek",
        8 => "illegal command in report subcontext",
        13 => "command received while new cartridge pending",
        19 => "command illegal when cartridge not referenced",
        26 => "power on reset occurred",
        27 => "software reset occurred",
        _ => "no error of this drive",
    }
}

#[cfg(test)]
mod tests {
    use super::*;

    #[test]
    fn end_of_data_with_its_residue() {
        let end = Sense {
            key: 8,
            ascq: 5,
            valid: true,
            information: 1,
            ..Sense::default()
        };
        assert_eq!(sense(&end), "BLANK CHECK: end of data (8/00/05), residue 1");
    }

    #[test]
    fn sense_that_is_not_valid_has_no_residue() {
        let protected = Sense {
            key: 7,
            asc: 0x27,
            ..Sense::default()
        };
        assert_eq!(sense(&protected), "DATA PROTECT: write protected (7/27/00)");
    }

    #[test]
    fn an_unload_that_the_lock_stops() {
        let prevented = Sense {
            key: 5,
            asc: 0x53,
            ascq: 2,
            ..Sense::default()
        };
        assert_eq!(
            sense(&prevented),
            "ILLEGAL REQUEST: medium removal prevented (5/53/02)"
        );
        assert_eq!(triple_in_words(5, 0x53, 0), None);
    }

    #[test]
    fn a_triple_that_the_drive_never_gives() {
        let odd = Sense {
            key: 0xE,
            asc: 1,
            ascq: 2,
            ..Sense::default()
        };
        assert_eq!(sense(&odd), "MISCOMPARE: no sense of this drive (E/01/02)");
    }

    #[test]
    fn statuses_and_commands() {
        assert_eq!(status(0), "GOOD");
        assert_eq!(status(2), "CHECK CONDITION");
        assert_eq!(command(opcode::READ), Some("READ"));
        assert_eq!(command(0x1E), Some("PREVENT/ALLOW MEDIUM REMOVAL"));
        assert!(opcode::ALL.iter().all(|opcode| command(*opcode).is_some()));
        assert_eq!(command(0x19), None);
        assert_eq!(pulse_error(26), "power on reset occurred");
    }
}
