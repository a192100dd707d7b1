//! How a packet ends: its answer, and the sense that it leaves.

use crate::bytes::put_long;
use crate::record::{Attention, Sense, State};

const STATUS_GOOD: u8 = 0;
const STATUS_CHECK_CONDITION: u8 = 2;

/// How a packet ended.
#[derive(Clone, Copy, Debug, PartialEq, Eq, PartialOrd, Ord, Hash)]
pub enum Ending {
    Refused(u8),
    MediumChanged,
    WasReset,
    UnknownOpcode,
    BadField,
    BadListLength,
    RemovalPrevented,
    NotLoaded,
    Protected,
    BadList,
    Good,
    AtFilemark,
    AtUnreadable,
    AtEndOfData,
    AtEndOfDataPastWarning,
    AtBeginning,
    CartridgeFull,
    EarlyWarning,
    LocatedBeyond,
}

/// An answer with the sense that the record gets.
pub struct Reply {
    pub ending: Ending,
    pub sense: Sense,
    blocks: u32,
    bytes: u32,
    marked: u32,
}

impl Reply {
    pub fn refused(number: u8) -> Reply {
        Reply::ended(Ending::Refused(number), Sense::ZERO)
    }

    pub fn good() -> Reply {
        Reply::ended(Ending::Good, Sense::ZERO)
    }

    pub fn ended(ending: Ending, sense: Sense) -> Reply {
        Reply {
            ending,
            sense,
            blocks: 0,
            bytes: 0,
            marked: 0,
        }
    }

    pub fn with_blocks(self, blocks: u32) -> Reply {
        Reply { blocks, ..self }
    }

    pub fn with_bytes(self, bytes: u32) -> Reply {
        Reply { bytes, ..self }
    }

    // 02, A6: "a READ's answer also says how many of the blocks copied were marked."
    pub fn with_marked(self, marked: u32) -> Reply {
        Reply { marked, ..self }
    }

    fn number(&self) -> u8 {
        match self.ending {
            Ending::Refused(number) => number,
            _ => 0,
        }
    }

    // "CHECK CONDITION is status 2."
    fn status(&self) -> u8 {
        match self.ending {
            Ending::Refused(_) | Ending::Good => STATUS_GOOD,
            _ => STATUS_CHECK_CONDITION,
        }
    }

    pub fn encoded(&self) -> [u8; 16] {
        let mut answer = [0; 16];
        answer[0] = self.number();
        answer[1] = self.status();
        put_long(&mut answer, 4, self.blocks);
        put_long(&mut answer, 8, self.bytes);
        put_long(&mut answer, 12, self.marked);
        answer
    }
}

// "with 6/28/00 (medium) or 6/29/00 (reset) and is then cleared."
pub fn tell_attention(state: &mut State) -> Reply {
    let changed = state.attention == Attention::MediumChanged;
    state.attention = Attention::None;
    if changed {
        Reply::ended(Ending::MediumChanged, Sense::of(6, 0x28, 0))
    } else {
        Reply::ended(Ending::WasReset, Sense::of(6, 0x29, 0))
    }
}

// "Unknown opcode 5/20/00".
pub fn unknown_opcode() -> Reply {
    Reply::ended(Ending::UnknownOpcode, Sense::of(5, 0x20, 0))
}

// "Bad field 5/24/00."
pub fn bad_field() -> Reply {
    Reply::ended(Ending::BadField, Sense::of(5, 0x24, 0))
}

// "list length (byte 4, a field) .., else 5/1A/00."
pub fn bad_list_length() -> Reply {
    Reply::ended(Ending::BadListLength, Sense::of(5, 0x1A, 0))
}

// 02, A8: "Unloading while locked ends with 5/53/02".
pub fn removal_prevented() -> Reply {
    Reply::ended(Ending::RemovalPrevented, Sense::of(5, 0x53, 2))
}

// "Not loaded 2/3A/00".
pub fn not_loaded() -> Reply {
    Reply::ended(Ending::NotLoaded, Sense::of(2, 0x3A, 0))
}

// "Write protected 7/27/00".
pub fn write_protected() -> Reply {
    Reply::ended(Ending::Protected, Sense::of(7, 0x27, 0))
}

// "else 5/26/00"; "bytes are those filled or taken in the data buffer, 0 for a wrong list."
pub fn bad_list() -> Reply {
    Reply::ended(Ending::BadList, Sense::of(5, 0x26, 0))
}

// "stop, key 0, filemark, 00/01."
pub fn at_filemark(residue: u32) -> Reply {
    let sense = Sense::of(0, 0, 1).with_filemark().with_residue(residue);
    Reply::ended(Ending::AtFilemark, sense)
}

// "Unreadable: P + 1, stop, 3/11/00."
pub fn at_unreadable(residue: u32) -> Reply {
    let sense = Sense::of(3, 0x11, 0).with_residue(residue);
    Reply::ended(Ending::AtUnreadable, sense)
}

// "stop, 8/00/05, no EOM."
pub fn at_end_of_data(residue: u32) -> Reply {
    let sense = Sense::of(8, 0, 5).with_residue(residue);
    Reply::ended(Ending::AtEndOfData, sense)
}

// 02, A3: "So 8/00/05 on READ and SPACE carries EOM when U > C - W."
pub fn at_end_of_data_past_warning(residue: u32) -> Reply {
    let sense = at_end_of_data(residue).sense.with_eom();
    Reply::ended(Ending::AtEndOfDataPastWarning, sense)
}

// "stop, key D, EOM, 00/02, valid, information the rest."
pub fn cartridge_full(residue: u32) -> Reply {
    let sense = Sense::of(0xD, 0, 2).with_eom().with_residue(residue);
    Reply::ended(Ending::CartridgeFull, sense)
}

// "CHECK CONDITION, key 0, EOM, 00/02, valid, information 0."
pub fn early_warning() -> Reply {
    let sense = Sense::of(0, 0, 2).with_eom().with_residue(0);
    Reply::ended(Ending::EarlyWarning, sense)
}
