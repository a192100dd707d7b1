//! What a card with a planted mistake does otherwise.

use super::{ENTRY_LENGTH, lay_out, length_of, make_afresh, places};
use crate::bug::Bug;
use crate::bytes::{long_at, put_long, triple_at};
use crate::commands::*;
use crate::door;
use crate::image::Header;
use crate::packet;
use crate::record::{Attention, Sense, State};
use crate::reply::{Ending, Reply};

/// The lowest count of three bytes in two's complement.
const LOWEST_COUNT: u32 = 0x80_0000;
const COUNTS_END: u32 = 0x100_0000;
const ATTENTION_AT: usize = 5;
const LOADED_AT: usize = 4;

/// 9 of `make` before 2: the capacity is taken from a header that may break a rule.
pub fn judges_length_first(bug: Bug, image: &[u8], index: &[u8]) -> bool {
    bug == Bug::MakeJudgesLengthFirst
        && image.len() >= 8
        && (index.len() as u64) < ENTRY_LENGTH as u64 * u64::from(long_at(image, 4))
}

/// Blocks and bytes in the answer of `make`.
pub fn told_by_make(
    bug: Bug,
    header: &Header,
    places: &[u32],
    index: &[u8],
) -> Option<(usize, usize)> {
    match bug {
        Bug::MakeCountsElements => Some((header.recorded as usize, length_of(header))),
        Bug::MakeTellsEntries => Some((places.len(), ENTRY_LENGTH * places.len())),
        Bug::MakeTellsRoom => Some((places.len(), index.len())),
        _ => None,
    }
}

/// Other places than the filemarks'.
pub fn displace(bug: Bug, header: &Header, places: &mut Vec<u32>) {
    match bug {
        Bug::IndexMissesFirst => places.retain(|&place| place > 0),
        Bug::IndexMissesLast => places.retain(|&place| place + 1 < header.recorded),
        Bug::IndexTakesBeyond => places.iter_mut().for_each(|place| *place += 1),
        Bug::IndexCutToByte => places.iter_mut().for_each(|place| *place %= 256),
        Bug::IndexDescends => places.reverse(),
        _ => (),
    }
}

/// The 4*C bytes of an index in another layout.
pub fn lay_otherwise(bug: Bug, places: &[u32], whole: &mut Vec<u8>) {
    let entries_end = ENTRY_LENGTH * places.len().min(whole.len() / ENTRY_LENGTH);
    match bug {
        Bug::IndexLittleEndian => whole.chunks_mut(ENTRY_LENGTH).for_each(<[u8]>::reverse),
        Bug::IndexRestZero => whole[entries_end..].fill(0),
        Bug::IndexLeavesRest => whole.truncate(entries_end),
        _ => (),
    }
}

/// Whether 10 is given, where a mistake decides it.
pub fn differs(
    bug: Bug,
    header: &Header,
    places: &[u32],
    index: &[u8],
    fresh: &[u8],
) -> Option<bool> {
    let end = index.len().min(length_of(header));
    let entries_end = end.min(ENTRY_LENGTH * places.len());
    let differs_below = |end: usize| index[..end] != fresh[..end];
    let low_bytes = |bytes: &[u8]| -> Vec<u8> {
        let entries = bytes[..end].chunks(ENTRY_LENGTH);
        entries.flat_map(|entry| entry[2..].to_vec()).collect()
    };
    match bug {
        Bug::LastEntryUnchecked => Some(differs_below(end.min(length_of(header) - ENTRY_LENGTH))),
        Bug::RestUnchecked => Some(differs_below(entries_end)),
        Bug::HighBytesUnchecked => Some(low_bytes(index) != low_bytes(fresh)),
        Bug::MissingEntriesTaken => Some(differs_below(end) && !is_cut(&index[..end], fresh)),
        Bug::BeyondChecked => Some(differs_below(end) || index[end..].iter().any(|&b| b != 0xFF)),
        _ => None,
    }
}

/// The first entries of a fresh index, and none for the filemarks behind them.
fn is_cut(index: &[u8], fresh: &[u8]) -> bool {
    let mut entries = index
        .chunks(ENTRY_LENGTH)
        .zip(fresh.chunks(ENTRY_LENGTH))
        .skip_while(|(entry, fresh)| entry == fresh);
    entries.all(|(entry, _)| entry.iter().all(|&byte| byte == 0xFF))
}

/// Whether a packet goes through with any index.
pub fn lets_pass(bug: Bug, state: &State, packet: &[u8]) -> bool {
    let opcode = packet[0];
    match bug {
        Bug::SensePassesIndex => opcode == REQUEST_SENSE,
        Bug::InquiryPassesIndex => opcode == INQUIRY,
        Bug::OnlyUsersJudgeIndex => ![SPACE, WRITE, WRITE_FILEMARK].contains(&opcode),
        Bug::IndexAfterAttention => {
            state.attention != Attention::None && ![REQUEST_SENSE, INQUIRY].contains(&opcode)
        }
        Bug::IndexAfterLoaded => !state.loaded && needs_cartridge(bug, opcode),
        _ => false,
    }
}

/// Whether 9 and 10 come before this number.
pub fn comes_before(bug: Bug, number: u8) -> bool {
    match bug {
        Bug::IndexBeforePacketLength => number == 1,
        Bug::IndexBeforeRecord => number == 3,
        _ => false,
    }
}

/// What is changed though the packet is refused, and the number that is given.
pub fn at_refusal(
    bug: Bug,
    number: u8,
    record: &mut [u8; 16],
    image: &mut [u8],
    index: &mut [u8],
    packet: &[u8],
    data: &[u8],
) -> u8 {
    if number < 9 {
        return number;
    }
    match bug {
        Bug::RefusalMendsIndex if number == 10 => make_afresh(bug, image, index),
        Bug::ShortIndexFilled if number == 9 => make_afresh(bug, image, index),
        Bug::IndexRefusalClearsAttention => record[ATTENTION_AT] = 0,
        Bug::IndexRefusalClearsSense => record[8..].fill(0),
        Bug::IndexRefusedAfterWork => {
            packet::packet_with(bug, &mut { *record }, image, packet, &mut data.to_vec());
        }
        Bug::IndexAfterBuffer if is_refused_with_4(record, image, packet, data) => return 4,
        _ => (),
    }
    number
}

fn is_refused_with_4(record: &[u8; 16], image: &[u8], packet: &[u8], data: &[u8]) -> bool {
    let (mut record, mut image, mut data) = (*record, image.to_vec(), data.to_vec());
    packet::packet(&mut record, &mut image, packet, &mut data)[0] == 4
}

/// A packet under way, as it was before.
pub struct Mistaken {
    bug: Bug,
    record: [u8; 16],
    index: Vec<u8>,
    packet: Vec<u8>,
    header: Option<Header>,
    places: Vec<u32>,
}

impl Mistaken {
    /// What was there is looked at only where a mistake is planted.
    pub fn of(bug: Bug, record: &[u8; 16], image: &[u8], index: &[u8], packet: &[u8]) -> Mistaken {
        let mut mistaken = Mistaken {
            bug,
            record: *record,
            index: Vec::new(),
            packet: packet.to_vec(),
            header: None,
            places: Vec::new(),
        };
        if bug != Bug::None {
            mistaken.header = Header::of(image);
            mistaken.places = mistaken
                .header
                .map_or(Vec::new(), |header| places(Bug::None, &header, image));
            mistaken.index = index.to_vec();
        }
        mistaken
    }

    /// The record that a mistaken SPACE over filemarks begins with.
    pub fn begin(&self, record: &mut [u8; 16]) {
        if !self.spaces_filemarks() {
            return;
        }
        let ready = self.state().loaded && self.state().attention == Attention::None;
        match self.bug {
            Bug::IndexSpacePassesAttention => record[ATTENTION_AT] = 0,
            Bug::IndexSpaceNeedsNoCartridge => record[LOADED_AT] |= 1,
            _ if ready => put_long(record, 0, self.place_begun_at()),
            _ => (),
        }
    }

    fn place_begun_at(&self) -> u32 {
        let place = self.place();
        let at_filemark = self.places.contains(&place);
        let last = self.places.last().copied().unwrap_or(place);
        match self.bug {
            Bug::SpaceMissesFilemarkAtPlace if at_filemark && self.goes_on() => place + 1,
            Bug::SpaceBackTakesFilemarkAtPlace if at_filemark && !self.goes_on() => place + 1,
            Bug::SpaceCountsFromBeginning if self.goes_on() => 0,
            Bug::SpaceStuckAtLastEntry => place.min(last),
            _ => place,
        }
    }

    /// What a mistake leaves of record and index, and what it answers.
    pub fn end(
        &self,
        record: &mut [u8; 16],
        index: &mut [u8],
        told: ([u8; 16], Ending),
    ) -> ([u8; 16], Ending) {
        let (Some(header), false) = (self.header, self.bug == Bug::None) else {
            return told;
        };
        if let Some(places) = self.kept_otherwise(&header, told.1, long_at(&told.0, 4)) {
            index.copy_from_slice(&self.index);
            lay_out(self.bug, &header, &places, index);
        }
        if self.spaces_filemarks() {
            return self.end_space(record, told);
        }
        told
    }

    /// The entries that are left by a mistake, none where it leaves the right ones.
    fn kept_otherwise(&self, header: &Header, ending: Ending, stored: u32) -> Option<Vec<u32>> {
        let opcode = self.packet[0];
        let stores = [WRITE, WRITE_FILEMARK].contains(&opcode);
        let unloads = opcode == LOAD_UNLOAD && !door::loads(&self.packet);
        let below = || self.below(self.place());
        match self.bug {
            Bug::WriteKeepsIndex if opcode == WRITE => Some(self.places.clone()),
            Bug::FilemarksKeepIndex if opcode == WRITE_FILEMARK => Some(self.places.clone()),
            Bug::FullWriteKeepsIndex if ending == Ending::CartridgeFull => {
                Some(self.places.clone())
            }
            Bug::WarnedWriteKeepsIndex if ending == Ending::EarlyWarning => {
                Some(self.places.clone())
            }
            Bug::EmptyWriteCutsIndex if stores && ending == Ending::Good && stored == 0 => {
                Some(below())
            }
            Bug::ProtectedWriteCutsIndex if ending == Ending::Protected => Some(below()),
            Bug::RefusedWriteCutsIndex if stores && ending == Ending::Refused(4) => Some(below()),
            Bug::UnloadClearsIndex if unloads && ending == Ending::Good => Some(Vec::new()),
            _ if stores && stored > 0 => self.rewritten_otherwise(header, stored),
            _ => None,
        }
    }

    /// The same, where elements were stored.
    fn rewritten_otherwise(&self, header: &Header, stored: u32) -> Option<Vec<u32>> {
        let place = self.place();
        let marks = self.packet[0] == WRITE_FILEMARK;
        let new = |count: u32| if marks { place..place + count } else { 0..0 };
        let mut left = self.below(place);
        match self.bug {
            Bug::FilemarksIndexedOnce => left.extend(new(1)),
            Bug::FilemarksIndexedAsAsked => left.extend(new(self.count().min(header.capacity))),
            Bug::EntriesLeftBehind => {
                left.extend(new(stored));
                left.extend(
                    self.places
                        .iter()
                        .skip(left.len())
                        .copied()
                        .collect::<Vec<u32>>(),
                );
            }
            Bug::EntryAtPlaceKept => {
                left = self.below(place + 1);
                left.extend(new(stored));
            }
            Bug::EntryBeforePlaceDropped => {
                left = self.below(place.saturating_sub(1));
                left.extend(new(stored));
            }
            _ => return None,
        }
        Some(left)
    }

    /// The end of a SPACE over filemarks, where a mistake makes another of it.
    fn end_space(&self, record: &mut [u8; 16], told: ([u8; 16], Ending)) -> ([u8; 16], Ending) {
        let mut state = State::decoded(self.bug, record);
        let ending = told.1;
        let at_end = matches!(ending, Ending::AtEndOfData | Ending::AtEndOfDataPastWarning);
        let stopped = at_end || ending == Ending::AtBeginning;
        let good = ending == Ending::Good;
        let moved = good && self.magnitude() > 0;
        match self.bug {
            Bug::IndexSpacePassesAttention => state.attention = self.state().attention,
            Bug::IndexSpaceNeedsNoCartridge => state.loaded = self.state().loaded,
            Bug::IndexSpaceEndsBefore if moved && self.goes_on() => state.position -= 1,
            Bug::SpaceOfNoneMoves if good && !moved => state.position = self.behind_last_before(),
            Bug::SpaceEndsBehindLastEntry if at_end => state.position = self.behind_last(),
            Bug::SpaceBackEndsAtFirstEntry if stopped && !at_end => state.position = self.first(),
            Bug::SpaceCountsAllEntries if at_end => state.sense.information = self.beyond_all(),
            Bug::IndexSpaceResidueShort if stopped => state.sense.information -= 1,
            Bug::IndexSpaceHidesEom if at_end => state.sense.eom = false,
            Bug::IndexSpaceBeginningHidesEom if stopped && !at_end => state.sense.eom = false,
            Bug::IndexSpaceKeepsSense if good => state.sense = self.state().sense,
            Bug::IndexSpaceLowestIsNone if stopped && self.count() == LOWEST_COUNT => {
                state.position = self.place();
                state.sense = Sense::ZERO;
                *record = state.encoded();
                return (Reply::good().encoded(), Ending::Good);
            }
            _ => (),
        }
        *record = state.encoded();
        told
    }

    fn state(&self) -> State {
        State::decoded(self.bug, &self.record)
    }

    fn place(&self) -> u32 {
        self.state().position
    }

    fn count(&self) -> u32 {
        triple_at(&self.packet, 2)
    }

    fn goes_on(&self) -> bool {
        self.count() < LOWEST_COUNT
    }

    fn magnitude(&self) -> u32 {
        if self.goes_on() {
            self.count()
        } else {
            COUNTS_END - self.count()
        }
    }

    fn spaces_filemarks(&self) -> bool {
        self.packet[0] == SPACE && self.packet[1] % 8 == 1
    }

    /// The entries below a place.
    fn below(&self, place: u32) -> Vec<u32> {
        let entries = self.places.iter().copied();
        entries.filter(|&entry| entry < place).collect()
    }

    fn behind_last_before(&self) -> u32 {
        self.below(self.place()).last().map_or(0, |last| last + 1)
    }

    fn behind_last(&self) -> u32 {
        let last = self.places.last().map_or(0, |last| last + 1);
        last.max(self.place())
    }

    fn first(&self) -> u32 {
        let first = self.places.first().copied().unwrap_or(self.place());
        first.min(self.place())
    }

    fn beyond_all(&self) -> u32 {
        self.magnitude().saturating_sub(self.places.len() as u32)
    }
}
