//! A list of trains as a call, and what stands out of it.

use std::fmt;

/// A list of trains, and the bytes of the level buffer that is lent with it.
#[derive(Clone, PartialEq, Eq)]
pub struct TrainList {
    pub counts: Vec<u16>,
    pub room: usize,
}

/// Where a list has counts of 0.
#[derive(Clone, Copy, Debug, PartialEq, Eq, PartialOrd, Ord)]
pub enum Zeros {
    Nowhere,
    First,
    Between,
    Last,
    /// At several places, or at the only one.
    Several,
}

/// How long a level buffer is beside its list.
#[derive(Clone, Copy, Debug, PartialEq, Eq, PartialOrd, Ord)]
pub enum Room {
    None,
    Short,
    OneShort,
    Exact,
    Longer,
}

/// How long a list is.
#[derive(Clone, Copy, Debug, PartialEq, Eq, PartialOrd, Ord)]
pub enum Length {
    Empty,
    One,
    Short,
    /// More than a byte counts.
    Long,
}

impl Zeros {
    pub const ALL: [Zeros; 5] = [
        Zeros::Nowhere,
        Zeros::First,
        Zeros::Between,
        Zeros::Last,
        Zeros::Several,
    ];
}

impl Room {
    pub const ALL: [Room; 5] = [
        Room::None,
        Room::Short,
        Room::OneShort,
        Room::Exact,
        Room::Longer,
    ];
}

impl TrainList {
    /// With a level buffer of its own length.
    pub fn of(counts: &[u16]) -> TrainList {
        TrainList::with_room(counts, counts.len())
    }

    pub fn with_room(counts: &[u16], room: usize) -> TrainList {
        TrainList {
            counts: counts.to_vec(),
            room,
        }
    }

    pub fn zeros(&self) -> Zeros {
        let counts = &self.counts;
        let mut places = (0..counts.len()).filter(|&place| counts[place] == 0);
        match (places.next(), places.next()) {
            (None, _) => Zeros::Nowhere,
            (Some(0), None) if counts.len() > 1 => Zeros::First,
            (Some(place), None) if place > 0 && place + 1 == counts.len() => Zeros::Last,
            (Some(place), None) if place > 0 => Zeros::Between,
            _ => Zeros::Several,
        }
    }

    pub fn room(&self) -> Room {
        let length = self.counts.len();
        match self.room {
            room if room > length => Room::Longer,
            room if room == length => Room::Exact,
            0 => Room::None,
            room if room + 1 == length => Room::OneShort,
            _ => Room::Short,
        }
    }

    pub fn length(&self) -> Length {
        match self.counts.len() {
            0 => Length::Empty,
            1 => Length::One,
            2..=256 => Length::Short,
            _ => Length::Long,
        }
    }
}

/// A count that is repeated is written once with how often it comes.
impl fmt::Debug for TrainList {
    fn fmt(&self, f: &mut fmt::Formatter<'_>) -> fmt::Result {
        write!(f, "TrainList of {} counts:", self.counts.len())?;
        for run in self.counts.chunk_by(|a, b| a == b) {
            match run {
                [count] => write!(f, " {count}")?,
                [count, ..] => write!(f, " {count}*{}", run.len())?,
                [] => (),
            }
        }
        write!(f, ", room {}", self.room)
    }
}

#[cfg(test)]
mod tests {
    use super::*;

    #[test]
    fn what_stands_out_of_a_list() {
        for (counts, room, stands_out) in [
            (&[][..], 0, (Zeros::Nowhere, Room::Exact, Length::Empty)),
            (&[], 1, (Zeros::Nowhere, Room::Longer, Length::Empty)),
            (&[0], 0, (Zeros::Several, Room::None, Length::One)),
            (&[0, 2], 1, (Zeros::First, Room::OneShort, Length::Short)),
            (&[2, 0, 2], 1, (Zeros::Between, Room::Short, Length::Short)),
            (&[2, 0], 2, (Zeros::Last, Room::Exact, Length::Short)),
            (&[0, 0], 2, (Zeros::Several, Room::Exact, Length::Short)),
            (&[2; 257], 0, (Zeros::Nowhere, Room::None, Length::Long)),
        ] {
            let list = TrainList::with_room(counts, room);
            assert_eq!((list.zeros(), list.room(), list.length()), stands_out);
        }
    }

    #[test]
    fn a_list_in_words() {
        let list = TrainList::of(&[7, 2, 2, 2, 9]);
        assert_eq!(
            format!("{list:?}"),
            "TrainList of 5 counts: 7 2*3 9, room 5"
        );
    }
}
