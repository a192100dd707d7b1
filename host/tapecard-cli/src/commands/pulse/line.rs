//! One line of a pulse session, read.

use std::iter;

use tapecard::pulse::Cartridge;

use crate::command_line::failure::Failure;
use crate::words;

/// A cartridge has at most 4,095 segments, so nobody needs more of anything at once.
const MOST_TIMES: u32 = 65_535;

/// A line is one list in memory: some bytes must not ask for all there is.
const MOST_TRAINS: u64 = 1_048_576;

#[derive(Debug, PartialEq, Eq)]
pub enum Line {
    Trains(Vec<Trains>),
    /// A report train with all the 2s that its report takes.
    Ask(u16),
    Tick(u32),
    Insert(Cartridge),
    Remove,
    Wait(u32),
    State,
    Help,
    Quit,
}

/// The same train several times.
#[derive(Debug, PartialEq, Eq)]
pub struct Trains {
    pub pulses: u16,
    pub times: u32,
}

/// The pulses of each train of a line, in the order they are sent in.
pub fn counts(list: &[Trains]) -> Vec<u16> {
    let each = |trains: &Trains| iter::repeat_n(trains.pulses, trains.times as usize);
    list.iter().flat_map(each).collect()
}

pub fn read(line: &str) -> Result<Line, Failure> {
    let all: Vec<&str> = line.split_whitespace().collect();
    let (first, rest) = all.split_first().unwrap_or((&"help", &[]));
    match (*first, rest) {
        ("train", trains) => read_trains(trains),
        ("ask", [pulses]) => Ok(Line::Ask(read_pulses(pulses)?)),
        ("ask", _) => Err(wrong(
            "say ask and the number of a report: 6, 7, 8, 9, 32 or 33",
        )),
        ("tick", []) => Ok(Line::Tick(1)),
        ("tick", [times]) => Ok(Line::Tick(read_times(times)?)),
        ("insert", described) => Ok(Line::Insert(read_cartridge(described)?)),
        ("remove", []) => Ok(Line::Remove),
        ("wait", [limit]) => Ok(Line::Wait(read_limit(limit)?)),
        ("wait", []) => Err(wrong("say how long to wait at most, as in wait 4095")),
        ("state", []) => Ok(Line::State),
        ("help", []) => Ok(Line::Help),
        ("quit" | "exit", []) => Ok(Line::Quit),
        _ if first.starts_with(|c: char| c.is_ascii_digit()) => read_trains(&all),
        _ => Err(wrong(&format!(
            "\"{}\" is no line of a pulse session",
            words::plain(line)
        ))),
    }
}

fn wrong(sentence: &str) -> Failure {
    Failure::work(format!("{sentence}; type help for what there is"))
}

fn read_trains(all: &[&str]) -> Result<Line, Failure> {
    let mut trains: Vec<Trains> = Vec::new();
    for word in all {
        match (word.strip_prefix('x'), trains.last_mut()) {
            (Some(times), Some(last)) => last.times = read_times(times)?,
            _ => trains.push(Trains {
                pulses: read_pulses(word)?,
                times: 1,
            }),
        }
    }
    if trains.is_empty() {
        return Err(wrong("say which train to send, as in train 6"));
    }
    let sent: u64 = trains.iter().map(|t| u64::from(t.times)).sum();
    if sent > MOST_TRAINS {
        return Err(Failure::work(format!(
            "the line has {sent} trains and an exchange at most {MOST_TRAINS}, so nothing of it is sent: put them on several lines"
        )));
    }
    Ok(Line::Trains(trains))
}

fn read_pulses(word: &str) -> Result<u16, Failure> {
    let pulses = words::number(word).and_then(|n| u16::try_from(n).ok());
    pulses.ok_or_else(|| {
        wrong(&format!(
            "\"{}\" is no train: a train has up to 65535 pulses",
            words::plain(word)
        ))
    })
}

fn read_times(word: &str) -> Result<u32, Failure> {
    let times = words::number(word).filter(|n| (1..=MOST_TIMES).contains(n));
    times.ok_or_else(|| {
        wrong(&format!(
            "\"{}\" is no number of times from 1 to {MOST_TIMES}",
            words::plain(word)
        ))
    })
}

fn read_limit(word: &str) -> Result<u32, Failure> {
    words::number(word)
        .ok_or_else(|| wrong(&format!("\"{}\" is no number of ticks", words::plain(word))))
}

fn read_cartridge(described: &[&str]) -> Result<Cartridge, Failure> {
    let mut cartridge = Cartridge {
        segments: 0,
        tracks: 0,
        place: 0,
        protected: false,
        burst: false,
        wide: false,
        format: 0,
        kind: 0,
    };
    let (mut segments, mut tracks) = (false, false);
    for word in described {
        describe(&mut cartridge, word)?;
        segments |= word.starts_with("segments=");
        tracks |= word.starts_with("tracks=");
    }
    if segments && tracks {
        Ok(cartridge)
    } else {
        Err(wrong(
            "say at least segments and tracks, as in insert segments=207 tracks=28 place=40 burst",
        ))
    }
}

fn describe(cartridge: &mut Cartridge, word: &str) -> Result<(), Failure> {
    match word.split_once('=') {
        Some(("segments", n)) => cartridge.segments = field(word, n)?,
        Some(("tracks", n)) => cartridge.tracks = field(word, n)?,
        Some(("place", n)) => cartridge.place = field(word, n)?,
        Some(("format", n)) => cartridge.format = field(word, n)?,
        Some(("type", n)) => cartridge.kind = field(word, n)?,
        None if word == "protected" => cartridge.protected = true,
        None if word == "burst" => cartridge.burst = true,
        None if word == "wide" => cartridge.wide = true,
        _ => {
            return Err(wrong(&format!(
                "\"{}\" describes no cartridge",
                words::plain(word)
            )));
        }
    }
    Ok(())
}

fn field<T: TryFrom<u32>>(word: &str, number: &str) -> Result<T, Failure> {
    let value = words::number(number).and_then(|n| T::try_from(n).ok());
    value.ok_or_else(|| {
        wrong(&format!(
            "\"{}\" has no number that fits",
            words::plain(word)
        ))
    })
}

#[cfg(test)]
mod tests {
    use super::*;

    fn trains(list: &[(u16, u32)]) -> Line {
        let train = |&(pulses, times): &(u16, u32)| Trains { pulses, times };
        Line::Trains(list.iter().map(train).collect())
    }

    #[test]
    fn trains_with_and_without_their_word() {
        assert_eq!(read("train 6").unwrap(), trains(&[(6, 1)]));
        assert_eq!(read("2 x18").unwrap(), trains(&[(2, 18)]));
        assert_eq!(
            read("35 14 4 3").unwrap(),
            trains(&[(35, 1), (14, 1), (4, 1), (3, 1)])
        );
    }

    #[test]
    fn the_trains_of_a_line_in_their_order() {
        let Line::Trains(list) = read("35 14 x2 2 x3 3").unwrap() else {
            panic!("trains");
        };
        assert_eq!(counts(&list), [35, 14, 14, 2, 2, 2, 3]);
    }

    #[test]
    fn the_most_trains_of_a_line() {
        let most = format!("{}2 x16", "2 x65535 ".repeat(16));
        assert!(matches!(read(&most), Ok(Line::Trains(list)) if counts(&list).len() == 1_048_576));
        assert!(read(&format!("{most} 2")).is_err());
    }

    #[test]
    fn a_cartridge_by_its_words() {
        let Line::Insert(c) = read("insert segments=207 tracks=28 place=40 burst type=2").unwrap()
        else {
            panic!("an insertion");
        };
        assert_eq!((c.segments, c.tracks, c.place, c.kind), (207, 28, 40, 2));
        assert!(c.burst && !c.wide && !c.protected);
    }

    #[test]
    fn lines_that_say_nothing() {
        for line in [
            "train",
            "train x",
            "x18",
            "2 x0",
            "2 x65536",
            "65536",
            "-1",
            "tick 0",
            "tick a",
            "wait",
            "wait x",
            "insert",
            "insert segments=1",
            "insert segments=1 tracks=300",
            "insert a=b",
            "ask",
            "ask 6 7",
            "remove all",
            "dance",
            "é",
        ] {
            assert!(read(line).is_err(), "{line}");
        }
    }
}
