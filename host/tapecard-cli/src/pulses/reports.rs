//! The reports of the pulse drive: bits collected train by train, then explained by table 2c of QIC-117.

use tapecard::bytes::train;

use super::exchange::Step;
use crate::words;

/// Bits of a report without its final 1, where this train asks for one.
pub fn length(pulses: u16) -> Option<usize> {
    match pulses {
        train::STATUS | train::CONFIGURATION | train::ROM | train::TAPE_STATUS => Some(8),
        train::ERROR | train::VENDOR => Some(16),
        _ => None,
    }
}

/// The trains that bring a whole report: its own, a 2 for each bit and one for the final 1.
pub fn trains(pulses: u16) -> Option<Vec<u16>> {
    let mut trains = vec![pulses];
    trains.resize(length(pulses)? + 2, train::NEXT_BIT);
    Some(trains)
}

/// What a train meant for the report.
#[derive(Debug, PartialEq, Eq)]
pub enum Heard {
    /// It has nothing to do with a report.
    Nothing,
    /// It opened a report.
    Opened,
    /// It brought the bit with this number.
    Bit(usize),
    /// It brought a bit of a report that was open before anybody listened.
    UnknownBit,
    /// It brought the last level once more.
    Repeat,
    /// It was ignored, and the next 2 repeats the last level.
    Ignored,
    /// It brought the final 1.
    Closed,
    /// It ended the report before its time.
    BrokenOff,
}

/// Listens to the trains and holds the report that they bring.
#[derive(Default)]
pub struct Listener {
    code: Option<u16>,
    bits: Vec<bool>,
}

impl Listener {
    /// Takes in one train by its level and by the records before and after it.
    pub fn hear(&mut self, step: &Step) -> Heard {
        let (was_left, left) = (step.before.report_left(), step.after.report_left());
        if was_left == 0 {
            if left == 0 {
                return Heard::Nothing;
            }
            self.code = Some(step.pulses);
            self.bits.clear();
            return Heard::Opened;
        }
        if step.pulses != train::NEXT_BIT {
            return if left == 0 {
                Heard::BrokenOff
            } else {
                Heard::Ignored
            };
        }
        if left == was_left {
            Heard::Repeat
        } else if left == 0 {
            Heard::Closed
        } else {
            self.hear_bit(step.level.is_high())
        }
    }

    fn hear_bit(&mut self, bit: bool) -> Heard {
        if self.code.is_none() {
            return Heard::UnknownBit;
        }
        self.bits.push(bit);
        Heard::Bit(self.bits.len() - 1)
    }

    /// The train that opened the report.
    pub fn code(&self) -> Option<u16> {
        self.code
    }

    /// The closed report in words, a line each.
    pub fn explain(&self) -> Vec<String> {
        match self.code {
            Some(code) if length(code) == Some(self.bits.len()) => explain(code, &self.bits),
            _ => vec![
                "the report was opened before this session, so its bits stay unexplained".into(),
            ],
        }
    }

    /// The number that the bits from `first` to before `beyond` make, lowest first.
    pub fn number(&self, first: usize, beyond: usize) -> u16 {
        number(self.bits.get(first..beyond).unwrap_or_default())
    }
}

const STATUS: [&str; 8] = [
    "ready",
    "error held",
    "cartridge in",
    "write protected",
    "new cartridge",
    "referenced",
    "at beginning of tape",
    "at end of tape",
];

/// What one bit of a report says.
pub fn bit_in_words(code: u16, index: usize, bit: bool) -> String {
    let value = u8::from(bit);
    match (code, index) {
        (train::STATUS, 0..8) => format!("{}: {}", STATUS[index], words::yes_no(bit)),
        (train::ERROR, 0..8) => format!("error number, bit {index}: {value}"),
        (train::ERROR, 8..16) => format!("its command, bit {}: {value}", index - 8),
        _ => format!("bit {index}: {value}"),
    }
}

fn explain(code: u16, bits: &[bool]) -> Vec<String> {
    match code {
        train::STATUS => (0..8)
            .map(|i| bit_in_words(train::STATUS, i, bits[i]))
            .collect(),
        train::ERROR => vec![words::pulses::error(small(&bits[..8]), small(&bits[8..]))],
        train::CONFIGURATION => configuration(bits),
        train::ROM => vec![format!(
            "ROM version {}{}",
            number(&bits[..7]),
            if bits[7] { ", beta" } else { "" }
        )],
        train::VENDOR => vec![format!("vendor ID {0} ({0:04X}h)", number(bits))],
        train::TAPE_STATUS => tape_status(bits),
        _ => Vec::new(),
    }
}

fn configuration(bits: &[bool]) -> Vec<String> {
    let rate = small(&bits[3..5]);
    vec![
        format!("rate {rate}: {}", words::pulses::rate(rate)),
        format!("extra length tape: {}", words::yes_no(bits[6])),
        format!("QIC-80 mode: {}", words::yes_no(bits[7])),
    ]
}

fn tape_status(bits: &[bool]) -> Vec<String> {
    let (format, kind) = (small(&bits[..4]), small(&bits[4..7]));
    vec![
        format!(
            "tape format {format}: {}",
            words::pulses::tape_format(format)
        ),
        format!("tape type {kind}: {}", words::pulses::tape_type(kind)),
        format!("wide tape: {}", words::yes_no(bits[7])),
    ]
}

/// The number that bits make, lowest first.
fn number(bits: &[bool]) -> u16 {
    let add = |sum: u16, bit: &bool| sum * 2 + u16::from(*bit);
    bits.iter().rev().fold(0, add)
}

fn small(bits: &[bool]) -> u8 {
    number(bits) as u8
}

#[cfg(test)]
mod tests {
    use super::*;

    fn bits(text: &str) -> Vec<bool> {
        text.chars().map(|c| c == '1').collect()
    }

    #[test]
    fn the_trains_of_a_report_bring_its_bits_and_the_final_1() {
        assert_eq!(trains(6), Some(vec![6, 2, 2, 2, 2, 2, 2, 2, 2, 2]));
        for report in [7, 8, 9, 32, 33] {
            let mut record = tapecard::pulse::Record::power_on(0, 0);
            for pulses in trains(report).unwrap() {
                assert_ne!(record.report_left() == 0, pulses == train::NEXT_BIT);
                record.train(pulses).unwrap();
            }
            assert_eq!(record.report_left(), 0, "{report}");
        }
        assert_eq!(trains(10), None);
    }

    #[test]
    fn power_on_is_error_26_without_a_command() {
        let words = explain(7, &bits("0101100000000000"));
        assert_eq!(words, ["error 26, power on reset occurred, by no command"]);
    }

    #[test]
    fn the_other_reports_by_their_fields() {
        assert_eq!(explain(9, &bits("10000001")), ["ROM version 1, beta"]);
        assert_eq!(
            explain(32, &bits("0100000000000001")),
            ["vendor ID 32770 (8002h)"]
        );
        assert_eq!(explain(8, &bits("00001000"))[0], "rate 2: 500 Kbps");
        assert_eq!(
            explain(33, &bits("01000101")),
            [
                "tape format 2: QIC-80",
                "tape type 2: 307.5 ft. 550 Oe (XL)",
                "wide tape: yes"
            ]
        );
        assert_eq!(explain(6, &bits("10000000"))[0], "ready: yes");
    }
}
