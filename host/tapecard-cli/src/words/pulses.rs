//! Trains, errors and tapes of the pulse drive in words.

use tapecard::bytes::train;
use tapecard::sense_words;

/// A train by its name in QIC-117; `None` where the drive has no such command.
pub fn train_name(pulses: u16) -> Option<&'static str> {
    let name = match pulses {
        train::SOFT_RESET => "soft reset",
        train::NEXT_BIT => "report next bit",
        train::PAUSE => "pause",
        train::STATUS => "report drive status",
        train::ERROR => "report error code",
        train::CONFIGURATION => "report drive configuration",
        train::ROM => "report ROM version",
        train::FORWARD => "logical forward",
        train::PHYSICAL_REVERSE => "physical reverse",
        train::PHYSICAL_FORWARD => "physical forward",
        train::SEEK_TRACK => "seek head to track",
        train::SEEK_LOAD_POINT => "seek load point",
        train::STOP => "stop tape",
        train::SKIP_REVERSE => "skip segments reverse",
        train::SKIP_FORWARD => "skip segments forward",
        train::SELECT_RATE => "select rate",
        train::VENDOR => "report vendor ID",
        train::TAPE_STATUS => "report tape status",
        train::SKIP_FAR_REVERSE => "skip segments extended reverse",
        train::SKIP_FAR_FORWARD => "skip segments extended forward",
        _ => return None,
    };
    Some(name)
}

/// Arguments that a train waits for.
pub fn arguments_needed(code: u8) -> u8 {
    match code.into() {
        train::SEEK_TRACK | train::SELECT_RATE => 1,
        train::SKIP_REVERSE | train::SKIP_FORWARD => 2,
        train::SKIP_FAR_REVERSE | train::SKIP_FAR_FORWARD => 3,
        _ => 0,
    }
}

/// An error of the pulse drive with the train it came with.
pub fn error(error: u8, command: u8) -> String {
    let name = sense_words::pulse_error(error);
    match train_name(command.into()) {
        _ if error == 0 => "no error".into(),
        _ if command == 0 => format!("error {error}, {name}, by no command"),
        Some(train) => format!("error {error}, {name}, by command {command}, {train}"),
        None => format!("error {error}, {name}, by command {command}"),
    }
}

pub fn rate(rate: u8) -> &'static str {
    match rate {
        0 => "4 Mbps or 250 Kbps",
        1 => "2 Mbps",
        2 => "500 Kbps",
        3 => "1 Mbps",
        _ => "unknown",
    }
}

pub fn tape_format(format: u8) -> &'static str {
    match format {
        0 => "unknown",
        1 => "QIC-40",
        2 => "QIC-80",
        3 => "QIC-3020-MC",
        4 => "QIC-3010-MC",
        _ => "reserved",
    }
}

pub fn tape_type(kind: u8) -> &'static str {
    match kind {
        0 => "unknown",
        1 => "205 ft. or 425+ ft. 550 Oe",
        2 => "307.5 ft. 550 Oe (XL)",
        3 => "variable length 550 Oe",
        4 => "1100 ft. 550 Oe",
        6 => "variable length 900 Oe",
        _ => "reserved",
    }
}
