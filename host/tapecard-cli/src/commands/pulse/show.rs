//! What a pulse session shows of its trains.

use std::io::Write;

use tapecard::Refusal;
use tapecard::bytes::train;
use tapecard::pulse::Record;

use super::line::Trains;
use crate::command_line::failure::Failure;
use crate::pulses::exchange::Step;
use crate::pulses::reports;
use crate::words;

/// Levels shown of a train that is sent very often.
const SHOWN_LEVELS: usize = 64;

/// Trains shown of a line that has very many.
const SHOWN_TRAINS: usize = 8;

/// Lines that belong to the one above them.
pub fn below(out: &mut dyn Write, lines: &[String]) -> Result<(), Failure> {
    for line in lines {
        writeln!(out, "         {line}")?;
    }
    Ok(())
}

pub fn trains(trains: &Trains) -> String {
    match trains.times {
        1 => trains.pulses.to_string(),
        times => format!("{} x{times}", trains.pulses),
    }
}

/// A line of trains.
pub fn line(list: &[Trains]) -> String {
    first_of(list, SHOWN_TRAINS, trains)
}

pub fn levels(steps: &[Step]) -> String {
    let heading = if steps.len() == 1 { "level" } else { "levels" };
    let levels = first_of(steps, SHOWN_LEVELS, |step| step.level.to_string());
    format!("{heading} {levels}")
}

fn first_of<T>(all: &[T], most: usize, shown: impl Fn(&T) -> String) -> String {
    let first: Vec<String> = all.iter().take(most).map(shown).collect();
    let mut text = first.join(" ");
    if all.len() > most {
        text.push_str(&format!(" and {} more", all.len() - most));
    }
    text
}

/// A line that the drive refused, why, and what to do about it.
pub fn unsent(
    line: &str,
    counts: &[u16],
    refusal: Refusal,
    out: &mut dyn Write,
) -> Result<(), Failure> {
    let empty = counts.iter().position(|&pulses| pulses == 0);
    let (which, advice) = match (refusal.number, empty) {
        (5, Some(index)) => (
            format!(", train {} of the line", index + 1),
            ". Give it 1 to 65535 pulses, or leave it out",
        ),
        (8, _) => (
            String::new(),
            ". Name another record with --record, or remove the file to start from power-on",
        ),
        _ => (String::new(), ""),
    };
    writeln!(
        out,
        "{line:<8} refused, {}: {}{which}; nothing of the line was sent{advice}",
        refusal.number,
        refusal.sentence()
    )?;
    Ok(())
}

/// A held error keeps the drive from every command but reset and reports, and nothing else shows that.
pub fn not_obeyed(pulses: u16, before: &Record) -> Option<String> {
    let always_taken = pulses <= train::NEXT_BIT || reports::length(pulses).is_some();
    let command = words::pulses::train_name(pulses).is_some() && !always_taken;
    let held = before.error() != 0 && before.report_left() == 0;
    (command && held).then(|| "not obeyed: an error is held; ask 7 tells and clears it".into())
}
