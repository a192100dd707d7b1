//! `tapecard recover`: a workstation that lost track of its pulse drive gets it back.
//!
//! After as many ticks as a track has segments every motion has ended. Then come 46 trains, sent by one call: eighteen 2s close
//! whatever report is open, 6 and nine 2s ask for the status, 7 and seventeen 2s ask for the error, which clears it.

use std::io::Write;

use tapecard::bytes::train;
use tapecard::pulse::Record;
use tapecard::{Device, Refusal};

use super::Command;
use crate::command_line::args::{Args, Options};
use crate::command_line::failure::Failure;
use crate::files::held_file::unwritten;
use crate::files::record_file::RecordFile;
use crate::pulses::exchange::{Sent, Step};
use crate::pulses::reports::{self, Heard, Listener};
use crate::pulses::state;
use crate::terminal::output;
use crate::words;

const CLOSING_TWOS: usize = 18;

const HELP: &str = "\
usage: tapecard recover [--record FILE]

Brings a lost pulse drive back: after as many ticks as its track has segments
come the 46 recovery trains (eighteen 2s; 6 and nine 2s; 7 and seventeen 2s),
sent by one call, each shown with its bit. Tells which error was held and by
which command, and how the drive stands.
  --record FILE  the drive's record, as tapecard pulse keeps it; it must be
                 there. Without it a drive just switched on is shown
";

pub const COMMAND: Command = Command {
    name: "recover",
    summary: "bring a lost pulse drive back",
    help: &[HELP],
    options: Options {
        flags: &[],
        valued: &["--record"],
    },
    run,
};

fn run(args: &Args, out: &mut dyn Write) -> Result<(), Failure> {
    args.at_most(0)?;
    let file = args.path("--record");
    let file = file.map(|path| RecordFile::take(path, Device::Pulse));
    let mut file = file.transpose()?;
    let mut station = Station {
        record: lost_drive(file.as_ref())?,
        listener: Listener::default(),
    };
    let mut told = Vec::new();
    station.tell("before", &mut told)?;
    let ticks = station.let_time_pass()?;
    station.tell(&words::count(ticks.into(), "tick"), &mut told)?;
    show(&station.send_all()?, &mut told)?;
    writeln!(told, "{:<11} {}", "held", station.held_error())?;
    station.tell("after", &mut told)?;
    if let Some(file) = &mut file {
        file.keep(&station.record.0)
            .map_err(|e| unwritten(file.path(), &e, "it has the drive as it was before"))?;
    }
    let verdict = station.verdict(&mut told);
    let told = String::from_utf8_lossy(&told);
    let told = output::tell_done(out, &told, "the trains were sent and the record is kept");
    verdict.and(told)
}

/// A record that is named must be there: a drive made up in its place would be back at once and prove nothing.
fn lost_drive(file: Option<&RecordFile<32>>) -> Result<Record, Failure> {
    let Some(file) = file else {
        return Ok(Record::power_on(0, 0));
    };
    file.kept().map(Record).ok_or_else(|| {
        Failure::work(format!(
            "the record {} is not there, so there is no drive to bring back; name the file that tapecard pulse keeps",
            words::shown(file.path())
        ))
    })
}

/// One train of the recovery, its level and what it means.
#[derive(PartialEq, Eq)]
struct Row {
    pulses: u16,
    level: u8,
    meaning: String,
}

struct Station {
    record: Record,
    listener: Listener,
}

impl Station {
    fn tell(&self, when: &str, out: &mut dyn Write) -> Result<(), Failure> {
        writeln!(out, "{when:<11} {}", state::summary(&self.record))?;
        Ok(())
    }

    /// As many ticks as the track has segments.
    fn let_time_pass(&mut self) -> Result<u16, Failure> {
        let segments = self.record.segments();
        for _ in 0..segments {
            self.record.tick().map_err(bad_record)?;
        }
        Ok(segments)
    }

    /// Sends the 46 trains by one call.
    fn send_all(&mut self) -> Result<Vec<Row>, Failure> {
        let trains = recovery_trains();
        let sent = Sent::by_one_call(&self.record, &trains).map_err(bad_record)?;
        let exchange = sent.walked()?;
        self.record = exchange.left;
        Ok(exchange.steps.iter().map(|step| self.row(step)).collect())
    }

    fn row(&mut self, step: &Step) -> Row {
        let heard = self.listener.hear(step);
        Row {
            pulses: step.pulses,
            level: step.level.is_high().into(),
            meaning: self.meaning(step, &heard),
        }
    }

    fn meaning(&self, step: &Step, heard: &Heard) -> String {
        let (pulses, before) = (step.pulses, &step.before);
        match heard {
            Heard::Nothing if pulses == train::NEXT_BIT && before.waiting_code() == 0 => {
                "no report is open: nothing happens".into()
            }
            Heard::Nothing => state::meaning(pulses, before),
            Heard::Opened => format!("{}: acknowledged", state::meaning(pulses, before)),
            Heard::Bit(index) => {
                let code = self.listener.code().unwrap_or(0);
                reports::bit_in_words(code, *index, step.level.is_high())
            }
            Heard::UnknownBit => "a bit of the report that was left open".into(),
            Heard::Repeat => "the last level once more, owed by the open report".into(),
            Heard::Closed => "final 1: the report is closed".into(),
            Heard::Ignored => "ignored".into(),
            Heard::BrokenOff => "the open report is broken off".into(),
        }
    }

    /// The error as the last report's bits tell it.
    fn held_error(&self) -> String {
        let number = |first, beyond| self.listener.number(first, beyond) as u8;
        words::pulses::error(number(0, 8), number(8, 16))
    }

    fn verdict(&self, out: &mut dyn Write) -> Result<(), Failure> {
        let record = &self.record;
        let clean = record.error() == 0 && !record.new_mark() && record.report_left() == 0;
        if !record.ready() || !clean {
            return Err(Failure::work(
                "the drive is not back: it moves, or an error, the new mark or a report is left; run recover again",
            ));
        }
        writeln!(
            out,
            "the drive is back: ready, no error, no new-cartridge mark, no open report"
        )?;
        Ok(())
    }
}

fn recovery_trains() -> Vec<u16> {
    let mut trains = vec![train::NEXT_BIT; CLOSING_TWOS];
    for report in [train::STATUS, train::ERROR] {
        trains.extend(reports::trains(report).unwrap_or_default());
    }
    trains
}

/// A line for each train; trains that do the same one after the other share theirs.
fn show(rows: &[Row], out: &mut dyn Write) -> Result<(), Failure> {
    writeln!(out)?;
    writeln!(out, "trains  pulses  level  meaning")?;
    let mut first = 1;
    for alike in rows.chunk_by(|a, b| a == b) {
        let last = first + alike.len() - 1;
        let numbers = if first == last {
            first.to_string()
        } else {
            format!("{first}-{last}")
        };
        let Row {
            pulses,
            level,
            meaning,
        } = &alike[0];
        writeln!(out, "{numbers:>6}  {pulses:>6}  {level:>5}  {meaning}")?;
        first = last + 1;
    }
    writeln!(out)?;
    Ok(())
}

fn bad_record(refusal: Refusal) -> Failure {
    Failure::work(format!(
        "the record is none that this drive can have ({refusal}); name another with --record, or remove the file to \
         start from power-on"
    ))
}
