//! `tapecard pulse`: a session with the pulse drive, line by line.

mod line;
mod session;
mod show;

use std::io::Write;

use tapecard::Device;
use tapecard::pulse::Record;

use super::Command;
use crate::command_line::args::{Args, Options};
use crate::command_line::failure::Failure;
use crate::files::record_file::RecordFile;
use crate::terminal::script;
use session::PulseSession;

const HELP: &str = "\
usage: tapecard pulse [--record FILE] [--vendor N] [--rom N]

A session with the pulse drive: each line of standard input is a call. The
trains of a line are one exchange: all of them are sent, or none where one is 0.
What a line changed is on the disk before its answer is shown, so an interrupt
(Ctrl-C) loses nothing that was answered; a bad line ends a script there.
  --record FILE  keep the drive's record of 32 bytes between runs; a file that
                 is not there is begun with a drive just switched on
  --vendor N     vendor ID of a drive switched on, 0 to 65535
  --rom N        ROM version of a drive switched on, 0 to 255

";

const LINES: &str = "\
lines:
  6              a train of 6 pulses; also: train 6
  2 x18          eighteen trains of 2; several may stand on a line: 35 14 4 3;
                 with a 0 among them nothing of the line is sent
  ask 6          a report with all its bits: 6 status, 7 error,
                 8 configuration, 9 ROM, 32 vendor, 33 tape
  tick 5         five ticks of time pass
  wait 4095      ticks until ready, at most 4095
  insert segments=207 tracks=28 [place=40] [format=2] [type=1] [burst]
         [protected] [wide]
  remove         takes the cartridge out
  state          all of the drive's record
  help, quit
";

pub const COMMAND: Command = Command {
    name: "pulse",
    summary: "a session with the pulse drive",
    help: &[HELP, LINES],
    options: Options {
        flags: &[],
        valued: &["--record", "--vendor", "--rom"],
    },
    run,
};

fn run(args: &Args, out: &mut dyn Write) -> Result<(), Failure> {
    args.at_most(0)?;
    let file = args.path("--record");
    let file = file.map(|path| RecordFile::take(path, Device::Pulse));
    let mut file = file.transpose()?;
    let record = starting_record(args, file.as_ref())?;
    let mut session = PulseSession::new(record, file.as_mut());
    session.tell_start(out)?;
    script::run(&mut session, out)?;
    session.verdict()
}

/// The record of the file, or one of a drive just switched on.
fn starting_record(args: &Args, file: Option<&RecordFile<32>>) -> Result<Record, Failure> {
    let vendor = args.number("--vendor", 0..=65_535)?;
    let rom = args.number("--rom", 0..=255)?;
    let Some(kept) = file.and_then(RecordFile::kept) else {
        let (vendor, rom) = (vendor.unwrap_or(0), rom.unwrap_or(0));
        return Ok(Record::power_on(vendor as u16, rom as u8));
    };
    if vendor.or(rom).is_some() {
        return Err(args.wrong(
            "--vendor and --rom are for a drive switched on, and --record names one that is on already".into(),
        ));
    }
    Ok(Record(kept))
}
