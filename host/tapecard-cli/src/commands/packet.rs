//! `tapecard packet`: packets one by one, each with its answer in words and bytes.

mod device;
mod options;
mod room;
mod session;
mod show;

use std::ffi::OsString;
use std::io::{self, Write};

use super::Command;
use crate::command_line::args::{Args, Options};
use crate::command_line::failure::Failure;
use crate::terminal::script;
use crate::words;
use session::PacketSession;

const HELP: &str = "\
usage: tapecard packet IMAGE [--device stream|floppy] [--record FILE] [--cold]
                             [--data FILE] [--out FILE] [--force] [--any-answer]
                             [--room BYTES] [BYTE..]

Sends a packet of twelve hexadecimal bytes, or without bytes each line of
standard input, and shows status, blocks (of a READ also how many are marked),
bytes, position and sense, and after MODE SELECT and MODE SENSE the speed: 250
where the drive was just switched on.
PREVENT/ALLOW MEDIUM REMOVAL (1E, byte 4 bit 0) locks the door or unlocks it.
While it is locked every answer says so, and an unload is stopped.
A line may also be `change` (another cartridge was put in) or `quit`; # begins
a comment.
What a packet stored is on the disk before its answer is shown, so an interrupt
(Ctrl-C) loses nothing that was answered; a bad line ends a script there.
  --device D     stream (usually), or floppy: blocks by number, rewritten in
                 place, no filemarks. It takes an image with every element
                 recorded, which tapecard new --full makes
  --record FILE  keep the drive's record between runs, 16 bytes (floppy: 32); a
                 file that is not there is begun with a drive just switched on
  --cold         without --record: leave the attention of power-on pending, so
                 that the first packet meets it (else it is taken before)
  --data FILE    bytes that WRITE and MODE SELECT take, one after the other
  --out FILE     bytes that the other packets return, one after the other; with
                 - they go to standard output, and words to standard error
  --force        replace the file of --out where one is there
  --any-answer   end with status 0 also where the drive answered CHECK CONDITION
  --room BYTES   lend that much room to the packet, not what it needs
Exit status: 0 all GOOD; 3 the drive answered CHECK CONDITION at least once; 1 a
packet was refused, or something could not be done.
Example, two blocks read:
  tapecard packet IMAGE 08 01 00 00 02 00 00 00 00 00 00 00
";

pub const COMMAND: Command = Command {
    name: "packet",
    summary: "send packets to the packet drive",
    help: &[HELP],
    options: Options {
        flags: &["--cold", "--force", "--any-answer"],
        valued: &["--device", "--record", "--data", "--out", "--room"],
    },
    run,
};

fn run(args: &Args, out: &mut dyn Write) -> Result<(), Failure> {
    let packet = args.operands_from(1);
    options::judge(args, packet)?;
    let mut session = PacketSession::open(args)?;
    let mut errors = io::stderr();
    let out = if session.bytes_go_to_standard_output() {
        &mut errors
    } else {
        out
    };
    if packet.is_empty() {
        script::run(&mut session, out)?;
    } else {
        let mut told = Vec::new();
        session.packet(&joined(packet), &mut told)?;
        script::keep_and_tell(&mut session, &mut told, out)?;
    }
    session.verdict()
}

fn joined(words: &[OsString]) -> String {
    let words: Vec<_> = words.iter().map(words::shown).collect();
    words.join(" ")
}
