//! The command `tapecard`: cartridge images, packets and pulses at a terminal.

mod command_line;
mod commands;
mod files;
mod pulses;
mod simh;
mod system;
mod tape;
mod terminal;
mod words;

use std::env;
use std::ffi::OsString;
use std::io;
use std::process::ExitCode;

use terminal::interrupt;

fn main() -> ExitCode {
    interrupt::watch();
    let words: Vec<OsString> = env::args_os().skip(1).collect();
    match commands::run(&words, &mut io::stdout()) {
        Ok(()) => ExitCode::SUCCESS,
        Err(failure) => failure.say(),
    }
}
