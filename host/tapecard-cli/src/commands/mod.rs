//! The commands by name.

mod cartridge;
mod export;
mod get;
mod import;
mod info;
mod labels;
mod list;
mod new;
mod packet;
mod pulse;
mod put;
mod recover;

use std::ffi::OsString;
use std::io::Write;
use std::path::Path;

use crate::command_line::args::{Args, Options};
use crate::command_line::failure::Failure;
use crate::files::image_file;
use crate::tape::drive::Drive;
use crate::terminal::output;
use crate::words;

struct Command {
    name: &'static str,
    summary: &'static str,
    help: &'static [&'static str],
    options: Options,
    run: fn(&Args, &mut dyn Write) -> Result<(), Failure>,
}

static COMMANDS: [Command; 11] = [
    new::COMMAND,
    info::COMMAND,
    put::COMMAND,
    get::COMMAND,
    list::COMMAND,
    labels::COMMAND,
    export::COMMAND,
    import::COMMAND,
    packet::COMMAND,
    pulse::COMMAND,
    recover::COMMAND,
];

const NO_OPTIONS: Options = Options {
    flags: &[],
    valued: &[],
};

const HELP_HEAD: &str = "\
tapecard: cartridge images, packets and pulses of the drive card

usage: tapecard COMMAND ..

";

const HELP_TAIL: &str = "
tapecard COMMAND --help tells more about a command, tapecard --version its
version.
Exit status: 0 done; 1 it could not be done, or the drive refused a call; 2 the
command line is wrong; 3 the drive answered CHECK CONDITION (packet).
An image or a record is replaced only when whole, and only if it is still the
one that was read: what fails leaves it as it was.
";

/// Runs the command that the first word names.
pub fn run(words: &[OsString], out: &mut dyn Write) -> Result<(), Failure> {
    let Some((first, rest)) = words.split_first() else {
        output::show(out, general_help().as_bytes())?;
        return Err(Failure::usage("no command is given"));
    };
    match first.to_str() {
        Some("help" | "--help" | "-h") => help(rest, out),
        Some("version" | "--version" | "-V") => version(rest, out),
        _ => run_command(find(first)?, rest, out),
    }
}

fn run_command(
    command: &'static Command,
    words: &[OsString],
    out: &mut dyn Write,
) -> Result<(), Failure> {
    if words.iter().take_while(|word| *word != "--").any(is_help) {
        return output::show(out, command.help.concat().as_bytes());
    }
    let args = Args::parse(command.name, &command.options, words)?;
    (command.run)(&args, out)
}

/// The drive of a command whose only operand is an image to look at.
fn open_only_image(args: &Args) -> Result<(&Path, Drive), Failure> {
    let path = Path::new(args.operand(0, "the image")?);
    args.at_most(1)?;
    Ok((path, image_file::load(path)?))
}

/// What is said of a tape without files.
fn no_files(path: &Path) -> String {
    format!("{} holds no files\n", words::shown(path))
}

fn help(words: &[OsString], out: &mut dyn Write) -> Result<(), Failure> {
    let text = match words {
        [] => general_help(),
        [word] if word == "help" || word == "version" || is_help(word) => general_help(),
        [name] => find(name)?.help.concat(),
        [_, second, ..] => return Err(too_many(second)),
    };
    output::show(out, text.as_bytes())
}

fn version(words: &[OsString], out: &mut dyn Write) -> Result<(), Failure> {
    match words {
        [] => output::show(
            out,
            concat!("tapecard ", env!("CARGO_PKG_VERSION"), "\n").as_bytes(),
        ),
        [word, ..] => Err(too_many(word)),
    }
}

fn too_many(word: &OsString) -> Failure {
    Failure::usage(format!(
        "{} is one word too many; see tapecard --help",
        words::shown(word)
    ))
}

fn is_help(word: &OsString) -> bool {
    word == "--help" || word == "-h"
}

fn find(name: &OsString) -> Result<&'static Command, Failure> {
    let found = COMMANDS.iter().find(|command| name == command.name);
    found.ok_or_else(|| {
        let names: Vec<&str> = COMMANDS.iter().map(|command| command.name).collect();
        Failure::usage(format!(
            "there is no command {}: the commands are {}; see tapecard --help",
            words::shown(name),
            names.join(", ")
        ))
    })
}

fn general_help() -> String {
    let mut text = String::from(HELP_HEAD);
    for command in &COMMANDS {
        text.push_str(&format!("  {:<8} {}\n", command.name, command.summary));
    }
    text + HELP_TAIL
}
