//! `tapecard new`: a fresh image.

use std::io::Write;
use std::path::Path;

use tapecard::floppy;

use super::Command;
use super::cartridge::{self, Usual};
use crate::command_line::args::{Args, Options};
use crate::command_line::failure::Failure;
use crate::files::held_file::unwritten;
use crate::files::{image_file, output_file};
use crate::tape::drive::Drive;
use crate::tape::header::Header;
use crate::terminal::output;

const HELP: &str = "\
usage: tapecard new IMAGE [--blocks N] [--block-size 512|1024]
                          [--early-warning W | --full] [--protect] [--medium T]
                          [--force]

Makes a blank cartridge image, or with --full one of blocks of zeros.
  --blocks N         elements of the tape, 1 to 65535 (usually 1024)
  --block-size B     bytes of a block, 512 or 1024 (usually 1024)
  --early-warning W  the last W elements warn (usually a sixteenth of the tape)
  --full             every element recorded, which the floppy device needs (see
                     tapecard packet --help); such a tape has no early warning
  --protect          write protected
  --medium T         medium type, 0 to 255 (usually 0)
  --force            replace a file that is there
";

pub const COMMAND: Command = Command {
    name: "new",
    summary: "make a blank or a full cartridge image",
    help: &[HELP],
    options: Options {
        flags: &["--full", "--protect", "--force"],
        valued: &["--blocks", "--block-size", "--early-warning", "--medium"],
    },
    run,
};

fn run(args: &Args, out: &mut dyn Write) -> Result<(), Failure> {
    let path = Path::new(args.operand(0, "the name of the image")?);
    args.at_most(1)?;
    let header = header(args)?;
    let drive = Drive::with(header.image())?;
    if header.is_full() {
        floppy::Record::fresh(drive.image())?;
    }
    image_file::ensure_plain(path)?;
    output_file::take_free(path, args.has("--force"))?
        .save(drive.image())
        .map_err(|e| unwritten(path, &e, "nothing was changed"))?;
    let told = cartridge::told(path, &header, drive.image().len());
    output::tell_done(out, &told, "the image is made")
}

fn header(args: &Args) -> Result<Header, Failure> {
    let header = cartridge::header(args, &Usual::default())?;
    if !args.has("--full") {
        return Ok(header);
    }
    match args.has("--early-warning") {
        true => Err(args.wrong(
            "--early-warning would do nothing: --full is for the floppy device, which gives none"
                .into(),
        )),
        false => Ok(header.full()),
    }
}
