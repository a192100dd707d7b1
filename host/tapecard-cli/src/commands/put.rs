//! `tapecard put`: files appended to a tape, each closed by a filemark.

mod appending;
mod source;

use std::io::Write;
use std::path::Path;

use super::Command;
use crate::command_line::args::{Args, Options};
use crate::command_line::failure::{Failure, complain};
use crate::files::distinct::{self, Named};
use crate::files::held_file::unwritten;
use crate::files::image_file;
use crate::terminal::output;
use crate::words;
use appending::Appending;
use source::Source;

const HELP: &str = "\
usage: tapecard put IMAGE FILE.. [--raw]

Appends each file behind the end of data, closed by a filemark. All files are
put, or none: a full or protected cartridge leaves the image as it was. Another
run that works on the image is waited for.
  --raw  without a label: the file's bytes in plain blocks

On the tape a file is a label block, its bytes in blocks (the last one padded
with zero) and a filemark. A workstation reads the label as the file's first
block. It keeps the exact length, the name and a checksum: bytes 0-7 TAPEFIL2,
8-15 the length, 16-17 the length of the name, 18-21 the CRC-32 of the file's
bytes, then the name; numbers are big-endian and the rest of the block is zero.
";

pub const COMMAND: Command = Command {
    name: "put",
    summary: "append files to an image",
    help: &[HELP],
    options: Options {
        flags: &["--raw"],
        valued: &[],
    },
    run,
};

fn run(args: &Args, out: &mut dyn Write) -> Result<(), Failure> {
    let path = Path::new(args.operand(0, "the image")?);
    args.operand(1, "the file to put")?;
    let (mut held, mut drive) = image_file::take(path)?;
    ensure_distinct(args, path)?;
    let unchanged = |e| unwritten(path, &e, "nothing was changed");
    held.ensure_replaceable().map_err(unchanged)?;
    let mut tape = Appending::begin(&mut drive, path)?;
    for name in args.operands_from(1) {
        tape.append(&Source::read(Path::new(name), args.has("--raw"))?)?;
    }
    let (deeds, warned) = (tape.deeds.concat(), tape.warned);
    held.save(drive.image()).map_err(unchanged)?;
    if warned {
        complain(&format!(
            "{} is past its early warning: little room is left",
            words::shown(path)
        ));
    }
    let done = format!("all files are on {}", words::shown(path));
    output::tell_done(out, &deeds, &done)
}

fn ensure_distinct(args: &Args, image: &Path) -> Result<(), Failure> {
    for name in args.operands_from(1) {
        distinct::ensure(&[
            Named {
                part: "the image",
                path: image,
            },
            Named {
                part: "the file to put",
                path: Path::new(name),
            },
        ])?;
    }
    Ok(())
}
