//! `tapecard export`: a tape written out as a SIMH tape file.

use std::io::{self, Write};
use std::path::Path;

use super::Command;
use crate::command_line::args::{Args, Options};
use crate::command_line::failure::{Failure, complain};
use crate::files::distinct;
use crate::files::held_file::unwritten;
use crate::files::image_file;
use crate::files::output_file::{OutputFile, is_standard};
use crate::simh::card::{self, Written};
use crate::tape::header::Header;
use crate::tape::survey::{self, Kind};
use crate::terminal::output;
use crate::words;

const HELP: &str = "\
usage: tapecard export IMAGE FILE.tap [--force]

Writes the tape out as a SIMH tape file, which simulators of old machines attach
as a reel: a record for each block, a tape mark for each filemark, and the end
mark behind the last. FILE.tap may be -, standard output.
  --force  replace a file that is there
An unreadable block is a record with the error flag, its bytes as they stand. A
marked block is a plain record: the file has nothing to show a mark by, so how
many there were is said. The image is only read.
";

pub const COMMAND: Command = Command {
    name: "export",
    summary: "write an image out as a SIMH tape file",
    help: &[HELP],
    options: Options {
        flags: &["--force"],
        valued: &[],
    },
    run,
};

fn run(args: &Args, out: &mut dyn Write) -> Result<(), Failure> {
    let image = Path::new(args.operand(0, "the image")?);
    let target = Path::new(args.operand(1, "the file to write")?);
    args.at_most(2)?;
    let to_standard = is_standard(target);
    if to_standard && args.has("--force") {
        return Err(args.wrong("--force has nothing to replace on standard output".into()));
    }
    if !to_standard {
        distinct::ensure_written_apart(image, target)?;
    }
    let mut written = read(image)?;
    let told = told(image, target, &written);
    OutputFile::open(target, args.has("--force"))?
        .keep(&mut written.file)
        .map_err(|(path, e)| unwritten(&path, &e, lost(to_standard)))?;
    tell_of_marked(image, &written.kinds);
    if to_standard {
        let _ = write!(io::stderr(), "{told}");
        return Ok(());
    }
    output::tell_done(out, &told, "the file is written")
}

fn read(image: &Path) -> Result<Written, Failure> {
    let mut drive = image_file::load(image)?;
    let header = Header::read(drive.image())
        .ok_or_else(|| Failure::work("the image has no header; take another copy"))?;
    card::export(&mut drive, &header)
}

fn told(image: &Path, target: &Path, written: &Written) -> String {
    let target = match is_standard(target) {
        true => "standard output".into(),
        false => words::shown(target),
    };
    format!(
        "exported {} to {target}: {} ({}) in {}\n",
        words::shown(image),
        words::count(written.kinds.len() as u64, "element"),
        survey::counts(&written.kinds),
        words::count(written.file.len() as u64, "byte")
    )
}

fn lost(to_standard: bool) -> &'static str {
    match to_standard {
        true => "the tape did not go out whole",
        false => "nothing was changed",
    }
}

/// What the file does not hold is said.
fn tell_of_marked(image: &Path, kinds: &[Kind]) {
    let marked = kinds.iter().filter(|kind| **kind == Kind::Marked).count();
    if marked > 0 {
        complain(&format!(
            "{} of {} went out as plain data: a SIMH tape file has nothing to show the mark by",
            words::count(marked as u64, "marked block"),
            words::shown(image)
        ));
    }
}
