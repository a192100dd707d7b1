//! `tapecard import`: a SIMH tape file read onto a cartridge.

mod target;

use std::io::Write;
use std::path::Path;

use tapecard::Device;
use tapecard::packet::Record;

use super::Command;
use crate::command_line::args::{Args, Options};
use crate::command_line::failure::{Failure, complain};
use crate::files::distinct::{self, Named};
use crate::files::held_file::unwritten;
use crate::files::record_file::RecordFile;
use crate::files::tap_file;
use crate::simh::card;
use crate::simh::walk::{Contents, Found, outline};
use crate::simh::words::{advice, finding};
use crate::tape::survey;
use crate::terminal::output;
use crate::words;
use target::Target;

const HELP: &str = "\
usage: tapecard import FILE.tap IMAGE [--record FILE]
                       [--blocks N] [--block-size 512|1024] [--early-warning W]
                       [--protect] [--medium T]

Reads a SIMH tape file onto a cartridge: its records become blocks, its tape
marks filemarks, and a record with the error flag an unreadable block. It ends
at the end mark, or where the file does. All of it is read, or nothing: a file
that is cut, or whose records are not of the cartridge's block size, or with
more elements than it holds leaves the image as it was, and the item that is in
the way is named.
  --record FILE  the record of tapecard packet, left as after another cartridge
                 was put in
What the image held is replaced, write protected or not, and its other fields
stay. An image that is not there is made, as tapecard new does:
  --blocks N         elements of the tape (usually as many as the file has)
  --block-size B     bytes of a block (usually those of the first record; 1024
                     where the file has none)
  --early-warning W, --protect, --medium T
                     as tapecard new has them
";

pub const COMMAND: Command = Command {
    name: "import",
    summary: "read a SIMH tape file into an image",
    help: &[HELP],
    options: Options {
        flags: &["--protect"],
        valued: &[
            "--record",
            "--blocks",
            "--block-size",
            "--early-warning",
            "--medium",
        ],
    },
    run,
};

fn run(args: &Args, out: &mut dyn Write) -> Result<(), Failure> {
    let from = Path::new(args.operand(0, "the SIMH tape file")?);
    let path = Path::new(args.operand(1, "the image")?);
    args.at_most(2)?;
    target::judge_options(args, path)?;
    ensure_distinct(args, from, path)?;
    let file = tap_file::read(from)?;
    let mut target = Target::take(args, path, &file)?;
    let record_file = args.path("--record");
    let record_file = record_file.map(|path| RecordFile::take(path, Device::Stream));
    let mut record_file = record_file.transpose()?;
    let kept = record_file.as_ref().and_then(RecordFile::kept);
    let mut record = kept.map_or_else(Record::fresh, Record);
    let imported = card::import(&mut record, &mut target.image, &target.header, &file)?;
    let contents = imported.map_err(|found| refused(from, &file, &found, &target))?;
    target.save()?;
    let done = format!("the elements are on {}", words::shown(path));
    if let Some(record_file) = &mut record_file {
        record_file
            .keep(&record.0)
            .map_err(|e| unwritten(record_file.path(), &e, &done))?;
    }
    tell_of_rest(from, file.len() - contents.bytes);
    output::tell_done(out, &told(from, &target, &contents), &done)
}

fn refused(from: &Path, file: &[u8], found: &Found, target: &Target) -> Failure {
    let cartridge = target.cartridge();
    Failure::work(format!(
        "{} was not imported (refusal {}): {}; nothing was changed. {}",
        words::shown(from),
        found.wrong.number(),
        finding(found, &cartridge),
        advice(found, &cartridge, outline(file).items)
    ))
}

fn told(from: &Path, target: &Target, contents: &Contents) -> String {
    let replaced = match target.header.recorded {
        0 => String::new(),
        before => format!(", in place of {before}"),
    };
    format!(
        "{}imported {} into {}: {} ({}){replaced}\n",
        target.making_told(),
        words::shown(from),
        words::shown(target.path()),
        words::count(contents.kinds.len() as u64, "element"),
        survey::counts(&contents.kinds)
    )
}

/// 02, A7: import "ends at the end mark".
fn tell_of_rest(from: &Path, rest: usize) {
    if rest > 0 {
        complain(&format!(
            "{} goes on behind its end mark; that rest of {} was not looked at",
            words::shown(from),
            words::count(rest as u64, "byte")
        ));
    }
}

fn ensure_distinct(args: &Args, from: &Path, image: &Path) -> Result<(), Failure> {
    let files = [
        ("the SIMH tape file", Some(from)),
        ("the image", Some(image)),
        ("--record", args.path("--record")),
    ];
    let named = |(part, path): (&'static str, Option<_>)| path.map(|path| Named { part, path });
    let named: Vec<Named> = files.into_iter().filter_map(named).collect();
    distinct::ensure(&named)
}
