//! `tapecard get`: a file taken from a tape.

mod damage;

use std::ffi::{OsStr, OsString};
use std::io::{self, Write};
use std::os::unix::ffi::OsStrExt;
use std::path::{Path, PathBuf};

use super::Command;
use crate::command_line::args::{Args, Options};
use crate::command_line::failure::{Failure, complain};
use crate::files::distinct;
use crate::files::held_file::unwritten;
use crate::files::image_file;
use crate::files::output_file::{OutputFile, is_standard};
use crate::tape::catalogue::{TapeFile, catalogue};
use crate::tape::drive::Drive;
use crate::tape::reading;
use crate::terminal::output;
use crate::terminal::progress::Progress;
use crate::words;

const HELP: &str = "\
usage: tapecard get IMAGE NUMBER [-o FILE] [--force] [--raw] [--salvage]

Writes the file with this number (from 1, as tapecard list shows) under its own
name in this directory, if it is whole and its checksum is right.
  -o FILE    write it to FILE; - is standard output
  --force    replace a file that is there
  --raw      all its blocks as they are, a label among them; needs -o
  --salvage  take what can be read of a damaged file, zeros for what cannot be;
             says what is missing and ends with status 1
A file without a label is taken in whole blocks and needs -o. Marked blocks
(data with a deleted address mark) are read as any others, and counted.
";

pub const COMMAND: Command = Command {
    name: "get",
    summary: "take a file from an image",
    help: &[HELP],
    options: Options {
        flags: &["--force", "--raw", "--salvage"],
        valued: &["-o"],
    },
    run,
};

fn run(args: &Args, out: &mut dyn Write) -> Result<(), Failure> {
    let path = Path::new(args.operand(0, "the image")?);
    let number = file_number(args)?;
    args.at_most(2)?;
    judge_options(args)?;
    let mut drive = image_file::load(path)?;
    let files = catalogue(&mut drive)?;
    let Some(file) = files.get(number - 1) else {
        return Err(Failure::work(format!(
            "there is no file {number}: {} holds {}; tapecard list shows them",
            words::shown(path),
            words::count(files.len() as u64, "file")
        )));
    };
    let taken = Taken::read(args, &mut drive, file, number)?;
    taken.deliver(path, args.has("--force"), out)
}

fn judge_options(args: &Args) -> Result<(), Failure> {
    let to_standard = args.path("-o").is_some_and(is_standard);
    if args.has("--raw") && args.path("-o").is_none() {
        Err(args.wrong("--raw looks at no name: say where to write with -o FILE".into()))
    } else if args.has("--force") && to_standard {
        Err(args.wrong("--force has nothing to replace with -o -".into()))
    } else {
        Ok(())
    }
}

fn file_number(args: &Args) -> Result<usize, Failure> {
    let word = args.operand(1, "the number of the file")?;
    match word.to_str().and_then(words::number) {
        Some(number) if number >= 1 => Ok(number as usize),
        _ => Err(args.wrong(format!(
            "{} is no file number: files are numbered from 1",
            words::shown(word)
        ))),
    }
}

/// A file's bytes, where they go, and what is wrong with them.
struct Taken {
    number: usize,
    target: PathBuf,
    bytes: Vec<u8>,
    /// Of the file's blocks, its label's among them.
    marked: u32,
    /// The whole blocks of a file whose length no label tells.
    in_blocks: bool,
    damage: Vec<String>,
}

impl Taken {
    /// Damage is a failure unless what is left is asked for.
    fn read(
        args: &Args,
        drive: &mut Drive,
        file: &TapeFile,
        number: usize,
    ) -> Result<Taken, Failure> {
        let raw = args.has("--raw");
        let target = match args.path("-o") {
            Some(path) => path.to_owned(),
            None => own_name(number, file)?,
        };
        let reading = format!("reading {}", file.name());
        let mut progress = Progress::new(reading, file.stretch.blocks.into());
        let mut read = reading::read(drive, file.whole(), &mut progress)?;
        if !raw {
            keep_own_bytes(file, drive.block_size(), &mut read.bytes);
        }
        let damage = damage::found(file, &read, raw, drive.block_size());
        if !damage.is_empty() && !args.has("--salvage") {
            return Err(Failure::work(format!(
                "file {number}: {}, so the file was not written. Take another copy of the image, or what is left of it \
                 with --salvage",
                damage.join("; ")
            )));
        }
        Ok(Taken {
            number,
            target,
            bytes: read.bytes,
            marked: read.marked,
            in_blocks: file.label.is_none() && !raw,
            damage,
        })
    }

    fn deliver(mut self, image: &Path, force: bool, out: &mut dyn Write) -> Result<(), Failure> {
        let to_standard = is_standard(&self.target);
        if !to_standard {
            distinct::ensure_written_apart(image, &self.target)?;
        }
        let got = self.got();
        OutputFile::open(&self.target, force)?
            .keep(&mut self.bytes)
            .map_err(|(path, e)| unwritten(&path, &e, &self.lost(to_standard)))?;
        if self.in_blocks {
            complain(
                "the file has no label: its exact length is not known, so its blocks were taken whole",
            );
        }
        let told = if to_standard {
            let _ = writeln!(
                io::stderr(),
                "got file {} on standard output: {got}",
                self.number
            );
            Ok(())
        } else {
            let told = format!("got {}: {got}\n", words::shown(&self.target));
            output::tell_done(out, &told, "the file is written")
        };
        self.verdict().and(told)
    }

    fn got(&self) -> String {
        let length = words::count(self.bytes.len() as u64, "byte");
        match self.marked {
            0 => length,
            marked => format!("{length}, {marked} of its blocks marked"),
        }
    }

    fn lost(&self, to_standard: bool) -> String {
        match to_standard {
            true => format!("file {} did not go out whole", self.number),
            false => "nothing was changed".into(),
        }
    }

    fn verdict(&self) -> Result<(), Failure> {
        if self.damage.is_empty() {
            return Ok(());
        }
        Err(Failure::work(format!(
            "file {} is damaged: {}. What could be read was written, with zeros for the blocks that could not",
            self.number,
            self.damage.join("; ")
        )))
    }
}

/// Of a file with a label: without the label's block, and without what pads the last one.
fn keep_own_bytes(file: &TapeFile, block_size: usize, bytes: &mut Vec<u8>) {
    if let Some(length) = file.length() {
        bytes.drain(..block_size);
        bytes.truncate(usize::try_from(length).unwrap_or(usize::MAX));
    }
}

/// The name in the label, which must be one of this directory: a label may come from anywhere.
fn own_name(number: usize, file: &TapeFile) -> Result<PathBuf, Failure> {
    let name = file.label.as_ref().map(|label| label.name.as_slice());
    let name = name.unwrap_or_default();
    let stays_here = !name.contains(&b'/') && !name.contains(&0) && name != b"." && name != b"..";
    if name.is_empty() || !stays_here {
        return Err(Failure::work(format!(
            "file {number} has no name to write it under; say where with -o FILE"
        )));
    }
    // "./" keeps a name that is - from meaning standard output.
    Ok(match name {
        b"-" => PathBuf::from("./-"),
        name => PathBuf::from(OsString::from(OsStr::from_bytes(name))),
    })
}
