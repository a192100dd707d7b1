//! `tapecard info`: an image's header in words and its tape as a strip.

use std::io::Write;

use tapecard::floppy;

use super::{Command, NO_OPTIONS, open_only_image};
use crate::command_line::args::Args;
use crate::command_line::failure::Failure;
use crate::tape::drive::Drive;
use crate::tape::header::Header;
use crate::tape::strip::{self, Tape};
use crate::tape::survey::{self, Kind};
use crate::terminal::output;
use crate::terminal::progress::Progress;
use crate::words;

const HELP: &str = "\
usage: tapecard info IMAGE

Shows the header in words, which devices of the packet drive take the image, and
the tape as a strip: data, filemarks, unreadable and blank elements, with
position 0, the end of data and the early warning pointed out. Where blocks are
marked (data with a deleted address mark, as floppy tapes have on their headers)
it says how many, and shows them as *.
";

pub const COMMAND: Command = Command {
    name: "info",
    summary: "show an image's header and its tape as a strip",
    help: &[HELP],
    options: NO_OPTIONS,
    run,
};

fn run(args: &Args, out: &mut dyn Write) -> Result<(), Failure> {
    let (path, mut drive) = open_only_image(args)?;
    let header = Header::read(drive.image())
        .ok_or_else(|| Failure::work("the image has no header; take another copy"))?;
    let kinds = survey(&mut drive, &header)?;
    let mut text = Vec::new();
    writeln!(text, "{}", words::shown(path))?;
    show_header(&header, &mut text)?;
    show_counts(&kinds, &header, &mut text)?;
    show_devices(&drive, &kinds, &mut text)?;
    show_strip(&kinds, &header, &mut text)?;
    output::show(out, &text)
}

fn survey(drive: &mut Drive, header: &Header) -> Result<Vec<Kind>, Failure> {
    let mut progress = Progress::new("reading", header.recorded.into());
    survey::survey(drive, |elements| progress.advance(elements))
}

fn show_header(header: &Header, out: &mut dyn Write) -> Result<(), Failure> {
    writeln!(out, "  block size     {} bytes", header.block_size)?;
    writeln!(
        out,
        "  capacity       {}",
        words::count(header.capacity.into(), "element")
    )?;
    writeln!(
        out,
        "  write protect  {}",
        words::yes_no(header.protected())
    )?;
    writeln!(out, "  medium type    {}", header.medium)?;
    match header.early_warning {
        0 => writeln!(out, "  early warning  none")?,
        last => writeln!(
            out,
            "  early warning  in the last {}, from place {}",
            words::count(last.into(), "element"),
            header.warning_place()
        )?,
    }
    writeln!(
        out,
        "  layout         kinds at byte {}, blocks at byte {}",
        header.kinds_at, header.blocks_at
    )?;
    Ok(())
}

fn show_counts(kinds: &[Kind], header: &Header, out: &mut dyn Write) -> Result<(), Failure> {
    writeln!(
        out,
        "  recorded       {}, {} blank",
        words::count(kinds.len() as u64, "element"),
        (header.capacity as usize).saturating_sub(kinds.len())
    )?;
    writeln!(out, "  of these       {}", survey::counts(kinds))?;
    Ok(())
}

/// The stream device has taken the image, or there would be nothing to show; the floppy device is asked.
fn show_devices(drive: &Drive, kinds: &[Kind], out: &mut dyn Write) -> Result<(), Failure> {
    let floppy = floppy::Record::fresh(drive.image()).is_ok();
    let devices = match (floppy, kinds.contains(&Kind::Filemark)) {
        (false, _) => "stream only: floppy needs every element recorded",
        (true, false) => "stream and floppy: every element is recorded",
        (true, true) => "stream and floppy, to which a filemark is an unreadable block",
    };
    writeln!(out, "  devices        {devices}")?;
    Ok(())
}

fn show_strip(kinds: &[Kind], header: &Header, out: &mut dyn Write) -> Result<(), Failure> {
    let tape = Tape {
        capacity: header.capacity as usize,
        kinds,
        warning: (header.early_warning > 0).then(|| header.warning_place() as usize),
    };
    writeln!(out)?;
    for line in strip::draw(&tape) {
        writeln!(out, "{line}")?;
    }
    writeln!(out)?;
    for line in strip::legend(&tape) {
        writeln!(out, "  {line}")?;
    }
    Ok(())
}
