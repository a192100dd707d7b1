//! `tapecard list`: the files of a tape.

use std::io::Write;

use super::{Command, NO_OPTIONS, no_files, open_only_image};
use crate::command_line::args::Args;
use crate::command_line::failure::Failure;
use crate::tape::catalogue::{TapeFile, catalogue};
use crate::tape::drive::Drive;
use crate::tape::stretches::Stretch;
use crate::tape::survey::{self, Kind};
use crate::terminal::output;
use crate::terminal::progress::Progress;
use crate::words::{self, names};

const HELP: &str = "\
usage: tapecard list IMAGE

Lists the files: number, name, exact bytes, blocks (the label among them), the
position of the first one, and what else there is to know: a file that was cut
short, or how many of its blocks are marked (data with a deleted address mark).
In a name, what cannot be seen stands escaped.
";

pub const COMMAND: Command = Command {
    name: "list",
    summary: "list the files of an image",
    help: &[HELP],
    options: NO_OPTIONS,
    run,
};

fn run(args: &Args, out: &mut dyn Write) -> Result<(), Failure> {
    let (path, mut drive) = open_only_image(args)?;
    let files = catalogue(&mut drive)?;
    if files.is_empty() {
        return output::show(out, no_files(path).as_bytes());
    }
    let marked = marked_blocks(&mut drive, &files)?;
    let size = drive.block_size();
    let width = files.iter().map(|f| names::width(&f.name())).max();
    let width = width.unwrap_or(0).max("name".len());
    let heading = ["number", "name", "bytes", "blocks", "position", ""];
    let mut text = row(width, heading.map(String::from));
    for (index, (file, marked)) in files.iter().zip(marked).enumerate() {
        let cells = [
            (index + 1).to_string(),
            file.name(),
            file.length().map_or("-".into(), |n| n.to_string()),
            file.stretch.blocks.to_string(),
            file.stretch.place.to_string(),
            remarks(file.remark(size), marked),
        ];
        text.push_str(&row(width, cells));
    }
    output::show(out, text.as_bytes())
}

/// How many blocks of each file are marked.
fn marked_blocks(drive: &mut Drive, files: &[TapeFile]) -> Result<Vec<usize>, Failure> {
    let end = drive.go_to_end_of_data()?;
    let mut progress = Progress::new("reading", end.into());
    let kinds = survey::survey(drive, |elements| progress.advance(elements))?;
    let marked = |file: &TapeFile| {
        let Stretch { place, blocks, .. } = file.stretch;
        let own = &kinds[place as usize..][..blocks as usize];
        own.iter().filter(|kind| **kind == Kind::Marked).count()
    };
    Ok(files.iter().map(marked).collect())
}

fn remarks(remark: &str, marked: usize) -> String {
    let of_marked = words::count(marked as u64, "marked block");
    match (remark, marked) {
        (remark, 0) => remark.into(),
        ("", _) => of_marked,
        (remark, _) => format!("{remark}; {of_marked}"),
    }
}

fn row(width: usize, cells: [String; 6]) -> String {
    let [number, name, bytes, blocks, position, remark] = cells;
    let name = names::padded(&name, width);
    let line = format!("{number:>6}  {name}  {bytes:>9}  {blocks:>6}  {position:>8}  {remark}");
    format!("{}\n", line.trim_end())
}
