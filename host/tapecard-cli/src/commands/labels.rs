//! `tapecard labels`: where each file of a tape lies, for a label printer.

use std::io::Write;
use std::iter::once;

use super::{Command, no_files, open_only_image};
use crate::command_line::args::{Args, Options};
use crate::command_line::failure::Failure;
use crate::tape::stretches::{Stretch, stretches};
use crate::terminal::output;

const HELP: &str = "\
usage: tapecard labels IMAGE [--csv]

Tells a label printer where each file of the tape lies, a line a file: place
(the position of its first element), number (as tapecard list shows it) and
length (its elements up to its filemark, a label block among them).
  --csv  comma-separated values under the line place,number,length (RFC 4180)
A file is what stands before a filemark, or between the last one and the end of
data; one with nothing in it has length 0. All this is told by the drive's index
of filemarks. No block is read, so a tape that tapecard put did not write is
listed as any other.
";

pub const COMMAND: Command = Command {
    name: "labels",
    summary: "tell a label printer where each file lies",
    help: &[HELP],
    options: Options {
        flags: &["--csv"],
        valued: &[],
    },
    run,
};

const HEADING: [&str; 3] = ["place", "number", "length"];

type Row = [String; HEADING.len()];

fn run(args: &Args, out: &mut dyn Write) -> Result<(), Failure> {
    let (path, mut drive) = open_only_image(args)?;
    let files = stretches(&mut drive)?;
    let text: String = match (args.has("--csv"), files.is_empty()) {
        (true, _) => rows(&files).map(comma_separated).collect(),
        (false, true) => no_files(path),
        (false, false) => rows(&files).map(in_columns).collect(),
    };
    output::show(out, text.as_bytes())
}

fn rows(files: &[Stretch]) -> impl Iterator<Item = Row> {
    let numbered = (1_u32..).zip(files);
    let rows =
        numbered.map(|(number, file)| [file.place, number, file.blocks].map(|n| n.to_string()));
    once(HEADING.map(String::from)).chain(rows)
}

/// No number of a tape has more than five digits, so the columns are the same for every tape.
fn in_columns([place, number, length]: Row) -> String {
    format!("{place:>5}  {number:>6}  {length:>6}\n")
}

/// RFC 4180 ends a line with CR LF; numbers need no quotes.
fn comma_separated(row: Row) -> String {
    format!("{}\r\n", row.join(","))
}
