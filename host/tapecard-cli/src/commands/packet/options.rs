//! Options that go together, and files that are apart.

use std::ffi::OsString;
use std::path::Path;

use super::device;
use super::room::{self, LARGEST_ROOM};
use crate::command_line::args::Args;
use crate::command_line::failure::Failure;
use crate::files::distinct::{self, Named};
use crate::files::output_file::is_standard;
use crate::words::hex;

/// No option is given that would do nothing, and no two name one file.
pub fn judge(args: &Args, packet: &[OsString]) -> Result<(), Failure> {
    let image = Path::new(args.operand(0, "the image")?);
    device::asked(args)?;
    args.number("--room", 0..=LARGEST_ROOM)?;
    let out = args.path("--out");
    if args.has("--room") && packet.is_empty() {
        return Err(args.wrong("--room goes with a packet on the command line".into()));
    }
    if args.has("--force") && out.is_none_or(is_standard) {
        return Err(args.wrong("--force has nothing to replace without --out FILE".into()));
    }
    if let Some(takes) = takes_data(packet) {
        judge_data(args, takes)?;
    }
    ensure_distinct(args, image, out)
}

/// Whether the packet takes data; none where there is no packet, or none that can be read.
fn takes_data(packet: &[OsString]) -> Option<bool> {
    let first = hex::read(packet.first()?.to_str()?).ok()?;
    Some(room::takes_data(&first))
}

fn judge_data(args: &Args, takes: bool) -> Result<(), Failure> {
    if takes && args.has("--room") {
        Err(args.wrong(
            "--room is for a packet that returns bytes; this one takes them from --data".into(),
        ))
    } else if !takes && args.has("--data") {
        Err(args.wrong("--data is for WRITE and MODE SELECT; this packet takes no bytes".into()))
    } else {
        Ok(())
    }
}

fn ensure_distinct(args: &Args, image: &Path, out: Option<&Path>) -> Result<(), Failure> {
    let files = [
        ("the image", Some(image)),
        ("--record", args.path("--record")),
        ("--data", args.path("--data")),
        ("--out", out.filter(|path| !is_standard(path))),
    ];
    let named = |(part, path): (&'static str, Option<_>)| path.map(|path| Named { part, path });
    let named: Vec<Named> = files.into_iter().filter_map(named).collect();
    distinct::ensure(&named)
}
