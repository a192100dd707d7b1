//! The options of a cartridge that is made, by `new` for itself or by `import` for what it reads.

use std::path::Path;

use crate::command_line::args::Args;
use crate::command_line::failure::Failure;
use crate::tape::header::{BLOCK_SIZES, Header, LARGEST_CAPACITY};
use crate::words;

/// All of them, `--protect` with no value.
pub const OPTIONS: [&str; 5] = [
    "--blocks",
    "--block-size",
    "--early-warning",
    "--medium",
    "--protect",
];

/// A cartridge warns in its last sixteenth unless told otherwise.
const USUAL_WARNING_SHARE: u32 = 16;

/// What a cartridge has where no option says otherwise.
pub struct Usual {
    pub capacity: u32,
    pub block_size: u16,
}

impl Default for Usual {
    fn default() -> Usual {
        Usual {
            capacity: 1024,
            block_size: 1024,
        }
    }
}

/// The blank cartridge that the options ask for.
pub fn header(args: &Args, usual: &Usual) -> Result<Header, Failure> {
    let capacity = args.number("--blocks", 1..=LARGEST_CAPACITY)?;
    let capacity = capacity.unwrap_or(usual.capacity);
    let medium = args.number("--medium", 0..=255)?.unwrap_or(0);
    let block_size = block_size(args)?.unwrap_or(usual.block_size);
    let warning = args.number("--early-warning", 0..=capacity)?;
    Ok(Header::blank(
        block_size,
        capacity,
        warning.unwrap_or(capacity / USUAL_WARNING_SHARE) as u16,
        args.has("--protect"),
        medium as u8,
    ))
}

fn block_size(args: &Args) -> Result<Option<u16>, Failure> {
    let Some(asked) = args.number("--block-size", 0..=u32::MAX)? else {
        return Ok(None);
    };
    let size = BLOCK_SIZES
        .into_iter()
        .find(|size| u32::from(*size) == asked);
    match size {
        Some(size) => Ok(Some(size)),
        None => Err(args.wrong(format!("--block-size is 512 or 1024, not {asked}"))),
    }
}

/// What is said of a cartridge that was made, in an image of this length.
pub fn told(path: &Path, header: &Header, length: usize) -> String {
    let remark = |holds: bool, words: &'static str| if holds { words } else { "" };
    format!(
        "made {}: {} of {} bytes, {length} bytes in all{}{}\n",
        words::shown(path),
        words::count(header.capacity.into(), "element"),
        header.block_size,
        remark(header.is_full(), ", every element recorded"),
        remark(header.protected(), ", write protected")
    )
}
