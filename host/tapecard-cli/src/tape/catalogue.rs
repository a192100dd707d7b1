//! The files on a tape, with their labels.

use crate::command_line::failure::Failure;
use crate::tape::drive::{Drive, Ended};
use crate::tape::label::Label;
use crate::tape::packets;
use crate::tape::reading::Blocks;
use crate::tape::stretches::{Stretch, stretches};
use crate::words;

#[derive(Debug)]
pub struct TapeFile {
    pub stretch: Stretch,
    pub label: Option<Label>,
}

/// All files, in the order of the tape.
pub fn catalogue(drive: &mut Drive) -> Result<Vec<TapeFile>, Failure> {
    let mut files = Vec::new();
    for stretch in stretches(drive)? {
        let label = read_label(drive, stretch.place)?;
        files.push(TapeFile { stretch, label });
    }
    Ok(files)
}

fn read_label(drive: &mut Drive, place: u32) -> Result<Option<Label>, Failure> {
    drive.order(&packets::locate(place))?;
    let mut block = vec![0; drive.block_size()];
    let done = drive.send(&packets::read(1), &mut block)?;
    Ok(match done.ended {
        Ended::Good => Label::read(&block),
        _ => None,
    })
}

/// The blocks that are there beside those that the label tells of.
#[derive(Clone, Copy, Debug, PartialEq, Eq)]
pub enum Fit {
    Whole,
    CutShort,
    TooLong,
}

impl TapeFile {
    pub fn fit(&self, block_size: usize) -> Fit {
        let there = u64::from(self.content_blocks());
        match self.label.as_ref().map(|l| l.data_blocks(block_size)) {
            Some(told) if there < told => Fit::CutShort,
            Some(told) if there > told => Fit::TooLong,
            _ => Fit::Whole,
        }
    }

    pub fn name(&self) -> String {
        match &self.label {
            Some(label) => words::names::bytes_shown(&label.name),
            None => "-".into(),
        }
    }

    /// The exact length, where a label tells it.
    pub fn length(&self) -> Option<u64> {
        self.label.as_ref().map(|label| label.length)
    }

    /// What a reader of the list should know beside the numbers.
    pub fn remark(&self, block_size: usize) -> &'static str {
        match self.fit(block_size) {
            Fit::CutShort => "cut short",
            Fit::TooLong => "longer than its label says",
            Fit::Whole if !self.stretch.closed => "no filemark",
            Fit::Whole if self.label.is_none() => "no label",
            Fit::Whole => "",
        }
    }

    /// How many of its blocks hold the file's own bytes: all but a label.
    pub fn content_blocks(&self) -> u32 {
        self.stretch.blocks - u32::from(self.label.is_some())
    }

    /// All its blocks, a label among them.
    pub fn whole(&self) -> Blocks {
        Blocks {
            place: self.stretch.place,
            blocks: self.stretch.blocks,
        }
    }
}
