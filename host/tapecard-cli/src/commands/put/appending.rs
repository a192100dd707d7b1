//! Files written behind the end of data.

use std::path::Path;

use super::source::Source;
use crate::command_line::failure::Failure;
use crate::tape::catalogue::catalogue;
use crate::tape::drive::{CHUNK, Drive, Ended};
use crate::tape::packets;
use crate::terminal::progress::Progress;
use crate::words;

/// A drive that stands at the end of data, behind a closed file.
pub struct Appending<'a> {
    drive: &'a mut Drive,
    image: &'a Path,
    files: usize,
    /// What was done, to be told once the image is safe.
    pub deeds: Vec<String>,
    pub warned: bool,
}

impl<'a> Appending<'a> {
    pub fn begin(drive: &'a mut Drive, image: &'a Path) -> Result<Appending<'a>, Failure> {
        let files = catalogue(drive)?;
        let open_end = files.last().is_some_and(|file| !file.stretch.closed);
        let mut tape = Appending {
            drive,
            image,
            files: files.len(),
            deeds: Vec::new(),
            warned: false,
        };
        tape.drive.go_to_end_of_data()?;
        if open_end {
            tape.close_last_file()?;
        }
        Ok(tape)
    }

    fn close_last_file(&mut self) -> Result<(), Failure> {
        if !self.write(&packets::write_filemark(), &mut [])? {
            return Err(self.full("the filemark of the last file", 1, 0));
        }
        let deed = format!("closed file {}, which had no filemark\n", self.files);
        self.deeds.push(deed);
        Ok(())
    }

    pub fn append(&mut self, source: &Source) -> Result<(), Failure> {
        let place = self.drive.position();
        let size = self.drive.block_size();
        let blocks = source.blocks(size);
        if !self.write_elements(source)? {
            let room = self.drive.position() - place;
            return Err(self.full(&source.name, blocks + 1, room));
        }
        self.files += 1;
        self.deeds.push(format!(
            "put {} as file {}: {} in {} at place {place}{}\n",
            source.name,
            self.files,
            words::count(source.bytes.len() as u64, "byte"),
            words::count(blocks, "block"),
            source.padding_told(size)
        ));
        Ok(())
    }

    /// False where the tape is full.
    fn write_elements(&mut self, source: &Source) -> Result<bool, Failure> {
        let size = self.drive.block_size();
        let total = source.bytes.len() as u64;
        let mut progress = Progress::new(format!("writing {}", source.name), total);
        let labelled = match &source.label {
            Some(label) => self.write(&packets::write(1), &mut label.block(size))?,
            None => true,
        };
        if !labelled {
            return Ok(false);
        }
        for part in source.bytes.chunks(CHUNK as usize * size) {
            let blocks = part.len().div_ceil(size);
            let mut padded = part.to_vec();
            padded.resize(blocks * size, 0);
            if !self.write(&packets::write(blocks as u32), &mut padded)? {
                return Ok(false);
            }
            progress.advance(part.len() as u64);
        }
        self.write(&packets::write_filemark(), &mut [])
    }

    fn write(&mut self, packet: &packets::Packet, data: &mut [u8]) -> Result<bool, Failure> {
        match self.drive.send(packet, data)?.ended {
            Ended::Good => Ok(true),
            Ended::EarlyWarning => {
                self.warned = true;
                Ok(true)
            }
            Ended::Full => Ok(false),
            Ended::Protected => Err(self.protected()),
            _ => Err(self.drive.unexpected()),
        }
    }

    fn protected(&self) -> Failure {
        Failure::work(format!(
            "{} is write protected; nothing was written. Use a cartridge without protection",
            words::shown(self.image)
        ))
    }

    fn full(&self, what: &str, needed: u64, room: u32) -> Failure {
        Failure::work(format!(
            "{} is full: {what} needs {} and there is room for {room}; nothing was written. Put less, or use a larger \
             cartridge (tapecard new --blocks N)",
            words::shown(self.image),
            words::count(needed, "element"),
        ))
    }
}
