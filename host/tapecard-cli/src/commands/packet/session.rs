//! A packet device, its files, and what they have to keep.

use std::fs::File;
use std::io::{self, Write};
use std::path::Path;

use tapecard::packet::Answer;
use tapecard::{Device, Refusal, floppy};

use super::device::{self, PacketDevice};
use super::room::{self, LARGEST_ROOM};
use super::show;
use crate::command_line::args::Args;
use crate::command_line::failure::Failure;
use crate::files::held_file::{HeldFile, read_at_most, unwritten};
use crate::files::image_file;
use crate::files::output_file::OutputFile;
use crate::tape::drive;
use crate::tape::header::{Header, LARGEST_CONTENT};
use crate::terminal::script::{Flow, Session};
use crate::words::{self, hex};

pub struct PacketSession<'a> {
    args: &'a Args,
    image_file: HeldFile,
    image: Vec<u8>,
    device: PacketDevice,
    block_size: u32,
    /// What WRITE and MODE SELECT take, and how much of it they took.
    data: Vec<u8>,
    taken: usize,
    out: Option<OutputFile>,
    /// What the other packets returned and `out` has not kept for good.
    returned: Vec<u8>,
    /// What the files do not have yet: an image that was stored to, bytes that were returned.
    image_is_new: bool,
    returned_is_new: bool,
    counts: Counts,
}

#[derive(Default)]
struct Counts {
    sent: u64,
    refused: u64,
    checked: u64,
}

impl<'a> PacketSession<'a> {
    /// Takes every file and makes sure of it before anything is sent.
    pub fn open(args: &'a Args) -> Result<PacketSession<'a>, Failure> {
        let path = Path::new(args.operand(0, "the image")?);
        let (image_file, mut image, length) = image_file::take_unjudged(path)?;
        let device = match device::asked(args)? {
            Device::Floppy => {
                let fresh = judged_by_floppy(path, &image, length)?;
                PacketDevice::floppy(args, fresh, &mut image)?
            }
            _ => PacketDevice::stream(args, &mut image)?,
        };
        let out = args.path("--out");
        let out = out.map(|path| OutputFile::open(path, args.has("--force")));
        Ok(PacketSession {
            args,
            image_file,
            device,
            block_size: drive::block_size_of(&mut image).unwrap_or(1024) as u32,
            image,
            data: outgoing_data(args)?,
            taken: 0,
            // An empty file is made where no packet returns a byte.
            returned_is_new: out.is_some(),
            out: out.transpose()?,
            returned: Vec::new(),
            image_is_new: false,
            counts: Counts::default(),
        })
    }

    pub fn bytes_go_to_standard_output(&self) -> bool {
        matches!(self.out, Some(OutputFile::Standard))
    }

    pub fn packet(&mut self, text: &str, told: &mut dyn Write) -> Result<(), Failure> {
        let bytes = hex::read(text)?;
        let device = self.device.kind();
        if room::stores(device, &bytes) {
            self.ensure_storable()?;
        }
        show::packet(device, &bytes, told)?;
        self.counts.sent += 1;
        match self.send(&bytes)? {
            (Ok(answer), room) => {
                self.note(&bytes, &answer, &room);
                show::answer(&bytes, &answer, &self.device, &mut self.image, told)?;
                show::speed(&bytes, &self.device, told)?;
                match room::takes_data(&bytes) || self.out.is_some() {
                    true => Ok(()),
                    false => show::data(&room[..answer.bytes as usize], told),
                }
            }
            (Err(refusal), _) => {
                self.counts.refused += 1;
                let left = (self.data.len() - self.taken) as u64;
                let advice = room::advice(refusal, &bytes, self.block_size, left);
                show::refusal(refusal, advice, told)
            }
        }
    }

    /// A packet is not sent that would store what cannot be kept.
    fn ensure_storable(&self) -> Result<(), Failure> {
        let path = self.image_file.path();
        self.image_file
            .ensure_replaceable()
            .map_err(|e| unwritten(path, &e, "the packet was not sent"))
    }

    /// Sends the packet with the outgoing data or with room for what it returns.
    fn send(&mut self, bytes: &[u8]) -> Result<(Result<Answer, Refusal>, Vec<u8>), Failure> {
        let mut room = Vec::new();
        let lent = if room::takes_data(bytes) {
            &mut self.data[self.taken..]
        } else {
            let asked = self.args.number("--room", 0..=LARGEST_ROOM)?;
            let usual = room::usual(self.device.kind(), bytes, self.block_size);
            room.resize(asked.unwrap_or(usual) as usize, 0);
            &mut room[..]
        };
        let answer = self.device.send(&mut self.image, bytes, lent);
        Ok((answer, room))
    }

    fn note(&mut self, bytes: &[u8], answer: &Answer, room: &[u8]) {
        let moved = answer.bytes as usize;
        if room::takes_data(bytes) {
            self.taken = (self.taken + moved).min(self.data.len());
        } else if self.out.is_some() {
            self.returned.extend(room.iter().take(moved));
            self.returned_is_new |= moved > 0;
        }
        self.image_is_new |= room::stores(self.device.kind(), bytes) && answer.blocks > 0;
        self.counts.checked += u64::from(!answer.is_good());
    }

    /// Keeps the image, then the record, then what was returned. An error comes with the names of those that are kept.
    fn keep_all(&mut self, kept: &mut Vec<String>) -> Result<(), (String, io::Error)> {
        if self.image_is_new {
            let name = words::shown(self.image_file.path());
            let saved = self.image_file.save(&self.image);
            saved.map_err(|e| (name.clone(), e))?;
            self.image_is_new = false;
            kept.push(name);
        }
        if let Some((path, done)) = self.device.keep() {
            let name = words::shown(path);
            done.map_err(|e| (name.clone(), e))?;
            kept.push(name);
        }
        if let (Some(out), true) = (&mut self.out, self.returned_is_new) {
            let sent = out.keep(&mut self.returned);
            sent.map_err(|(path, e)| (words::shown(path), e))?;
            self.returned_is_new = false;
        }
        Ok(())
    }

    /// Refused packets fail the run; a CHECK CONDITION has a status of its own.
    pub fn verdict(&self) -> Result<(), Failure> {
        let counts = &self.counts;
        if counts.refused > 0 {
            return Err(Failure::work(format!(
                "{} of {} refused; a refused packet changes nothing",
                counts.refused,
                words::count(counts.sent, "packet")
            )));
        }
        match counts.checked > 0 && !self.args.has("--any-answer") {
            true => Err(Failure::Answered),
            false => Ok(()),
        }
    }
}

impl Session for PacketSession<'_> {
    const PROMPT: &'static str = "packet";

    fn line(&mut self, line: &str, told: &mut dyn Write) -> Result<Flow, Failure> {
        match line {
            "quit" => return Ok(Flow::Ends),
            "change" => {
                self.device.change(&self.image)?;
                show::change(&self.device, told)?;
            }
            bytes => self.packet(bytes, told)?,
        }
        Ok(Flow::Goes)
    }

    fn keep(&mut self) -> Result<(), Failure> {
        let mut kept = Vec::new();
        self.keep_all(&mut kept).map_err(|(name, e)| {
            let rest = match kept.as_slice() {
                [] => "what was sent since the last answer is not kept".into(),
                kept => format!("kept in {}", kept.join(" and ")),
            };
            Failure::work(format!(
                "{name} could not be written: {}; {rest}",
                words::io_error(&e)
            ))
        })
    }
}

/// The floppy device's record just switched on, or why it does not take this image: no packet would be answered.
fn judged_by_floppy(path: &Path, image: &[u8], length: u64) -> Result<floppy::Record, Failure> {
    floppy::Record::fresh(image).map_err(|refusal| match Header::read(image) {
        Some(header) if header.allows(image.len() as u64) => Failure::work(format!(
            "the floppy device needs every element recorded, and {} has {} of {} ({refusal}); nothing was sent. tapecard new \
             --full makes such an image",
            words::shown(path),
            header.recorded,
            header.capacity
        )),
        _ => image_file::not_taken(path, length, refusal),
    })
}

fn outgoing_data(args: &Args) -> Result<Vec<u8>, Failure> {
    let Some(path) = args.path("--data") else {
        return Ok(Vec::new());
    };
    let read = File::open(path).and_then(|mut file| read_at_most(&mut file, LARGEST_CONTENT));
    read.map_err(|e| {
        Failure::work(format!(
            "the data {} could not be read: {}; nothing was sent",
            words::shown(path),
            words::io_error(&e)
        ))
    })
}
