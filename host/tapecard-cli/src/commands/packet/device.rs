//! The packet device of a session: its record, and the file that keeps it between runs.

use std::io;
use std::path::Path;

use tapecard::bytes::length;
use tapecard::floppy::{self, Tape};
use tapecard::packet::{self, Answer, Sense};
use tapecard::{Device, Refusal};

use crate::command_line::args::Args;
use crate::command_line::failure::Failure;
use crate::files::record_file::RecordFile;
use crate::tape::packets;

pub enum PacketDevice {
    Stream(packet::Record, Option<RecordFile<16>>),
    Floppy(floppy::Record, Option<RecordFile<32>>),
}

/// The device that the command line asks for.
pub fn asked(args: &Args) -> Result<Device, Failure> {
    let choices = [("stream", Device::Stream), ("floppy", Device::Floppy)];
    let chosen = args.choice("--device", &choices)?;
    Ok(chosen.unwrap_or(Device::Stream))
}

impl PacketDevice {
    /// The stream device with the record of the file, or just switched on.
    pub fn stream(args: &Args, image: &mut [u8]) -> Result<PacketDevice, Failure> {
        let (file, kept) = record_file(args, Device::Stream)?;
        let record = kept.map_or_else(packet::Record::fresh, packet::Record);
        Ok(PacketDevice::Stream(record, file).started(args, image))
    }

    /// The floppy device with the record of the file, or with this one of a device just switched on.
    pub fn floppy(
        args: &Args,
        fresh: floppy::Record,
        image: &mut [u8],
    ) -> Result<PacketDevice, Failure> {
        let (file, kept) = record_file(args, Device::Floppy)?;
        let record = kept.map_or(fresh, floppy::Record);
        Ok(PacketDevice::Floppy(record, file).started(args, image))
    }

    /// Without a file for its record and without --cold the attention of power-on is taken: the first packet meets it, the second
    /// clears its sense. Where the image is refused they change nothing.
    fn started(mut self, args: &Args, image: &mut [u8]) -> PacketDevice {
        if !args.has("--record") && !args.has("--cold") {
            for _ in 0..2 {
                let _ = self.send(image, &packets::test_unit_ready(), &mut []);
            }
        }
        self
    }

    pub fn kind(&self) -> Device {
        match self {
            PacketDevice::Stream(..) => Device::Stream,
            PacketDevice::Floppy(..) => Device::Floppy,
        }
    }

    pub fn send(
        &mut self,
        image: &mut [u8],
        packet: &[u8],
        data: &mut [u8],
    ) -> Result<Answer, Refusal> {
        match self {
            PacketDevice::Stream(record, _) => packet::packet(record, image, packet, data),
            PacketDevice::Floppy(record, _) => floppy::packet(record, image, packet, data),
        }
    }

    /// Another cartridge was put in, with the same image.
    pub fn change(&mut self, image: &[u8]) -> Result<(), Refusal> {
        match self {
            PacketDevice::Stream(record, _) => {
                record.change();
                Ok(())
            }
            PacketDevice::Floppy(record, _) => record.change(image),
        }
    }

    pub fn position(&self) -> u32 {
        match self {
            PacketDevice::Stream(record, _) => record.position(),
            PacketDevice::Floppy(record, _) => record.position(),
        }
    }

    /// Whether the door is locked.
    pub fn locked(&self) -> bool {
        match self {
            PacketDevice::Stream(record, _) => record.locked(),
            PacketDevice::Floppy(record, _) => record.locked(),
        }
    }

    pub fn speed(&self) -> u16 {
        match self {
            PacketDevice::Stream(record, _) => record.speed(),
            PacketDevice::Floppy(record, _) => record.speed(),
        }
    }

    pub fn sense(&self) -> Sense {
        match self {
            PacketDevice::Stream(record, _) => record.sense(),
            PacketDevice::Floppy(record, _) => record.sense(),
        }
    }

    /// The tape parameters, where the device has any.
    pub fn tape(&self) -> Option<Tape> {
        match self {
            PacketDevice::Stream(..) => None,
            PacketDevice::Floppy(record, _) => Some(record.tape()),
        }
    }

    /// The sense as REQUEST SENSE would return it, asked of a copy of the record so that this one keeps its sense.
    pub fn sense_bytes(&self, image: &mut [u8]) -> Result<[u8; length::SENSE], Refusal> {
        let mut copy = match self {
            PacketDevice::Stream(record, _) => PacketDevice::Stream(*record, None),
            PacketDevice::Floppy(record, _) => PacketDevice::Floppy(*record, None),
        };
        let mut sense = [0; length::SENSE];
        copy.send(image, &packets::request_sense(), &mut sense)?;
        Ok(sense)
    }

    /// Keeps the record in its file; the path of it, where there is one.
    pub fn keep(&mut self) -> Option<(&Path, io::Result<()>)> {
        match self {
            PacketDevice::Stream(record, file) => file.as_mut().map(|file| kept(file, &record.0)),
            PacketDevice::Floppy(record, file) => file.as_mut().map(|file| kept(file, &record.0)),
        }
    }
}

fn kept<'a, const N: usize>(
    file: &'a mut RecordFile<N>,
    record: &[u8; N],
) -> (&'a Path, io::Result<()>) {
    let done = file.keep(record);
    (file.path(), done)
}

type Kept<const N: usize> = (Option<RecordFile<N>>, Option<[u8; N]>);

/// The file for the record, and what it holds already.
fn record_file<const N: usize>(args: &Args, device: Device) -> Result<Kept<N>, Failure> {
    let path = args.path("--record");
    let file = path
        .map(|path| RecordFile::take(path, device))
        .transpose()?;
    let kept = file.as_ref().and_then(RecordFile::kept);
    if kept.is_some() && args.has("--cold") {
        return Err(args.wrong(
            "--cold is for a drive just switched on, and --record names one that is on already"
                .into(),
        ));
    }
    Ok((file, kept))
}
