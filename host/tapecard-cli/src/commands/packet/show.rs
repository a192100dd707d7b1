//! Answers of a packet device in words and bytes.

use std::io::Write;

use tapecard::bytes::{opcode, triple};
use tapecard::packet::Answer;
use tapecard::{Device, Refusal, sense_words};

use super::device::PacketDevice;
use crate::command_line::failure::Failure;
use crate::words::{self, hex};

/// Returned bytes that are shown where they go to no file.
const SHOWN_BYTES: usize = 64;

/// What to do about 5/53/02.
const UNLOCK_FIRST: &str = "\
the door is locked, so nothing was unloaded; to unlock it send 1Eh
            with bit 0 of byte 4 clear: 1E 00 00 00 00 00 00 00 00 00 00 00";

pub fn packet(device: Device, bytes: &[u8], out: &mut dyn Write) -> Result<(), Failure> {
    let in_words = words::packets::packet(device, bytes);
    writeln!(out, "{}  {in_words}", hex::show(bytes))?;
    Ok(())
}

pub fn change(device: &PacketDevice, out: &mut dyn Write) -> Result<(), Failure> {
    let tape = match device.tape() {
        Some(_) => ", tape parameters set back",
        None => "",
    };
    // 02, A8: "kept through a cartridge change".
    let door = match device.locked() {
        true => ", still locked",
        false => "",
    };
    writeln!(
        out,
        "the cartridge was changed: position 0{tape}, attention pending{door}"
    )?;
    Ok(())
}

pub fn answer(
    packet: &[u8],
    answer: &Answer,
    device: &PacketDevice,
    image: &mut [u8],
    out: &mut dyn Write,
) -> Result<(), Failure> {
    let status = sense_words::status(answer.status);
    writeln!(out, "  status    {} {status}", answer.status)?;
    let marked = match answer.marked {
        0 => String::new(),
        marked => format!(", {marked} marked"),
    };
    writeln!(out, "  blocks    {}{marked}", answer.blocks)?;
    writeln!(out, "  bytes     {}", answer.bytes)?;
    writeln!(out, "  position  {}", device.position())?;
    if let Some(tape) = device.tape() {
        writeln!(
            out,
            "  tape      {}: BSEG {}, SEGTRK {}, TRKS {}",
            words::count(tape.product(), "block"),
            tape.bseg,
            tape.segtrk,
            tape.trks
        )?;
    }
    door(packet, device, out)?;
    writeln!(out, "  sense     {}", sense_in_words(device))?;
    let sense = device.sense_bytes(image)?;
    writeln!(out, "            {}", hex::show(&sense))?;
    if device.sense().triple() == triple::REMOVAL_PREVENTED {
        advise(UNLOCK_FIRST, out)?;
    }
    Ok(())
}

/// The door while it is locked, and after every 1Eh.
fn door(packet: &[u8], device: &PacketDevice, out: &mut dyn Write) -> Result<(), Failure> {
    match (device.locked(), packet.first()) {
        (true, _) => writeln!(out, "  door      locked")?,
        (false, Some(&opcode::PREVENT_ALLOW)) => writeln!(out, "  door      unlocked")?,
        _ => (),
    }
    Ok(())
}

/// The speed, after a packet that may set it or asks for it.
pub fn speed(packet: &[u8], device: &PacketDevice, out: &mut dyn Write) -> Result<(), Failure> {
    if let Some(&(opcode::MODE_SELECT | opcode::MODE_SENSE)) = packet.first() {
        let speed = device.speed();
        let meaning = if speed == 0 { " (automatic)" } else { "" };
        writeln!(out, "  speed     {speed}{meaning}")?;
    }
    Ok(())
}

pub fn data(returned: &[u8], out: &mut dyn Write) -> Result<(), Failure> {
    let shown = &returned[..returned.len().min(SHOWN_BYTES)];
    for (index, row) in shown.chunks(16).enumerate() {
        let heading = if index == 0 { "data" } else { "" };
        let row_bytes = hex::show(row);
        writeln!(out, "  {heading:<8}  {row_bytes:<47}  {}", as_text(row))?;
    }
    if returned.len() > shown.len() {
        let rest = words::count((returned.len() - shown.len()) as u64, "byte");
        writeln!(
            out,
            "            and {rest} more; --out FILE keeps them all"
        )?;
    }
    Ok(())
}

fn sense_in_words(device: &PacketDevice) -> String {
    let sense = device.sense();
    let mut text = sense_words::sense(&sense);
    // 02, A1: "Its residue on an unreadable block leaves out the block in error".
    if device.kind() == Device::Floppy && sense.triple() == triple::UNREADABLE {
        text.push_str(", the block in error left out");
    }
    if sense.filemark {
        text.push_str(", filemark");
    }
    if sense.eom {
        text.push_str(", EOM");
    }
    // 02, A3: "EOM is shown too when that happens at or after early warning."
    if sense.eom && sense.triple() == triple::END_OF_DATA {
        text.push_str(": near the end of tape");
    }
    text
}

pub fn refusal(
    refusal: Refusal,
    advice: Option<String>,
    out: &mut dyn Write,
) -> Result<(), Failure> {
    let (number, sentence) = (refusal.number, refusal.sentence());
    writeln!(out, "  refused   {number}: {sentence}")?;
    writeln!(
        out,
        "  nothing changed: record, image and data are as they were"
    )?;
    match advice {
        Some(advice) => advise(&advice, out),
        None => Ok(()),
    }
}

fn advise(text: &str, out: &mut dyn Write) -> Result<(), Failure> {
    writeln!(out, "  advice    {text}")?;
    Ok(())
}

fn as_text(bytes: &[u8]) -> String {
    let letter = |b: &u8| match *b {
        b' '..=b'~' => char::from(*b),
        _ => '.',
    };
    bytes.iter().map(letter).collect()
}
