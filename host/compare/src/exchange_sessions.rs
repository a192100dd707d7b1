//! Sessions of tape files: images written out, files damaged in every way, read into another image and read back by packets.

use model::packet::Ending;
use tapecard::bytes::{long_at, opcode, word_at};
use tapecard::exchange::{self, END_MARK, UNREADABLE};

use crate::exchange_damage::{damage_bytes, damage_parts};
use crate::images::{Shape, damage_image};
use crate::packet_sessions::valid_record;
use crate::{Difference, ExchangeBench, Part, Random, TapeFile};

type Outcome = Result<(), Box<Difference>>;

/// Records of any bytes, since an import judges none.
const ANY_RECORD_IN_100: u64 = 25;

/// Imports that are read back by packets.
const READ_BACK_IN_100: u64 = 15;

/// Makes calls, session after session, until `calls` are compared.
pub fn run(bench: &mut ExchangeBench, random_seed: u64, calls: u64) -> Outcome {
    let mut session = 0;
    while bench.stream.seen.calls < calls {
        let mut random = Random::of_session(random_seed, session);
        session += 1;
        run_session(bench, &mut random)?;
    }
    Ok(())
}

/// One image written out, and what became of its file read into other images.
fn run_session(bench: &mut ExchangeBench, random: &mut Random) -> Outcome {
    bench.stream.origin.session += 1;
    let shape = Shape::any(random);
    let image = shape.image(random);
    lend(bench, random, image);
    let size = shape.size;
    let file = write_out(bench, random, &shape)?;
    for _ in 0..random.between(1, 8) {
        let mut damaged = file.clone();
        for _ in 0..random.pick(&[0, 1, 1, 1, 2, 3]) {
            damage_parts(&mut damaged, size, random);
        }
        let mut bytes = damaged.bytes();
        if random.percent(15) {
            damage_bytes(&mut bytes, random);
        }
        let image = another_image(random, &shape, damaged.parts.len());
        lend(bench, random, image);
        read_in(bench, random, &bytes)?;
    }
    Ok(())
}

/// This image, damaged now and then, and a record.
fn lend(bench: &mut ExchangeBench, random: &mut Random, mut image: Vec<u8>) {
    let mut record = valid_record(random, &image);
    if random.percent(ANY_RECORD_IN_100) {
        random.fill(&mut record);
    }
    if random.percent(4) {
        damage_image(&mut image, random);
    }
    bench.stream.set_record(&record);
    bench.stream.set_image(&image);
}

/// Over a buffer that is always enough, then over one of any length; the whole file, or the end mark alone of a broken image.
fn write_out(
    bench: &mut ExchangeBench,
    random: &mut Random,
    shape: &Shape,
) -> Result<TapeFile, Box<Difference>> {
    let most = exchange::most_bytes(shape.recorded, shape.size);
    let mut room = vec![0; most + random.pick(&[0, 1, 2, 8])];
    random.fill(&mut room);
    if bench.export(&room)? != 0 {
        bench.export(&room[..random.below(5) as usize])?;
        return Ok(TapeFile::of(&[Part::END]));
    }
    let length = long_at(bench.stream.answer(), 8) as usize;
    let size = word_at(bench.stream.image(), 2);
    let file = TapeFile::read(&bench.file()[..length], size.into());
    let some = random.below(length as u64) as usize;
    let around = [0, some, length - 4, length - 1, length, length + 1, most];
    room.truncate(random.pick(&around));
    bench.export(&room)?;
    Ok(file)
}

/// Of the same block size mostly, with room for so many parts, or one too few.
fn another_image(random: &mut Random, shape: &Shape, parts: usize) -> Vec<u8> {
    let mut other = Shape::any(random);
    if random.percent(90) {
        other.size = shape.size;
    }
    if random.percent(70) {
        let near = random.pick(&[0, 1, 1, 2, 3]);
        other.capacity = (parts as u32 + 1).saturating_sub(near).max(1);
        other.recorded = random.below(u64::from(other.capacity) + 1) as u32;
        other.warning = random.below(u64::from(other.capacity) + 1) as u16;
    }
    other.image(random)
}

/// The file into the image, out again over bytes of any number, and back by packets now and then.
fn read_in(bench: &mut ExchangeBench, random: &mut Random, file: &[u8]) -> Outcome {
    let number = bench.import(file)?;
    if number == 0 && random.percent(READ_BACK_IN_100) {
        read_back(bench)?;
    }
    if random.percent(20) {
        let mut room = vec![0; random.below(file.len() as u64 + 40) as usize];
        random.fill(&mut room);
        bench.export(&room)?;
    }
    Ok(())
}

/// Reads the elements of the file just imported one by one, as a host would; a record that packets refuse is left alone.
pub fn read_back(bench: &mut ExchangeBench) -> Outcome {
    let used = long_at(bench.stream.answer(), 8) as usize;
    let size = usize::from(word_at(bench.stream.image(), 2));
    let imported = TapeFile::read(&bench.file()[..used], size);
    let told = bench.stream.send(&[opcode::TEST_UNIT_READY; 12], &[])?;
    if told != Ending::MediumChanged {
        return Ok(());
    }
    for part in imported.parts {
        let ending = read_one(bench, size)?;
        let due = match &part {
            Part::Word(END_MARK) => return ends_here(ending),
            Part::Record { first, bytes, .. } if *first < UNREADABLE => {
                assert!(bench.stream.data() == bytes, "the bytes of a record");
                Ending::Good
            }
            Part::Record { .. } => Ending::AtUnreadable,
            _ => Ending::AtFilemark,
        };
        assert_eq!(ending, due, "an element of an imported file");
        *bench.seen.read_back.entry(ending).or_default() += 1;
    }
    let ending = read_one(bench, size)?;
    ends_here(ending)
}

fn read_one(bench: &mut ExchangeBench, size: usize) -> Result<Ending, Box<Difference>> {
    let packet = [opcode::READ, 1, 0, 0, 1, 0, 0, 0, 0, 0, 0, 0];
    bench.stream.send(&packet, &vec![0x33; size])
}

fn ends_here(ending: Ending) -> Outcome {
    let ends = [Ending::AtEndOfData, Ending::AtEndOfDataPastWarning];
    assert!(ends.contains(&ending), "{ending:?} behind the last element");
    Ok(())
}
