//! SIMH tape files: how long a host waits for the largest cartridge, full, to be written out and to be read in, beside one plain copy
//! of the file's bytes. An export must know the length of its file before it writes, and an import judges the whole file before it
//! stores the first byte.

use std::hint::black_box;
use std::time::{Duration, Instant};

use tapecard::bytes::{kind, long_at};
use tapecard::{exchange, raw};

use crate::tape::{self, BLOCK_SIZE};
use crate::timing::{ROUNDS, median};

/// Elements of the largest cartridge.
const ELEMENTS: usize = 65_535;
/// Elements from one filemark to the next.
const FILE: usize = 100;
/// Calls of each kind in a round.
const TIMES: usize = 3;

/// The cartridge and its file.
struct Cartridge {
    image: Vec<u8>,
    file: Vec<u8>,
    copy: Vec<u8>,
}

pub fn measure() {
    let mut cartridge = Cartridge::full();
    let length = cartridge.file.len();
    println!(
        "a full cartridge of {ELEMENTS} elements of {BLOCK_SIZE} bytes, {} filemarks among them, and its file of {length} bytes,",
        ELEMENTS / FILE
    );
    println!("the median of {TIMES} calls a round");
    println!("round   export ms    MB/s   import ms    MB/s   copy ms");
    for round in 1..=ROUNDS {
        let exported = of_calls(|| cartridge.export());
        let imported = of_calls(|| cartridge.import());
        let copied = of_calls(|| cartridge.copy());
        println!(
            "{round:>5} {:>11.1} {:>7.0} {:>11.1} {:>7.0} {:>9.1}",
            exported / 1e6,
            megabytes_a_second(length, exported),
            imported / 1e6,
            megabytes_a_second(length, imported),
            copied / 1e6
        );
    }
}

impl Cartridge {
    /// Written out once, so that the file is there and every page of it was touched.
    fn full() -> Cartridge {
        let mut image = tape::image_of(ELEMENTS);
        for element in (FILE - 1..ELEMENTS).step_by(FILE) {
            image[tape::KINDS_AT + element] = kind::FILEMARK;
        }
        let mut file = vec![0x55; exchange::most_bytes(ELEMENTS as u32, BLOCK_SIZE as u16)];
        let mut answer = [0; 16];
        raw::export(&image, &mut file, &mut answer);
        assert_eq!((answer[0], long_at(&answer, 4) as usize), (0, ELEMENTS));
        file.truncate(long_at(&answer, 8) as usize);
        let copy = file.clone();
        Cartridge { image, file, copy }
    }

    fn export(&mut self) -> Duration {
        let (image, file) = (black_box(&self.image), black_box(&mut self.file));
        let mut answer = [0; 16];
        let begun = Instant::now();
        raw::export(image, file, &mut answer);
        let taken = begun.elapsed();
        assert_eq!(long_at(&answer, 8) as usize, self.file.len());
        black_box(&self.file);
        taken
    }

    fn import(&mut self) -> Duration {
        let (image, file) = (black_box(&mut self.image), black_box(&self.file));
        let (mut record, mut answer) = ([0; 16], [0; 16]);
        let begun = Instant::now();
        raw::import(&mut record, image, file, &mut answer);
        let taken = begun.elapsed();
        assert_eq!(long_at(&answer, 8) as usize, self.file.len());
        black_box(&self.image);
        taken
    }

    fn copy(&mut self) -> Duration {
        let (file, copy) = (black_box(&self.file), black_box(&mut self.copy));
        let begun = Instant::now();
        copy.copy_from_slice(file);
        let taken = begun.elapsed();
        black_box(&self.copy);
        taken
    }
}

/// The median of some calls, in nanoseconds.
fn of_calls(mut call: impl FnMut() -> Duration) -> f64 {
    median((0..TIMES).map(|_| call()).collect())
}

fn megabytes_a_second(bytes: usize, nanoseconds: f64) -> f64 {
    bytes as f64 / nanoseconds * 1e3
}
