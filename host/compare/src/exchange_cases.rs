//! Tape files at their borders (02, A7): each case with the answer that the words of the request give, worked out by hand.

mod cut;
mod exported;
mod full;
mod lengths;
mod opened;

use tapecard::bytes::{kind, put_long};

use crate::{Difference, ExchangeBench, Part, Random, Shape, TapeFile};

/// One call: what is special, over which record and image, and its answer.
pub struct Case {
    pub what: String,
    pub record: [u8; 16],
    pub image: Vec<u8>,
    pub call: Call,
    pub answer: [u8; 16],
}

pub enum Call {
    /// Over these bytes of the buffer.
    Export(Vec<u8>),
    /// Of this file.
    Import(Vec<u8>),
}

/// Not loaded, locked, attention reset, speed 125, a sense with a residue, P far beyond U: nothing of it is judged, and most of it is
/// not as after a change of the cartridge.
pub const RECORD: [u8; 16] = [0, 0, 1, 0, 2, 2, 0, 125, 3, 0x11, 0, 1, 0, 0, 0, 9];

/// Elements that the cartridge of most cases holds.
pub const CAPACITY: u32 = 3;

/// Every case, those first that tell most.
pub fn all() -> Vec<Case> {
    let sets = [
        opened::cases(),
        full::cases(),
        exported::cases(),
        lengths::cases(),
        cut::cases(),
    ];
    sets.into_iter().flatten().collect()
}

impl Case {
    /// Makes the call on engine and model; the answer is not looked at.
    pub fn run(&self, bench: &mut ExchangeBench) -> Result<(), Box<Difference>> {
        bench.stream.begin(&self.record, &self.image);
        match &self.call {
            Call::Export(room) => bench.export(room)?,
            Call::Import(file) => bench.import(file)?,
        };
        Ok(())
    }
}

/// The cartridge of most cases: gaps around its parts, U 2, W 1, and at its places a marked block, an unreadable one whose kind is not
/// 0, and above U what would be a filemark.
fn cartridge(size: u16) -> Vec<u8> {
    let mut shape = Shape::plain(size, CAPACITY, 2);
    (shape.warning, shape.kinds_gap, shape.blocks_gap, shape.tail) = (1, 3, 5, 7);
    let mut image = shape.image(&mut Random::new(7));
    image[35..38].copy_from_slice(&[kind::MARKED, 7, kind::FILEMARK]);
    image
}

/// The cases of one cartridge, gathered.
struct Cases {
    size: u16,
    cases: Vec<Case>,
}

impl Cases {
    fn of(size: u16) -> Cases {
        let cases = Vec::new();
        Cases { size, cases }
    }

    /// The bytes of a block, each other than the next.
    fn bytes(&self, byte: u8) -> Vec<u8> {
        let bytes = (0..usize::from(self.size)).map(|at| byte ^ at as u8);
        bytes.collect()
    }

    fn block(&self, byte: u8) -> Part {
        Part::record(&self.bytes(byte))
    }

    fn unreadable(&self, byte: u8) -> Part {
        Part::unreadable(&self.bytes(byte))
    }

    fn taken(&mut self, what: &str, parts: &[Part], elements: u32, used: usize) {
        self.imported(what, TapeFile::of(parts).bytes(), answer(elements, used));
    }

    /// The whole file is used.
    fn taken_whole(&mut self, what: &str, parts: &[Part], elements: u32) {
        let used = TapeFile::of(parts).bytes().len();
        self.taken(what, parts, elements, used);
    }

    fn refused(&mut self, what: &str, parts: &[Part], number: u8) {
        self.imported(what, TapeFile::of(parts).bytes(), refusal(number));
    }

    fn imported(&mut self, what: &str, file: Vec<u8>, answer: [u8; 16]) {
        self.cases.push(Case {
            what: format!("{what}, B {}", self.size),
            record: RECORD,
            image: cartridge(self.size),
            call: Call::Import(file),
            answer,
        });
    }
}

/// The answer of a call that was taken.
pub fn answer(elements: u32, bytes: usize) -> [u8; 16] {
    let mut answer = [0; 16];
    put_long(&mut answer, 4, elements);
    put_long(&mut answer, 8, bytes as u32);
    answer
}

pub fn refusal(number: u8) -> [u8; 16] {
    let mut answer = [0; 16];
    answer[0] = number;
    answer
}
