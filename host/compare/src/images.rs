//! Images for sessions: good ones of every shape, and damage to their headers.

use tapecard::bytes::{kind, long_at, put_long, put_word, word_at};

use crate::Random;

/// The measures of a good image.
pub struct Shape {
    pub size: u16,
    pub capacity: u32,
    pub recorded: u32,
    pub warning: u16,
    pub kinds_gap: usize,
    pub blocks_gap: usize,
    pub tail: usize,
    pub protected: bool,
}

impl Shape {
    /// Nothing beside the elements: no gap, no early warning, no protection.
    pub fn plain(size: u16, capacity: u32, recorded: u32) -> Shape {
        Shape {
            size,
            capacity,
            recorded,
            warning: 0,
            kinds_gap: 0,
            blocks_gap: 0,
            tail: 0,
            protected: false,
        }
    }

    /// Small images mostly.
    pub fn any(random: &mut Random) -> Shape {
        let capacity = match random.below(100) {
            0..=69 => random.between(1, 4),
            70..=95 => random.between(5, 12),
            96..=98 => random.between(13, 48),
            _ => random.between(49, 100),
        };
        let gap = |random: &mut Random| {
            if random.percent(70) {
                0
            } else {
                random.between(1, 50) as usize
            }
        };
        Shape {
            size: if random.percent(75) { 512 } else { 1024 },
            capacity: capacity as u32,
            recorded: match random.below(6) {
                0 => 0,
                1 | 2 => capacity as u32,
                _ => random.below(capacity + 1) as u32,
            },
            warning: match random.below(4) {
                0 => 0,
                1 => random.pick(&[1, capacity]) as u16,
                _ => random.below(capacity + 1) as u16,
            },
            kinds_gap: gap(random),
            blocks_gap: gap(random),
            tail: gap(random),
            protected: random.percent(8),
        }
    }

    /// An image of these measures with random kinds and blocks.
    pub fn image(&self, random: &mut Random) -> Vec<u8> {
        let capacity = self.capacity as usize;
        let kinds_at = 32 + self.kinds_gap;
        let blocks_at = kinds_at + capacity + self.blocks_gap;
        let length = blocks_at + capacity * usize::from(self.size) + self.tail;
        let mut image = vec![0; length];
        random.fill(&mut image[32..]);
        put_word(&mut image, 0, 32);
        put_word(&mut image, 2, self.size);
        put_long(&mut image, 4, self.capacity);
        put_long(&mut image, 8, self.recorded);
        put_long(&mut image, 12, kinds_at as u32);
        put_long(&mut image, 16, blocks_at as u32);
        image[20] = u8::from(self.protected);
        image[21] = random.byte();
        put_word(&mut image, 22, self.warning);
        put_kinds(random, &mut image[kinds_at..kinds_at + capacity]);
        image
    }
}

/// Data mostly, none, some or all of it marked; those above U have kinds too, which mean nothing.
fn put_kinds(random: &mut Random, kinds: &mut [u8]) {
    let marked = random.pick(&[0, 30, 50, 70, 100]);
    let odd_ones = random.pick(&[2, 10, 40]);
    for element in kinds {
        *element = if random.percent(odd_ones) {
            random.pick(&[2, 2, 2, 2, 0, 3, 5, 0xFF])
        } else if random.percent(marked) {
            kind::MARKED
        } else {
            kind::DATA
        };
    }
}

/// Breaks a header rule mostly: one field near its border, or the length.
pub fn damage_image(image: &mut Vec<u8>, random: &mut Random) {
    let capacity = long_at(image, 4);
    match random.below(13) {
        0 => put_word(image, 0, random.pick(&[0, 31, 33, 0x2000, 0xFFFF])),
        1 => put_word(image, 2, random.pick(&[0, 511, 513, 1023, 1025, 512, 1024])),
        2 => {
            let choices = [0, 65_535, 65_536, capacity + 1, u32::MAX, 0x1_0001];
            put_long(image, 4, random.pick(&choices));
        }
        3 => {
            let choices = [capacity, capacity + 1, 65_536, u32::MAX];
            put_long(image, 8, random.pick(&choices));
        }
        4 => damage_offset_of_kinds(image, random),
        5 => damage_offset_of_blocks(image, random),
        6 => image[20] = random.pick(&[0, 1, 2, 0x80, 0xFF]),
        7 => image[random.between(24, 31) as usize] = random.pick(&[1, 0x80]),
        8 => {
            let border = (capacity + 1).min(0xFFFF) as u16;
            put_word(image, 22, random.pick(&[border - 1, border, 0xFFFF]));
        }
        9 => {
            let needed = long_at(image, 16) as usize + blocks_length(image) as usize;
            image.resize(needed - random.below(2) as usize, 0);
        }
        10 => image.truncate(random.below(40) as usize),
        11 => {
            let at = random.below(32) as usize;
            image[at] = random.byte();
        }
        _ => random.fill(&mut image[..32]),
    }
}

fn blocks_length(image: &[u8]) -> u32 {
    long_at(image, 4) * u32::from(word_at(image, 2))
}

fn damage_offset_of_kinds(image: &mut [u8], random: &mut Random) {
    let capacity = long_at(image, 4);
    let wraps = 0u32.wrapping_sub(capacity);
    let border = long_at(image, 16) - capacity;
    let over = wraps.wrapping_add(32);
    let choices = [0, 31, 32, border, border + 1, wraps, over, u32::MAX];
    put_long(image, 12, random.pick(&choices));
}

fn damage_offset_of_blocks(image: &mut [u8], random: &mut Random) {
    let length = image.len() as u32;
    let blocks = blocks_length(image);
    let wraps = 0u32.wrapping_sub(blocks);
    let tight = long_at(image, 12) + long_at(image, 4);
    let choices = [
        tight - 1,
        tight,
        length - blocks,
        length - blocks + 1,
        wraps,
        wraps.wrapping_add(64),
        u32::MAX,
    ];
    put_long(image, 16, random.pick(&choices));
}

/// Another protection, early warning or kind, all of them allowed.
pub struct AllowedEdit {
    choice: u64,
    number: u64,
    capacity: u32,
    kinds_at: u32,
}

impl AllowedEdit {
    pub fn any(random: &mut Random, capacity: u32, kinds_at: u32) -> AllowedEdit {
        AllowedEdit {
            choice: random.below(3),
            number: random.number(),
            capacity,
            kinds_at,
        }
    }

    pub fn make(&self, image: &mut [u8]) {
        let number = self.number;
        match self.choice {
            0 => image[20] = u8::from(number & 7 == 0),
            1 => put_word(image, 22, (number % u64::from(self.capacity + 1)) as u16),
            _ => {
                let element = (number % u64::from(self.capacity)) as u32;
                image[(self.kinds_at + element) as usize] = (number >> 32) as u8 % 6;
            }
        }
    }
}

/// Other kinds throughout and this U, as if the cartridge had been recorded elsewhere.
pub struct OtherRecording {
    seed: u64,
    recorded: u32,
    capacity: u32,
    kinds_at: u32,
}

impl OtherRecording {
    pub fn any(random: &mut Random, recorded: u32, capacity: u32, kinds_at: u32) -> OtherRecording {
        OtherRecording {
            seed: random.number(),
            recorded,
            capacity,
            kinds_at,
        }
    }

    pub fn make(&self, image: &mut [u8]) {
        put_long(image, 8, self.recorded);
        let kinds = &mut image[self.kinds_at as usize..][..self.capacity as usize];
        put_kinds(&mut Random::new(self.seed), kinds);
    }
}
