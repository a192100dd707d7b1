//! The archive's calls, each behind a safe function: the only `unsafe` of this crate.
//!
//! The archive asks for pointers to as many bytes as the layouts say, a pointer with its length for a slice, all of them apart from
//! one another. Rust's references give exactly that, so no caller can break it. No call keeps a pointer after it returns.

mod archive {
    // SAFETY: these are the signatures of the interface: `&mut [u8; N]` is one pointer, a slice is a pointer and a length.
    unsafe extern "C" {
        pub fn tapecard_fresh(record: *mut u8);
        pub fn tapecard_change(record: *mut u8);
        pub fn tapecard_packet(
            record: *mut u8,
            image: *mut u8,
            image_length: usize,
            packet: *const u8,
            packet_length: usize,
            data: *mut u8,
            data_length: usize,
            answer: *mut u8,
        );
        pub fn tapecard_index_make(
            image: *const u8,
            image_length: usize,
            index: *mut u8,
            index_length: usize,
            answer: *mut u8,
        );
        pub fn tapecard_index_packet(
            record: *mut u8,
            image: *mut u8,
            image_length: usize,
            index: *mut u8,
            index_length: usize,
            packet: *const u8,
            packet_length: usize,
            data: *mut u8,
            data_length: usize,
            answer: *mut u8,
        );
        pub fn tapecard_export(
            image: *const u8,
            image_length: usize,
            file: *mut u8,
            file_length: usize,
            answer: *mut u8,
        );
        pub fn tapecard_import(
            record: *mut u8,
            image: *mut u8,
            image_length: usize,
            file: *const u8,
            file_length: usize,
            answer: *mut u8,
        );
        pub fn tapecard_floppy_fresh(
            record: *mut u8,
            image: *const u8,
            image_length: usize,
            answer: *mut u8,
        );
        pub fn tapecard_floppy_change(
            record: *mut u8,
            image: *const u8,
            image_length: usize,
            answer: *mut u8,
        );
        pub fn tapecard_floppy_packet(
            record: *mut u8,
            image: *mut u8,
            image_length: usize,
            packet: *const u8,
            packet_length: usize,
            data: *mut u8,
            data_length: usize,
            answer: *mut u8,
        );
        pub fn tapecard_pulse_power_on(record: *mut u8, vendor: u16, rom: u8);
        pub fn tapecard_pulse_train(record: *mut u8, pulses: u16, answer: *mut u8);
        pub fn tapecard_pulse_trains(
            record: *mut u8,
            counts: *const u16,
            counts_length: usize,
            levels: *mut u8,
            levels_length: usize,
            answer: *mut u8,
        );
        pub fn tapecard_pulse_tick(record: *mut u8, answer: *mut u8);
        pub fn tapecard_pulse_insert(record: *mut u8, cartridge: *const u8, answer: *mut u8);
        pub fn tapecard_pulse_remove(record: *mut u8, answer: *mut u8);
        pub fn tapecard_pulse_wait(record: *mut u8, limit: u32, answer: *mut u8);
    }
}

pub fn fresh(record: &mut [u8; 16]) {
    // SAFETY: the call writes 16 bytes at `record`, which is borrowed for that.
    unsafe { archive::tapecard_fresh(record.as_mut_ptr()) }
}

pub fn change(record: &mut [u8; 16]) {
    // SAFETY: the call reads and writes 16 bytes at `record`, which is borrowed for that.
    unsafe { archive::tapecard_change(record.as_mut_ptr()) }
}

pub fn packet(
    record: &mut [u8; 16],
    image: &mut [u8],
    packet: &[u8],
    data: &mut [u8],
    answer: &mut [u8; 16],
) {
    // SAFETY: each slice goes over with its own length, record and answer have 16 bytes, `packet` is only read, and the borrows
    // keep the five apart.
    unsafe {
        archive::tapecard_packet(
            record.as_mut_ptr(),
            image.as_mut_ptr(),
            image.len(),
            packet.as_ptr(),
            packet.len(),
            data.as_mut_ptr(),
            data.len(),
            answer.as_mut_ptr(),
        )
    }
}

pub fn index_make(image: &[u8], index: &mut [u8], answer: &mut [u8; 16]) {
    // SAFETY: image and index go over with their own lengths, the image is only read, the answer has 16 bytes, and the borrows keep
    // the three apart.
    unsafe {
        archive::tapecard_index_make(
            image.as_ptr(),
            image.len(),
            index.as_mut_ptr(),
            index.len(),
            answer.as_mut_ptr(),
        )
    }
}

pub fn index_packet(
    record: &mut [u8; 16],
    image: &mut [u8],
    index: &mut [u8],
    packet: &[u8],
    data: &mut [u8],
    answer: &mut [u8; 16],
) {
    // SAFETY: each slice goes over with its own length, record and answer have 16 bytes, `packet` is only read, and the borrows
    // keep the six apart.
    unsafe {
        archive::tapecard_index_packet(
            record.as_mut_ptr(),
            image.as_mut_ptr(),
            image.len(),
            index.as_mut_ptr(),
            index.len(),
            packet.as_ptr(),
            packet.len(),
            data.as_mut_ptr(),
            data.len(),
            answer.as_mut_ptr(),
        )
    }
}

pub fn export(image: &[u8], file: &mut [u8], answer: &mut [u8; 16]) {
    // SAFETY: image and file go over with their own lengths, the image is only read, the answer has 16 bytes, and the borrows keep
    // the three apart.
    unsafe {
        archive::tapecard_export(
            image.as_ptr(),
            image.len(),
            file.as_mut_ptr(),
            file.len(),
            answer.as_mut_ptr(),
        )
    }
}

pub fn import(record: &mut [u8; 16], image: &mut [u8], file: &[u8], answer: &mut [u8; 16]) {
    // SAFETY: image and file go over with their own lengths, the file is only read, record and answer have 16 bytes, and the borrows
    // keep the four apart.
    unsafe {
        archive::tapecard_import(
            record.as_mut_ptr(),
            image.as_mut_ptr(),
            image.len(),
            file.as_ptr(),
            file.len(),
            answer.as_mut_ptr(),
        )
    }
}

pub fn floppy_fresh(record: &mut [u8; 32], image: &[u8], answer: &mut [u8; 16]) {
    // SAFETY: the record has 32 bytes, the answer 16, borrowed apart; the image goes over with its length and is only read.
    unsafe {
        archive::tapecard_floppy_fresh(
            record.as_mut_ptr(),
            image.as_ptr(),
            image.len(),
            answer.as_mut_ptr(),
        )
    }
}

pub fn floppy_change(record: &mut [u8; 32], image: &[u8], answer: &mut [u8; 16]) {
    // SAFETY: the record has 32 bytes, the answer 16, borrowed apart; the image goes over with its length and is only read.
    unsafe {
        archive::tapecard_floppy_change(
            record.as_mut_ptr(),
            image.as_ptr(),
            image.len(),
            answer.as_mut_ptr(),
        )
    }
}

pub fn floppy_packet(
    record: &mut [u8; 32],
    image: &mut [u8],
    packet: &[u8],
    data: &mut [u8],
    answer: &mut [u8; 16],
) {
    // SAFETY: each slice goes over with its own length, the record has 32 bytes, the answer 16, `packet` is only read, and the
    // borrows keep the five apart.
    unsafe {
        archive::tapecard_floppy_packet(
            record.as_mut_ptr(),
            image.as_mut_ptr(),
            image.len(),
            packet.as_ptr(),
            packet.len(),
            data.as_mut_ptr(),
            data.len(),
            answer.as_mut_ptr(),
        )
    }
}

pub fn pulse_power_on(record: &mut [u8; 32], vendor: u16, rom: u8) {
    // SAFETY: the call writes 32 bytes at `record`, which is borrowed for that.
    unsafe { archive::tapecard_pulse_power_on(record.as_mut_ptr(), vendor, rom) }
}

pub fn pulse_train(record: &mut [u8; 32], pulses: u16, answer: &mut [u8; 8]) {
    // SAFETY: the record has 32 bytes and the answer 8, borrowed apart for reading and writing.
    unsafe { archive::tapecard_pulse_train(record.as_mut_ptr(), pulses, answer.as_mut_ptr()) }
}

pub fn pulse_trains(
    record: &mut [u8; 32],
    counts: &[u16],
    levels: &mut [u8],
    answer: &mut [u8; 8],
) {
    // SAFETY: counts and levels go over with their own lengths, the counts aligned as C wants it and only read, the record has 32
    // bytes, the answer 8, and the borrows keep the four apart.
    unsafe {
        archive::tapecard_pulse_trains(
            record.as_mut_ptr(),
            counts.as_ptr(),
            counts.len(),
            levels.as_mut_ptr(),
            levels.len(),
            answer.as_mut_ptr(),
        )
    }
}

pub fn pulse_tick(record: &mut [u8; 32], answer: &mut [u8; 8]) {
    // SAFETY: the record has 32 bytes and the answer 8, borrowed apart for reading and writing.
    unsafe { archive::tapecard_pulse_tick(record.as_mut_ptr(), answer.as_mut_ptr()) }
}

pub fn pulse_insert(record: &mut [u8; 32], cartridge: &[u8; 8], answer: &mut [u8; 8]) {
    // SAFETY: the record has 32 bytes, the answer 8, borrowed apart; the description has 8 and is only read.
    unsafe {
        archive::tapecard_pulse_insert(record.as_mut_ptr(), cartridge.as_ptr(), answer.as_mut_ptr())
    }
}

pub fn pulse_remove(record: &mut [u8; 32], answer: &mut [u8; 8]) {
    // SAFETY: the record has 32 bytes and the answer 8, borrowed apart for reading and writing.
    unsafe { archive::tapecard_pulse_remove(record.as_mut_ptr(), answer.as_mut_ptr()) }
}

pub fn pulse_wait(record: &mut [u8; 32], limit: u32, answer: &mut [u8; 8]) {
    // SAFETY: the record has 32 bytes and the answer 8, borrowed apart for reading and writing.
    unsafe { archive::tapecard_pulse_wait(record.as_mut_ptr(), limit, answer.as_mut_ptr()) }
}
