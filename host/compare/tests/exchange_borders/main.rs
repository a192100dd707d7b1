//! Tape files (02, A7) at their borders: files cut at every byte, words wrong in every bit, other sizes and pads, ends early and
//! missing, C elements and one more, every kind, buffers around the length of the file, what is stored and what stays, files that come
//! back, packets after an import, and the largest cartridge. Engine and model agree, and both are held to numbers worked out by hand.

mod cases;
mod common;
mod large;
mod packets;
mod round_trips;
mod stored;
mod written;
