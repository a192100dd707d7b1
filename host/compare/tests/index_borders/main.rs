//! The filemark index (02, A4) at its borders: indexes made afresh, lengths around 4*C, every byte wrong under every packet, the order
//! of the numbers, stores and SPACE over filemarks at every place of every small tape, all other packets, a small world of sequences
//! in full, and the largest tape. Engine and model agree, and both are held to numbers of these files' own.

mod common;
mod large;
mod made;
mod refused;
mod spaced;
mod stored;
