//! What std does not offer of this machine, by the C library that it links: the lock of a file, and signals waited for.
//! The only `unsafe` of the command.

pub mod flock;
pub mod signals;
