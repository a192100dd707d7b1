//! Files of this machine: held against other runs, read, and replaced only when whole.

pub mod distinct;
pub mod held_file;
mod identity;
pub mod image_file;
mod links;
pub mod output_file;
mod part;
pub mod record_file;
mod record_owner;
pub mod tap_file;
