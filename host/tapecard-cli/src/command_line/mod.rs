//! The words of the command line, and what is said where a command fails.

pub mod args;
pub mod failure;
