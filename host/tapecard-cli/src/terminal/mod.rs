//! Standard input line by line, standard output, interrupts, and a bar for what takes long.

pub mod interrupt;
pub mod output;
pub mod progress;
pub mod script;
