//! The command as its users meet it, a file a subject.

mod command_line;
mod common;
mod exchanges;
mod exporting;
mod files;
mod floppy;
mod flushing;
mod foreign_files;
mod images;
mod importing;
mod interrupts;
mod label_printer;
mod labels;
mod locked;
mod marked;
mod names;
mod overwriting;
mod packets;
mod pulses;
mod reels;
mod same_file;
mod simh_files;
mod statuses;
mod two_at_once;
