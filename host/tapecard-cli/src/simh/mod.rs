//! SIMH tape files (02, A7): walked item by item, held to what the card says of them, and put into words.

pub mod card;
mod items;
pub mod walk;
pub mod words;
