//! README: drives the proved engines and the independent model through the same calls and compares every byte after each one.
//!
//! [`PacketBench`], [`IndexBench`], [`FloppyBench`], [`ExchangeBench`] and [`PulseBench`] hold an engine's and a model's copy of every
//! record, image and buffer, with guard bytes around them; each call is made on both and everything is compared. [`packet_sessions`],
//! [`index_sessions`], [`floppy_sessions`], [`exchange_sessions`] and [`pulse_sessions`] make the calls: good images and records
//! mostly, so that deep states are reached, then damage of every kind. A [`TapeFile`] is made of items that can be damaged one by one,
//! and [`exchange_cases`] has the cases at the borders of tape files. A [`TrainList`] is a call of the pulse drive like its others, and
//! is also held to the engine's own single trains. The tests in `tests/` run them.
//!
//! `TAPECARD_SEED` replaces the fixed seed and `TAPECARD_CALLS` the calls made for each drive in random sessions; a difference is
//! printed with its whole case, and the same seed finds it again. `tests/mutants.rs` plants known mistakes in the model and asks that
//! each is found. `tests/index_rewrites` closes memory for writing, to see which entries of an index are stored. `tests/c_example.rs`
//! compiles, runs and checks the C example and the header.

mod caught;
mod exchange_bench;
pub mod exchange_cases;
mod exchange_damage;
pub mod exchange_sessions;
mod floppy_bench;
pub mod floppy_sessions;
mod guarded;
mod image_bench;
mod images;
mod index_bench;
pub mod index_sessions;
pub mod list_sessions;
mod list_sides;
mod origin;
mod packet_bench;
pub mod packet_sessions;
mod pulse_bench;
pub mod pulse_sessions;
mod random;
mod settings;
mod starts;
mod stream_bench;
mod tape_file;
mod train_list;

pub use exchange_bench::{Exchange, ExchangeBench, ExchangeSeen, FileEnd};
pub use floppy_bench::FloppyBench;
pub use guarded::Guarded;
pub use image_bench::{DoorAsked, ImageBench, Marked, PacketSeen};
pub use images::Shape;
pub use index_bench::{Entries, IndexBench};
pub use list_sides::ListSeen;
pub use origin::{Difference, Origin, agree, hex};
pub use packet_bench::PacketBench;
pub use pulse_bench::{PulseBench, PulseCall, PulseSeen};
pub use random::Random;
pub use settings::{calls_wanted, say, seed_wanted};
pub use starts::Starts;
pub use stream_bench::StreamBench;
pub use tape_file::{Part, TapeFile};
pub use train_list::{Length, Room, TrainList, Zeros};
