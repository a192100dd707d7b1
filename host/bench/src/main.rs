//! Measures the proved engines on this machine: a READ of 64 blocks of 1,024 bytes through the whole interface beside a Rust
//! function written for the purpose, as a ratio in one run; what a filemark index costs, as ratios to the drive without one; how long
//! a full cartridge takes to a tape file and back; and the trains that the pulse drive takes in a second, singly and by lists.

mod exchanging;
mod indexing;
mod pulses;
mod purpose;
mod reading;
mod tape;
mod timing;

fn main() {
    if let Some(emulator) = std::env::var("TAPECARD_RUN")
        .ok()
        .filter(|word| !word.is_empty())
    {
        println!(
            "under {emulator}: these are an emulated processor's times, the ratios included\n"
        );
    }
    reading::measure();
    println!();
    indexing::measure();
    println!();
    exchanging::measure();
    println!();
    pulses::measure();
}
