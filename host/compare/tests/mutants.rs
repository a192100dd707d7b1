//! A mistake planted in the model is found, so one in the engine would be.

use compare::{ExchangeBench, FloppyBench, IndexBench, PacketBench, PulseBench};
use compare::{exchange_cases, exchange_sessions, say, seed_wanted};
use compare::{floppy_sessions, index_sessions, packet_sessions, pulse_sessions};
use model::Bug;

/// Calls within which each mistake must be found.
const CALLS: u64 = 100_000;

#[test]
fn planted_packet_mistakes_are_found() {
    for bug in Bug::PACKET_DEVICES.into_iter().chain(Bug::PACKET) {
        let seed = seed_wanted();
        let mut bench = PacketBench::new(bug, seed);
        let found = packet_sessions::run(&mut bench, seed, CALLS).is_err();
        assert!(found, "{bug:?} was not found within {CALLS} calls");
        say(&format!("{bug:?} found by call {}", bench.seen.calls));
    }
}

/// Those of the packet drive too, which a SPACE or a WRITE through the index could make by itself.
#[test]
fn planted_index_mistakes_are_found() {
    for bug in Bug::INDEX.into_iter().chain(Bug::PACKET) {
        let seed = seed_wanted();
        let mut bench = IndexBench::new(bug, seed);
        let found = index_sessions::run(&mut bench, seed, CALLS).is_err();
        assert!(found, "{bug:?} was not found within {CALLS} calls");
        say(&format!("{bug:?} found by call {}", bench.seen.calls));
    }
}

#[test]
fn planted_floppy_mistakes_are_found() {
    for bug in Bug::PACKET_DEVICES.into_iter().chain(Bug::FLOPPY) {
        let seed = seed_wanted();
        let mut bench = FloppyBench::new(bug, seed);
        let found = floppy_sessions::run(&mut bench, seed, CALLS).is_err();
        assert!(found, "{bug:?} was not found within {CALLS} calls");
        say(&format!("{bug:?} found by call {}", bench.seen.calls));
    }
}

#[test]
fn planted_pulse_mistakes_are_found() {
    for bug in Bug::PULSE.into_iter().chain(Bug::LIST) {
        let seed = seed_wanted();
        let mut bench = PulseBench::new(bug, seed);
        let found = pulse_sessions::run(&mut bench, seed, CALLS).is_err();
        assert!(found, "{bug:?} was not found within {CALLS} calls");
        say(&format!("{bug:?} found by call {}", bench.seen.calls));
    }
}

#[test]
fn planted_exchange_mistakes_are_found() {
    for bug in Bug::EXPORT.into_iter().chain(Bug::IMPORT) {
        let seed = seed_wanted();
        let mut bench = ExchangeBench::new(bug, seed);
        let found = exchange_sessions::run(&mut bench, seed, CALLS).is_err();
        assert!(found, "{bug:?} was not found within {CALLS} calls");
        let calls = bench.stream.seen.calls;
        say(&format!("{bug:?} found by call {calls}"));
    }
}

/// The cases at the borders alone find them too.
#[test]
fn planted_exchange_mistakes_are_found_at_the_borders() {
    let cases = exchange_cases::all();
    for bug in Bug::EXPORT.into_iter().chain(Bug::IMPORT) {
        let mut bench = ExchangeBench::new(bug, 0);
        let finder = cases.iter().find(|case| case.run(&mut bench).is_err());
        let case = finder.unwrap_or_else(|| panic!("{bug:?} was not found at the borders"));
        say(&format!("{bug:?} found by {}", case.what));
    }
}
