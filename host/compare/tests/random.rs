//! Random sessions: engine and model agree after every call, and the calls go everywhere.

use std::collections::BTreeSet;
use std::time::Instant;

use compare::{DoorAsked, Entries, FloppyBench, IndexBench, Marked, PacketBench, PacketSeen};
use compare::{Exchange, ExchangeBench, ExchangeSeen, FileEnd};
use compare::{Length, ListSeen, PulseBench, PulseCall, PulseSeen, Random, Room, Zeros};
use compare::{calls_wanted, say, seed_wanted};
use compare::{
    exchange_sessions, floppy_sessions, index_sessions, packet_sessions, pulse_sessions,
};
use model::Bug;
use model::floppy;
use model::packet::{Ending, OPCODES};
use model::pulse::{Branch, ERRORS};
use tapecard::bytes::{opcode, page, space, train, triple};

/// Calls for each drive where the environment names no other number.
const USUAL_CALLS: u64 = 600_000;

/// A run shorter than this is not asked to go everywhere.
const COVERAGE_FROM: u64 = 300_000;

/// The names that the tests go by are those of the model's list.
#[test]
fn the_named_opcodes_are_the_models() {
    assert_eq!(opcode::ALL, OPCODES);
    assert_eq!(opcode::FLOPPY, floppy::OPCODES);
}

#[test]
fn packet_drive() {
    let seed = seed_wanted();
    let calls = calls_wanted(USUAL_CALLS);
    let begun = Instant::now();
    let mut bench = PacketBench::new(Bug::None, seed);
    if let Err(difference) = packet_sessions::run(&mut bench, seed, calls) {
        panic!("{difference}");
    }
    say(&format!(
        "packet drive: seed {seed:#x}, {} calls in {} sessions compared in {:.1} s, {} kinds of ending",
        bench.seen.calls,
        bench.origin.session,
        begun.elapsed().as_secs_f64(),
        bench.seen.endings.len()
    ));
    if calls >= COVERAGE_FROM {
        packets_went_everywhere(&bench.seen);
    }
}

#[test]
fn filemark_index() {
    let seed = seed_wanted();
    let calls = calls_wanted(USUAL_CALLS);
    let begun = Instant::now();
    let mut bench = IndexBench::new(Bug::None, seed);
    if let Err(difference) = index_sessions::run(&mut bench, seed, calls) {
        panic!("{difference}");
    }
    say(&format!(
        "filemark index: seed {seed:#x}, {} calls in {} sessions compared in {:.1} s, {} kinds of ending",
        bench.seen.calls,
        bench.origin.session,
        begun.elapsed().as_secs_f64(),
        bench.seen.endings.len()
    ));
    if calls >= COVERAGE_FROM {
        index_packets_went_everywhere(&bench);
    }
}

#[test]
fn floppy_device() {
    let seed = seed_wanted();
    let calls = calls_wanted(USUAL_CALLS);
    let begun = Instant::now();
    let mut bench = FloppyBench::new(Bug::None, seed);
    if let Err(difference) = floppy_sessions::run(&mut bench, seed, calls) {
        panic!("{difference}");
    }
    say(&format!(
        "floppy device: seed {seed:#x}, {} calls in {} sessions compared in {:.1} s, {} kinds of ending",
        bench.seen.calls,
        bench.origin.session,
        begun.elapsed().as_secs_f64(),
        bench.seen.endings.len()
    ));
    if calls >= COVERAGE_FROM {
        floppy_packets_went_everywhere(&bench.seen);
    }
}

#[test]
fn tape_files() {
    let seed = seed_wanted();
    let calls = calls_wanted(USUAL_CALLS).div_ceil(4);
    let begun = Instant::now();
    let mut bench = ExchangeBench::new(Bug::None, seed);
    if let Err(difference) = exchange_sessions::run(&mut bench, seed, calls) {
        panic!("{difference}");
    }
    say(&format!(
        "tape files: seed {seed:#x}, {} calls in {} sessions compared in {:.1} s, {} elements read back",
        bench.stream.seen.calls,
        bench.stream.origin.session,
        begun.elapsed().as_secs_f64(),
        bench.seen.read_back.values().sum::<u64>()
    ));
    if calls >= COVERAGE_FROM / 4 {
        tape_files_went_everywhere(&bench.seen, bench.stream.seen.calls);
    }
}

#[test]
fn pulse_drive() {
    let seed = seed_wanted();
    let calls = calls_wanted(USUAL_CALLS);
    let begun = Instant::now();
    let mut bench = PulseBench::new(Bug::None, seed);
    if let Err(difference) = pulse_sessions::run(&mut bench, seed, calls) {
        panic!("{difference}");
    }
    say(&format!(
        "pulse drive: seed {seed:#x}, {} calls in {} sessions compared in {:.1} s, {} branches, longest wait {} ticks",
        bench.seen.calls,
        bench.origin.session,
        begun.elapsed().as_secs_f64(),
        bench.seen.branches.len(),
        bench.seen.longest_wait
    ));
    let lists = &bench.seen.lists;
    say(&format!(
        "lists of trains: {} lists with {} trains sent, the longest of {}, by {} branches",
        lists.answered.values().sum::<u64>(),
        lists.trains,
        lists.longest,
        lists.branches.len()
    ));
    if calls >= COVERAGE_FROM {
        pulses_went_everywhere(&bench.seen);
    }
}

/// One drive from power-on through a long life, never damaged.
#[test]
fn long_pulse_session() {
    let seed = seed_wanted();
    let mut bench = PulseBench::new(Bug::None, seed);
    let mut random = Random::new(seed);
    let calls = calls_wanted(USUAL_CALLS) / 4;
    bench
        .make(PulseCall::PowerOn(0xBEEF, 0x42))
        .expect("power-on agrees");
    if let Err(difference) = pulse_sessions::run_session(&mut bench, &mut random, calls, false) {
        panic!("{difference}");
    }
    let broken = bench.seen.branches.get(&Branch::Refused(8));
    assert_eq!(broken, None, "every call keeps the record rules");
    say(&format!(
        "pulse drive: seed {seed:#x}, one session of {} calls compared, {} branches",
        bench.seen.calls,
        bench.seen.branches.len()
    ));
}

fn packets_went_everywhere(seen: &PacketSeen) {
    assert_eq!(seen.triples, triples());
    ended_every_way(seen, &PACKET_REFUSALS, &wanted_endings());
    met_the_end_of_data_often(seen);
    read_marked_blocks_often(seen, &READ_ENDINGS);
    used_the_door_often(seen);
}

/// How a READ of the stream device ends that has copied blocks.
const READ_ENDINGS: [Ending; 5] = [
    Ending::Good,
    Ending::AtFilemark,
    Ending::AtUnreadable,
    Ending::AtEndOfData,
    Ending::AtEndOfDataPastWarning,
];

/// Whichever way a READ ended, the blocks that it copied were not, partly and wholly marked, each once in ten thousand calls.
fn read_marked_blocks_often(seen: &PacketSeen, endings: &[Ending]) {
    for &ending in endings {
        for marked in [Marked::Not, Marked::Partly, Marked::Wholly] {
            let times = seen.reads.get(&(ending, marked));
            assert!(
                once_in(10_000, seen, times),
                "a READ ended with {ending:?}, its blocks {marked:?} marked, {times:?} times"
            );
        }
    }
}

/// 02, A8: 1Bh and 1Eh went to drives that were loaded or not and locked or not, each once in ten thousand calls at least; of an
/// unload the lock decided, also where nothing was loaded, and all else was done.
fn used_the_door_often(seen: &PacketSeen) {
    for asked in DoorAsked::ALL {
        for before in 0..4 {
            let locked = before >= 2;
            let (ending, never) = match asked {
                DoorAsked::Unload if locked => (Ending::RemovalPrevented, Ending::Good),
                _ => (Ending::Good, Ending::RemovalPrevented),
            };
            let times = seen.doors.get(&(asked, before, ending));
            assert!(
                once_in(10_000, seen, times),
                "{asked:?} of a drive with byte 4 {before} ended with {ending:?} {times:?} times"
            );
            assert_eq!(seen.doors.get(&(asked, before, never)), None);
        }
    }
}

/// Whether it came about once in so many calls at least.
fn once_in(calls: u64, seen: &PacketSeen, times: Option<&u64>) -> bool {
    times.is_some_and(|times| times * calls >= seen.calls)
}

/// Before and past early warning alike, each once in a thousand calls: the few that damaged headers bring about would not do.
fn met_the_end_of_data_often(seen: &PacketSeen) {
    for (opcode, variant) in [
        (opcode::READ, 0),
        (opcode::SPACE, space::BLOCKS),
        (opcode::SPACE, space::FILEMARKS),
    ] {
        for ending in [Ending::AtEndOfData, Ending::AtEndOfDataPastWarning] {
            let times = seen.endings.get(&(opcode, variant, ending));
            assert!(
                once_in(1000, seen, times),
                "opcode {opcode:02X}h, variant {variant}, ended with {ending:?} {times:?} times"
            );
        }
    }
}

/// Numbers that a packet is refused with, without an index.
const PACKET_REFUSALS: [u8; 4] = [1, 2, 3, 4];

/// Refused by each number, every first byte looked at, and each of these endings met.
fn ended_every_way(seen: &PacketSeen, numbers: &[u8], wanted: &[(u8, u8, Ending)]) {
    let refusals: Vec<u8> = seen.refusals.keys().copied().collect();
    assert_eq!(refusals, numbers);
    assert_eq!(seen.opcodes.len(), 256, "every opcode was looked at");
    for &(opcode, variant, ending) in wanted {
        assert!(
            seen.endings.contains_key(&(opcode, variant, ending)),
            "opcode {opcode:02X}h, variant {variant}, never ended with {ending:?}"
        );
    }
}

/// Every sense triple of CHECK CONDITION.
fn triples() -> BTreeSet<[u8; 3]> {
    BTreeSet::from([
        triple::FILEMARK,
        triple::EARLY_WARNING,
        triple::BEGINNING,
        triple::NOT_LOADED,
        triple::UNREADABLE,
        triple::LIST_LENGTH,
        triple::UNKNOWN_COMMAND,
        triple::BAD_FIELD,
        triple::BAD_LIST,
        triple::REMOVAL_PREVENTED,
        triple::MEDIUM_CHANGED,
        triple::RESET,
        triple::PROTECTED,
        triple::END_OF_DATA,
        triple::FULL,
    ])
}

/// The endings that each command has of its own, by opcode and variant.
const OWN_ENDINGS: [(u8, u8, &[Ending]); 30] = {
    use Ending::*;
    use opcode::*;
    [
        (TEST_UNIT_READY, 0, &[Good, NotLoaded]),
        (REWIND, 0, &[Good, NotLoaded]),
        (REQUEST_SENSE, 0, &[Good, Refused(4)]),
        (READ, 0, &[BadField, NotLoaded, Refused(4), Good]),
        (READ, 0, &[AtFilemark, AtUnreadable]),
        (READ, 0, &[AtEndOfData, AtEndOfDataPastWarning]),
        (WRITE, 0, &[BadField, NotLoaded, Protected, Refused(4)]),
        (WRITE, 0, &[Good, CartridgeFull, EarlyWarning]),
        (WRITE_FILEMARK, 0, &[NotLoaded, Protected]),
        (WRITE_FILEMARK, 0, &[Good, CartridgeFull, EarlyWarning]),
        (SPACE, 0, &[Good, NotLoaded, AtFilemark]),
        (SPACE, 0, &[AtEndOfData, AtEndOfDataPastWarning]),
        (SPACE, 8, &[Good, NotLoaded, AtFilemark, AtBeginning]),
        (SPACE, 1, &[Good, AtEndOfData, AtEndOfDataPastWarning]),
        (SPACE, 8 + 1, &[Good, AtBeginning]),
        (SPACE, 3, &[Good, NotLoaded]),
        (SPACE, 8 + 3, &[Good]),
        (SPACE, 2, &[BadField]),
        (SPACE, 7, &[BadField]),
        (INQUIRY, 0, &[Good, Refused(4)]),
        (MODE_SELECT, 0, &[Good]),
        (MODE_SELECT, 12, &[Good, Refused(4)]),
        (MODE_SELECT, 32, &[Good, Refused(4), BadList]),
        (MODE_SELECT, 31, &[BadListLength]),
        (MODE_SENSE, 0, &[Good, Refused(4)]),
        (MODE_SENSE, page::CODE, &[Good, Refused(4)]),
        (LOAD_UNLOAD, 0, &[Good, BadField, RemovalPrevented]),
        (PREVENT_ALLOW, 0, &[Good]),
        (LOCATE, 0, &[BadField, NotLoaded, Good, LocatedBeyond]),
        (READ_POSITION, 0, &[NotLoaded, Refused(4), Good]),
    ]
};

/// The endings before a packet's opcode is looked at: three for every packet, two for all but 03h and 12h.
const EARLY: [Ending; 5] = [
    Ending::Refused(1),
    Ending::Refused(2),
    Ending::Refused(3),
    Ending::MediumChanged,
    Ending::WasReset,
];

/// Every way that a packet can end, by opcode and variant.
fn wanted_endings() -> Vec<(u8, u8, Ending)> {
    use Ending::*;
    let mut wanted = Vec::new();
    for (opcode, variant, endings) in OWN_ENDINGS {
        wanted.extend(endings.iter().map(|&ending| (opcode, variant, ending)));
    }
    wanted.push((opcode::MODE_SENSE, 0x2B, BadField));
    for opcode in (0..=255).filter(|opcode| !OPCODES.contains(opcode)) {
        wanted.push((opcode, 0, UnknownOpcode));
    }
    for opcode in [
        opcode::TEST_UNIT_READY,
        opcode::REWIND,
        opcode::READ,
        opcode::WRITE,
        opcode::WRITE_FILEMARK,
        opcode::LOAD_UNLOAD,
        opcode::PREVENT_ALLOW,
        opcode::LOCATE,
        opcode::READ_POSITION,
    ] {
        wanted.extend(EARLY.map(|ending| (opcode, 0, ending)));
    }
    for opcode in [opcode::REQUEST_SENSE, opcode::INQUIRY] {
        wanted.extend(EARLY[..3].iter().map(|&ending| (opcode, 0, ending)));
    }
    wanted
}

/// With the index kept, wherever the plain drive goes; with a wrong one, 9 and 10 for every packet (02, A4), 03h and 12h too.
fn index_packets_went_everywhere(bench: &IndexBench) {
    let seen = &bench.seen;
    let made = [("make", 0), ("make", 2), ("make", 9)];
    assert_eq!(seen.numbers, BTreeSet::from(made));
    assert_eq!(seen.triples, triples());
    let mut wanted = wanted_endings();
    for (opcode, variant, _) in OWN_ENDINGS {
        wanted.extend([9, 10].map(|number| (opcode, variant, Ending::Refused(number))));
    }
    ended_every_way(seen, &[1, 2, 3, 4, 9, 10], &wanted);
    met_the_end_of_data_often(seen);
    rewrote_entries_often(bench);
}

/// A WRITE kept or dropped entries and a WRITE FILEMARK made of them whatever can be made, each once in a thousand calls; nothing
/// else changed them.
fn rewrote_entries_often(bench: &IndexBench) {
    use Entries::*;
    for (opcode, made) in [
        (opcode::WRITE, &[Kept, Dropped][..]),
        (opcode::WRITE_FILEMARK, &Entries::ALL),
    ] {
        for &entries in made {
            let times = bench.entries.get(&(opcode, entries));
            assert!(
                once_in(1000, &bench.seen, times),
                "opcode {opcode:02X}h left the entries {entries:?} {times:?} times"
            );
        }
    }
    for &(opcode, entries) in bench.entries.keys() {
        let stores = [opcode::WRITE, opcode::WRITE_FILEMARK].contains(&opcode);
        assert!(stores || entries == Kept, "{opcode:02X}h changed entries");
    }
}

fn floppy_packets_went_everywhere(seen: &PacketSeen) {
    let starts = [("change", 0), ("change", 2), ("fresh", 0), ("fresh", 2)];
    assert_eq!(seen.numbers, BTreeSet::from(starts));
    let mut triples = triples();
    for of_the_stream in [triple::FILEMARK, triple::EARLY_WARNING, triple::BEGINNING] {
        triples.remove(&of_the_stream);
    }
    assert_eq!(seen.triples, triples);
    ended_every_way(seen, &PACKET_REFUSALS, &wanted_floppy_endings());
    read_marked_blocks_often(seen, &FLOPPY_READ_ENDINGS);
    used_the_door_often(seen);
}

/// How a READ of the floppy device ends that has copied blocks.
const FLOPPY_READ_ENDINGS: [Ending; 3] = [Ending::Good, Ending::AtUnreadable, Ending::AtEndOfData];

/// The endings that each command of the floppy device has of its own, by opcode and variant.
const OWN_FLOPPY_ENDINGS: [(u8, u8, &[Ending]); 20] = {
    use Ending::*;
    use opcode::*;
    [
        (TEST_UNIT_READY, 0, &[Good, NotLoaded]),
        (REQUEST_SENSE, 0, &[Good, Refused(4)]),
        (READ, 0, &[BadField, NotLoaded, Refused(4), Good]),
        (READ, 0, &[AtUnreadable, AtEndOfData]),
        (WRITE, 0, &[BadField, NotLoaded, Protected, Refused(4)]),
        (WRITE, 0, &[Good, CartridgeFull]),
        (WRITE_FILEMARK, 0, &[NotLoaded, Protected, Good]),
        (INQUIRY, 0, &[Good, Refused(4)]),
        (MODE_SELECT, 0, &[Good]),
        (MODE_SELECT, 12, &[Good, Refused(4)]),
        (MODE_SELECT, 28, &[Good, Refused(4), BadList]),
        (MODE_SELECT, 32, &[Good, Refused(4), BadList]),
        (MODE_SELECT, 27, &[BadListLength]),
        (MODE_SENSE, 0, &[Good, Refused(4)]),
        (MODE_SENSE, page::CODE, &[Good, Refused(4)]),
        (MODE_SENSE, page::TAPE_CODE, &[Good, Refused(4)]),
        (MODE_SENSE, 0x2C, &[BadField]),
        (LOAD_UNLOAD, 0, &[Good, RemovalPrevented]),
        (PREVENT_ALLOW, 0, &[Good]),
        (LOCATE, 0, &[BadField, NotLoaded, Good]),
    ]
};

/// Every way that a packet of the floppy device can end, by opcode and variant.
fn wanted_floppy_endings() -> Vec<(u8, u8, Ending)> {
    use Ending::*;
    let mut wanted = Vec::new();
    for (opcode, variant, endings) in OWN_FLOPPY_ENDINGS {
        wanted.extend(endings.iter().map(|&ending| (opcode, variant, ending)));
    }
    let unknown = (0..=255).filter(|opcode| !floppy::OPCODES.contains(opcode));
    wanted.extend(
        unknown
            .filter(|&opcode| opcode != opcode::SPACE)
            .map(|opcode| (opcode, 0, UnknownOpcode)),
    );
    wanted.extend([0, 1, 8].map(|variant| (opcode::SPACE, variant, UnknownOpcode)));
    for opcode in [
        opcode::TEST_UNIT_READY,
        opcode::READ,
        opcode::WRITE,
        opcode::WRITE_FILEMARK,
        opcode::LOAD_UNLOAD,
        opcode::PREVENT_ALLOW,
        opcode::LOCATE,
    ] {
        wanted.extend(EARLY.map(|ending| (opcode, 0, ending)));
    }
    for opcode in [opcode::REQUEST_SENSE, opcode::INQUIRY] {
        wanted.extend(EARLY[..3].iter().map(|&ending| (opcode, 0, ending)));
    }
    wanted
}

/// 02, A7: every number was met often, files ended in every way, U grew, shrank and stayed, and what was stored was read back.
fn tape_files_went_everywhere(seen: &ExchangeSeen, calls: u64) {
    say(&format!("tape files: numbers {:?}", seen.numbers));
    let often = |times: Option<&u64>| times.is_some_and(|times| times * 200 >= calls);
    let exports = [0, 2, 4].map(|number| (Exchange::Export, number));
    let imports = [0, 2, 11, 12, 13].map(|number| (Exchange::Import, number));
    let all: Vec<(Exchange, u8)> = exports.into_iter().chain(imports).collect();
    let met: Vec<(Exchange, u8)> = seen.numbers.keys().copied().collect();
    assert_eq!(met, all, "the numbers of both calls and no others");
    for number in all {
        assert!(often(seen.numbers.get(&number)), "{number:?} was rare");
    }
    for end in FileEnd::ALL {
        assert!(often(seen.ends.get(&end)), "files that end {end:?}");
    }
    for growth in [-1, 0, 1] {
        assert!(often(seen.recorded.get(&growth)), "U went {growth}");
    }
    let kinds: Vec<u8> = seen.stored.keys().copied().collect();
    assert_eq!(kinds, [0, 1, 2], "an import stores these kinds alone");
    for ending in [Ending::Good, Ending::AtFilemark, Ending::AtUnreadable] {
        let times = seen.read_back.get(&ending);
        assert!(often(times), "elements read back that ended {ending:?}");
    }
}

fn pulses_went_everywhere(seen: &PulseSeen) {
    let refusals: Vec<u8> = seen.refusals.keys().copied().collect();
    assert_eq!(refusals, [4, 5, 6, 7, 8]);
    assert_eq!(seen.errors, BTreeSet::from(ERRORS));
    assert_eq!(seen.levels, BTreeSet::from([0, 1]));
    assert_eq!(seen.longest_wait, 4095);
    let numbers = [4, 5, 6, 7, 8].map(Branch::Refused);
    for branch in train_branches()
        .iter()
        .chain(&numbers)
        .chain(&OTHER_BRANCHES)
    {
        assert!(
            seen.branches.contains_key(branch),
            "no call went through {branch:?}"
        );
    }
    lists_went_everywhere(&seen.lists);
}

/// 02, A5: the trains of lists went every way that a train can go, and lists of every length, with and without a 0 and with every room
/// for their levels, were answered as they had to be.
fn lists_went_everywhere(seen: &ListSeen) {
    for branch in train_branches() {
        assert!(
            seen.branches.contains_key(&branch),
            "no train of a list went through {branch:?}"
        );
    }
    assert!(seen.longest > 4096, "the longest list had {}", seen.longest);
    for &(number, zeros, room, _) in seen.answered.keys() {
        let due = number_due(zeros, room);
        assert!(
            [due, 8].contains(&number),
            "0s {zeros:?}, room {room:?}: {number}"
        );
    }
    for zeros in Zeros::ALL {
        for room in Room::ALL {
            let due = number_due(zeros, room);
            was_answered(seen, due, |list| list == (zeros, room, Length::Short));
        }
        lists_were_mixed(seen, zeros);
    }
    for (zeros, room, length) in FEW_TRAINS {
        let due = number_due(zeros, room);
        was_answered(seen, due, |list| list == (zeros, room, length));
    }
}

/// Long lists, and lists to a record that breaks the rules, had these 0s, both with room enough and with too little.
fn lists_were_mixed(seen: &ListSeen, zeros: Zeros) {
    for some_room in [Room::OneShort, Room::Exact] {
        let enough = some_room >= Room::Exact;
        let fits = |list: Stands| list.0 == zeros && (list.1 >= Room::Exact) == enough;
        was_answered(seen, 8, fits);
        let due = number_due(zeros, some_room);
        was_answered(seen, due, |list| fits(list) && list.2 == Length::Long);
    }
}

/// What stands out of a list.
type Stands = (Zeros, Room, Length);

/// Lists of no train and of one.
const FEW_TRAINS: [Stands; 8] = [
    (Zeros::Nowhere, Room::Exact, Length::Empty),
    (Zeros::Nowhere, Room::Longer, Length::Empty),
    (Zeros::Nowhere, Room::None, Length::One),
    (Zeros::Nowhere, Room::Exact, Length::One),
    (Zeros::Nowhere, Room::Longer, Length::One),
    (Zeros::Several, Room::None, Length::One),
    (Zeros::Several, Room::Exact, Length::One),
    (Zeros::Several, Room::Longer, Length::One),
];

/// What a list is answered with where the record keeps its rules.
fn number_due(zeros: Zeros, room: Room) -> u8 {
    match (zeros, room) {
        (Zeros::Nowhere, Room::Exact | Room::Longer) => 0,
        (Zeros::Nowhere, _) => 4,
        _ => 5,
    }
}

/// Lists of this kind were answered with this number.
fn was_answered(seen: &ListSeen, number: u8, is_meant: impl Fn(Stands) -> bool) {
    let met = seen
        .answered
        .keys()
        .filter(|answered| answered.0 == number)
        .any(|&(_, zeros, room, length)| is_meant((zeros, room, length)));
    assert!(met, "answered with {number} were only {:?}", seen.answered);
}

/// Every way that a train can go.
fn train_branches() -> Vec<Branch> {
    use Branch::*;
    let mut wanted = vec![
        ResetWithCartridge,
        ResetWithout,
        NibbleHeld,
        NibbleOutOfRange,
        RateSet,
        RateOutOfRange,
        TrackSet,
        TrackOutOfRange,
        NextItem,
        FinalItem,
        Repeated,
        IgnoredInReport,
        IllegalInReport,
        NextBitAlone,
        Unsupported,
        Ignored,
        ErrorReportWhileMoving,
        ErrorReportClearsNewMark,
        NotReadyInLoad,
        NotReadyInRun,
        HeldError,
        NewMark,
        NoCartridge,
        NotReferenced,
    ];
    wanted.extend(train::SKIPS.map(|pulses| SkipStarted(pulses as u8)));
    wanted.extend(train::REPORTS.map(|pulses| Report(pulses as u8)));
    wanted.extend(train::COMMANDS.map(|pulses| Obeyed(pulses as u8)));
    wanted.extend([3, 18, 25, 26, 34, 35].map(ObeyedAfterStop));
    wanted
}

/// Every way that another call of the pulse drive can go, if it is not refused.
const OTHER_BRANCHES: [Branch; 11] = [
    Branch::TickedStill,
    Branch::TickedOn,
    Branch::TickArrivedRun,
    Branch::TickArrivedLoad,
    Branch::Inserted,
    Branch::RemovedStill,
    Branch::RemovedMoving,
    Branch::WaitedToReady,
    Branch::WaitedToLimit,
    Branch::WaitedReady,
    Branch::ListAccepted,
];
