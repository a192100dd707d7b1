//! The door of either packet device, which 1Eh locks and unlocks, and through which 1Bh unloads (02, A8).

use crate::bug::Bug;
use crate::commands::LOAD_UNLOAD;
use crate::record::State;
use crate::reply::{Ending, Reply, removal_prevented};

/// "LOCK (01h)" and "LOCKED (02h)", in byte 6 of page 2Ah.
const LOCK: u8 = 0x01;
const LOCKED: u8 = 0x02;

// 01: "byte 4 load 1".
pub fn loads(packet: &[u8]) -> bool {
    packet[4] & 1 != 0
}

// "Unloading while locked ends with 5/53/02": an unload is 1Bh without the load bit, also where nothing is loaded.
pub fn holds(bug: Bug, state: &State, packet: &[u8]) -> bool {
    let unloads = !loads(packet);
    let held = match bug {
        Bug::UnloadIgnoresLock => false,
        Bug::LockStopsLoad => true,
        Bug::UnloadPassesWhereEmpty => unloads && state.loaded,
        Bug::RetensionPassesLock => unloads && packet[4] & 2 == 0,
        _ => unloads,
    };
    packet[0] == LOAD_UNLOAD && state.locked && held
}

// "Unloading while locked ends with 5/53/02; the position stays." "53/02 stands after the fields check of 1Bh".
pub fn stopped(bug: Bug, state: &mut State, packet: &[u8]) -> Option<Reply> {
    if !holds(bug, state, packet) {
        return None;
    }
    let mut reply = removal_prevented();
    match bug {
        Bug::StoppedUnloadRewinds => state.position = 0,
        Bug::StoppedUnloadUnloads => state.loaded = false,
        Bug::StoppedUnloadUnlocks => state.locked = false,
        Bug::StopLosesQualifier => reply.sense.ascq = 0,
        Bug::StopIsValid => reply.sense.valid = true,
        _ => (),
    }
    Some(reply)
}

// 01: "P = 0; loaded as the bit says." A8 names 1Eh alone for the lock: a load leaves it.
pub fn load_or_unload(bug: Bug, state: &mut State, packet: &[u8]) -> Reply {
    state.position = 0;
    state.loaded = loads(packet);
    if bug == Bug::LoadUnlocks && state.loaded {
        state.locked = false;
    }
    Reply::good()
}

// "Add PREVENT/ALLOW MEDIUM REMOVAL (1Eh, byte 4 bit 0)." 01: "Reserved bits are ignored".
pub fn prevent_or_allow(bug: Bug, state: &mut State, packet: &[u8]) -> Reply {
    let locking_bits = if bug == Bug::AnyBitLocks { 0xFF } else { 1 };
    state.locked = packet[4] & locking_bits != 0;
    match bug {
        Bug::PreventRewinds => state.position = 0,
        Bug::PreventKeepsSense => return Reply::ended(Ending::Good, state.sense),
        _ => (),
    }
    Reply::good()
}

// "Page 2Ah shows LOCK (01h) always and LOCKED (02h) while locked, in byte 6."
pub fn shown(bug: Bug, state: &State) -> u8 {
    let lock = state.locked || bug != Bug::LockShownOnlyLocked;
    let locked = match bug {
        Bug::LockedShownOpen => true,
        Bug::LockedNeverShown => false,
        _ => state.locked,
    };
    LOCK * u8::from(lock) + LOCKED * u8::from(locked)
}

/// What a page 2Ah that is sent to the drive would say of the lock, which 01 has ignored: "other bytes ignored."
pub fn listed(page: &[u8]) -> bool {
    page[6] & LOCKED != 0
}
