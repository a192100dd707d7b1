//! Empty lists: accepted, with the level as it stood and the record in its canonical form.

use compare::TrainList;

use crate::common::*;

/// Whatever room there is, none included.
#[test]
fn the_level_as_it_stood() {
    for record in [
        SWITCHED_ON,
        with(&SWITCHED_ON, &[(LEVEL_AT, 1)]),
        READY,
        with(&READY, &[(LEVEL_AT, 0)]),
    ] {
        for room in [0, 1, 2, 46, 300] {
            gives(&record, &TrainList::with_room(&[], room), &[], &record);
        }
    }
}

#[test]
fn the_record_in_its_canonical_form() {
    for room in [0, 3] {
        let list = TrainList::with_room(&[], room);
        gives(&ready_with_surplus(), &list, &[], &READY);
    }
    let low = with(&ready_with_surplus(), &[(LEVEL_AT, 0xFE)]);
    gives(
        &low,
        &TrainList::of(&[]),
        &[],
        &with(&READY, &[(LEVEL_AT, 0)]),
    );
}

/// Only the nibbles held count: of ABCDh one, Dh.
#[test]
fn waiting_arguments_stay() {
    let waiting = with(&READY, &[(20, 35), (21, 1), (22, 0xAB), (23, 0xCD)]);
    let canonical = with(&READY, &[(20, 35), (21, 1), (23, 0x0D)]);
    gives(&waiting, &TrainList::of(&[]), &[], &canonical);
}

/// Surplus bits of an open report stay, and so does a repeat that is owed.
#[test]
fn an_open_report_stays() {
    let open = with(
        &READY,
        &[(0, READY[0] | 16), (17, 2), (18, 0xFF), (19, 0xFE)],
    );
    gives(&open, &TrainList::of(&[]), &[], &open);
}

#[test]
fn no_time_passes() {
    let moving = with(&READY, &[(1, 1), (9, 3), (11, 10)]);
    gives(&moving, &TrainList::of(&[]), &[], &moving);
    let loading = with(&READY, &[(1, 2), (9, 1), (14, 27), (15, 1)]);
    gives(&loading, &TrainList::of(&[]), &[], &loading);
}

#[test]
fn a_record_that_breaks_the_rules_is_refused() {
    for room in [0, 1, 9] {
        let list = TrainList::with_room(&[], room);
        is_refused(&with(&READY, &[(14, 99)]), &list, 8);
    }
}
