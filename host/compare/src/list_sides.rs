//! The buffers of a list of trains (02, A5), engine and model side by side, and beside them the engine's own single trains.

use std::collections::BTreeMap;

use model::Bug;
use model::pulse::Branch;
use tapecard::raw;

use crate::train_list::{Length, Room, Zeros};
use crate::{Guarded, TrainList};

/// What stands around a list: a drive that looked there would refuse it with 5.
const AROUND_COUNTS: u16 = 0;

/// What lists have shown so far.
#[derive(Default)]
pub struct ListSeen {
    /// Trains sent by lists.
    pub trains: u64,
    /// Trains of the longest list that was sent.
    pub longest: usize,
    /// Ways that the trains of lists went.
    pub branches: BTreeMap<Branch, u64>,
    /// Numbers answered, by what stands out of the list.
    pub answered: BTreeMap<(u8, Zeros, Room, Length), u64>,
}

/// Counts and level buffers.
pub struct ListSides {
    counts: Guarded<u16>,
    engine_levels: Guarded,
    model_levels: Vec<u8>,
    levels_before: Vec<u8>,
}

impl ListSides {
    pub fn new() -> ListSides {
        ListSides {
            counts: Guarded::between(AROUND_COUNTS, &[]),
            engine_levels: Guarded::new(&[]),
            model_levels: Vec::new(),
            levels_before: Vec::new(),
        }
    }

    /// Lends these counts, and level buffers of bytes that are no levels, each unlike those beside it.
    pub fn lend(&mut self, list: &TrainList) {
        self.counts.set(&list.counts);
        self.levels_before.clear();
        self.levels_before
            .extend((0..list.room).map(|place| 2 + (place % 251) as u8));
        self.model_levels.clone_from(&self.levels_before);
        self.engine_levels.set(&self.levels_before);
    }

    pub fn ask_engine(&mut self, record: &mut [u8; 32], answer: &mut [u8; 8]) {
        let levels = self.engine_levels.bytes_mut();
        raw::pulse_trains(record, self.counts.content(), levels, answer);
    }

    pub fn ask_model(
        &mut self,
        bug: Bug,
        record: &mut [u8; 32],
        list: &TrainList,
    ) -> ([u8; 8], Vec<Branch>) {
        model::pulse::trains_with(bug, record, &list.counts, &mut self.model_levels)
    }

    pub fn levels(&self) -> &[u8] {
        self.engine_levels.bytes()
    }

    pub fn model_levels(&self) -> &[u8] {
        &self.model_levels
    }

    pub fn levels_before(&self) -> &[u8] {
        &self.levels_before
    }

    /// The part in which engine and model differ, or that the engine should have left alone.
    pub fn differing(&self, list: &TrainList) -> Option<&'static str> {
        if self.levels() != self.model_levels {
            Some("the levels")
        } else if self.counts.content() != list.counts {
            Some("the counts")
        } else if !self.counts.guards_hold() || !self.engine_levels.guards_hold() {
            Some("the bytes around a buffer")
        } else {
            None
        }
    }

    /// A rule that the engine's own calls break, whatever the model does: from the record before to the one after with this answer.
    pub fn broken_rule(
        &self,
        before: &[u8; 32],
        after: &[u8; 32],
        answer: &[u8; 8],
    ) -> Option<&'static str> {
        if answer[0] != 0 {
            let nothing_is_altered = before == after && self.levels() == self.levels_before;
            return (!nothing_is_altered).then_some("a refused list has changed something");
        }
        let alike = self.sent_singly(before) == Some((*after, self.levels().to_vec(), *answer));
        (!alike).then_some("sent singly the trains do otherwise")
    }

    /// "The result equals sending them singly.": record, levels and the last answer, where every train is accepted and has room for its
    /// level. First nothing is waited for, which is all that an empty list comes to.
    fn sent_singly(&self, before: &[u8; 32]) -> Option<([u8; 32], Vec<u8>, [u8; 8])> {
        let (mut record, mut levels, mut answer) = (*before, self.levels_before.clone(), [0; 8]);
        raw::pulse_wait(&mut record, 0, &mut answer);
        for (place, &count) in self.counts.content().iter().enumerate() {
            raw::pulse_train(&mut record, count, &mut answer);
            let level = levels.get_mut(place).filter(|_| answer[0] == 0)?;
            *level = answer[1];
        }
        Some((record, levels, answer))
    }
}

impl ListSeen {
    /// The ways are that of the list itself and then those of its trains.
    pub fn note(&mut self, list: &TrainList, number: u8, ways: &[Branch]) {
        let stands_out = (number, list.zeros(), list.room(), list.length());
        *self.answered.entry(stands_out).or_default() += 1;
        for way in &ways[1..] {
            *self.branches.entry(*way).or_default() += 1;
        }
        let sent = ways.len() - 1;
        self.trains += sent as u64;
        self.longest = self.longest.max(sent);
    }
}
