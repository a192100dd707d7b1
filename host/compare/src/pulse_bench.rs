//! The pulse drive, engine and model side by side.

use std::collections::{BTreeMap, BTreeSet, VecDeque};

use model::Bug;
use model::pulse::Branch;
use tapecard::bytes::long_at;
use tapecard::raw;

use crate::list_sides::{ListSeen, ListSides};
use crate::{Difference, Guarded, Origin, TrainList};

/// What an answer holds before a call, to see that the whole of it is written.
const UNWRITTEN: [u8; 8] = [0x5A; 8];

/// Calls before a difference that its report shows.
const HISTORY: usize = 60;

/// One call of the pulse drive.
#[derive(Clone, Debug, PartialEq, Eq)]
pub enum PulseCall {
    PowerOn(u16, u8),
    Train(u16),
    Trains(TrainList),
    Tick,
    Insert([u8; 8]),
    Remove,
    Wait(u32),
}

/// What calls have shown so far.
#[derive(Default)]
pub struct PulseSeen {
    /// Calls compared.
    pub calls: u64,
    /// Ways that calls went.
    pub branches: BTreeMap<Branch, u64>,
    /// Error numbers in the engine's record after accepted calls.
    pub errors: BTreeSet<u8>,
    /// Refusal numbers that the engine gave.
    pub refusals: BTreeMap<u8, u64>,
    /// Levels that the engine answered.
    pub levels: BTreeSet<u8>,
    /// The most ticks that one wait answered.
    pub longest_wait: u32,
    /// What lists of trains have shown.
    pub lists: ListSeen,
}

/// A session of one drive.
pub struct PulseBench {
    bug: Bug,
    engine_record: Guarded,
    engine_answer: Guarded,
    description: Guarded,
    list: ListSides,
    model_record: [u8; 32],
    model_answer: [u8; 8],
    before: [u8; 32],
    history: VecDeque<PulseCall>,
    pub origin: Origin,
    pub seen: PulseSeen,
}

impl PulseBench {
    pub fn new(bug: Bug, seed: u64) -> PulseBench {
        PulseBench {
            bug,
            engine_record: Guarded::new(&[0; 32]),
            engine_answer: Guarded::new(&UNWRITTEN),
            description: Guarded::new(&[0; 8]),
            list: ListSides::new(),
            model_record: [0; 32],
            model_answer: [0; 8],
            before: [0; 32],
            history: VecDeque::new(),
            origin: Origin {
                seed,
                ..Origin::default()
            },
            seen: PulseSeen::default(),
        }
    }

    /// Begins a session: both sides get this record.
    pub fn begin(&mut self, record: &[u8; 32]) {
        self.origin.session += 1;
        self.set_record(record);
    }

    pub fn record(&self) -> &[u8; 32] {
        self.engine_record.array()
    }

    /// The answer to the last call.
    pub fn answer(&self) -> &[u8; 8] {
        self.engine_answer.array()
    }

    /// The level buffer after the last list.
    pub fn levels(&self) -> &[u8] {
        self.list.levels()
    }

    /// The same as it was lent.
    pub fn levels_before(&self) -> &[u8] {
        self.list.levels_before()
    }

    pub fn set_record(&mut self, record: &[u8; 32]) {
        self.engine_record.set(record);
        self.model_record = *record;
        self.history.clear();
    }

    /// Makes one call on both sides and compares record, answer, levels and guards; how it went. A list is also held to the engine's own
    /// single trains.
    pub fn make(&mut self, call: PulseCall) -> Result<Option<Branch>, Box<Difference>> {
        self.origin.call += 1;
        self.seen.calls += 1;
        self.before = self.model_record;
        self.engine_answer.set(&UNWRITTEN);
        self.ask_engine(&call);
        let ways = self.ask_model(&call);
        self.compare(&call)?;
        if let PulseCall::Trains(list) = &call {
            self.keeps_the_rules(&call)?;
            self.seen.lists.note(list, self.answer()[0], &ways);
        }
        let way = ways.first().copied();
        self.note(way);
        if self.history.len() == HISTORY {
            self.history.pop_front();
        }
        self.history.push_back(call);
        Ok(way)
    }

    fn ask_engine(&mut self, call: &PulseCall) {
        let record = self.engine_record.array_mut();
        let answer = self.engine_answer.array_mut();
        match call {
            PulseCall::PowerOn(vendor, rom) => raw::pulse_power_on(record, *vendor, *rom),
            PulseCall::Train(pulses) => raw::pulse_train(record, *pulses, answer),
            PulseCall::Trains(list) => {
                self.list.lend(list);
                self.list.ask_engine(record, answer);
            }
            PulseCall::Tick => raw::pulse_tick(record, answer),
            PulseCall::Insert(cartridge) => {
                self.description.set(cartridge);
                raw::pulse_insert(record, self.description.array(), answer);
            }
            PulseCall::Remove => raw::pulse_remove(record, answer),
            PulseCall::Wait(limit) => raw::pulse_wait(record, *limit, answer),
        }
    }

    /// How the call went: of a list first the list itself and then its trains, of a power-on nothing.
    fn ask_model(&mut self, call: &PulseCall) -> Vec<Branch> {
        let (bug, record) = (self.bug, &mut self.model_record);
        let (answer, way) = match call {
            PulseCall::PowerOn(vendor, rom) => {
                model::pulse::power_on(record, *vendor, *rom);
                self.model_answer = UNWRITTEN;
                return Vec::new();
            }
            PulseCall::Trains(list) => {
                let (answer, ways) = self.list.ask_model(bug, record, list);
                self.model_answer = answer;
                return ways;
            }
            PulseCall::Train(pulses) => model::pulse::train_with(bug, record, *pulses),
            PulseCall::Tick => model::pulse::tick_with(bug, record),
            PulseCall::Insert(cartridge) => model::pulse::insert_with(bug, record, cartridge),
            PulseCall::Remove => model::pulse::remove_with(bug, record),
            PulseCall::Wait(limit) => model::pulse::wait_with(bug, record, *limit),
        };
        self.model_answer = answer;
        vec![way]
    }

    fn compare(&self, call: &PulseCall) -> Result<(), Box<Difference>> {
        let guards_hold = self.engine_record.guards_hold()
            && self.engine_answer.guards_hold()
            && self.description.guards_hold();
        let what = if self.engine_answer.bytes() != self.model_answer {
            "the answer"
        } else if self.engine_record.bytes() != self.model_record {
            "the record"
        } else if let Some(part) = self.lent_part_differing(call) {
            part
        } else if !guards_hold {
            "the bytes around a buffer"
        } else {
            return Ok(());
        };
        Err(self.difference(what, call))
    }

    fn lent_part_differing(&self, call: &PulseCall) -> Option<&'static str> {
        match call {
            PulseCall::Insert(cartridge) if self.description.bytes() != cartridge => {
                Some("the cartridge description")
            }
            PulseCall::Trains(list) => self.list.differing(list),
            _ => None,
        }
    }

    /// What holds of every list, whatever the model says.
    fn keeps_the_rules(&self, call: &PulseCall) -> Result<(), Box<Difference>> {
        match self
            .list
            .broken_rule(&self.before, self.record(), self.answer())
        {
            None => Ok(()),
            Some(sentence) => {
                let told = Difference::told(sentence, self.origin, &self.session(call));
                Err(self.case(told, call))
            }
        }
    }

    fn difference(&self, what: &str, call: &PulseCall) -> Box<Difference> {
        let told = Difference::new(self.origin, what, &self.session(call));
        self.case(told, call)
    }

    fn session(&self, call: &PulseCall) -> String {
        format!("{call:?}, after {:?}", self.history)
    }

    fn case(&self, difference: Difference, call: &PulseCall) -> Box<Difference> {
        let case = difference
            .with("record before", &self.before)
            .with("engine's answer", self.engine_answer.bytes())
            .with("model's answer", &self.model_answer)
            .with("engine's record", self.engine_record.bytes())
            .with("model's record", &self.model_record);
        if !matches!(call, PulseCall::Trains(_)) {
            return Box::new(case);
        }
        let (engine, model) = (self.list.levels(), self.list.model_levels());
        let case = case
            .with("levels before", self.list.levels_before())
            .with("engine's levels", engine)
            .with_both("levels", engine, model);
        Box::new(case)
    }

    fn note(&mut self, branch: Option<Branch>) {
        let Some(branch) = branch else {
            return;
        };
        *self.seen.branches.entry(branch).or_default() += 1;
        let answer: [u8; 8] = *self.engine_answer.array();
        if answer[0] != 0 {
            *self.seen.refusals.entry(answer[0]).or_default() += 1;
            return;
        }
        self.seen.errors.insert(self.record()[14]);
        self.seen.levels.insert(answer[1]);
        self.seen.longest_wait = self.seen.longest_wait.max(long_at(&answer, 4));
    }
}
