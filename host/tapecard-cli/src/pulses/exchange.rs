//! A list of trains, sent to the pulse drive by one call.
//!
//! What is kept and every level that is shown come from that call. What a train meant is told by the records before and after it,
//! which the call doesn't give: a copy of the drive takes the same trains one by one. That it ends alike is proved of the card.

use tapecard::Refusal;
use tapecard::pulse::{Level, Record};

use crate::command_line::failure::Failure;
use crate::words;

/// A list that was sent and is not held to its walk yet.
pub struct Sent<'a> {
    counts: &'a [u16],
    before: Record,
    levels: Vec<Level>,
    left: Record,
}

/// A list that was sent, and what each of its trains did.
pub struct Exchange {
    /// The drive as the call left it.
    pub left: Record,
    pub steps: Vec<Step>,
}

/// One train of a list.
pub struct Step {
    pub pulses: u16,
    /// The level that the call gave for it.
    pub level: Level,
    /// The drive before it and after it, by the walk: for words alone.
    pub before: Record,
    pub after: Record,
}

impl<'a> Sent<'a> {
    /// Sends the whole list, or nothing of it where the drive refuses it.
    pub fn by_one_call(record: &Record, counts: &'a [u16]) -> Result<Sent<'a>, Refusal> {
        let mut left = *record;
        let levels = left.exchange(counts)?;
        Ok(Sent {
            counts,
            before: *record,
            levels,
            left,
        })
    }

    /// Walks a copy of the drive through the list. The drive that the call left is handed out only where both agree.
    pub fn walked(self) -> Result<Exchange, Failure> {
        let mut steps = Vec::with_capacity(self.counts.len());
        let mut record = self.before;
        for (&pulses, &level) in self.counts.iter().zip(&self.levels) {
            let before = record;
            if record.train(pulses) != Ok(level) {
                let train = format!("the level after train {}", steps.len() + 1);
                return Err(self.fault(&train));
            }
            steps.push(Step {
                pulses,
                level,
                before,
                after: record,
            });
        }
        if record != self.left {
            return Err(self.fault("the record that is left"));
        }
        let left = self.left;
        Ok(Exchange { left, steps })
    }

    fn fault(&self, what: &str) -> Failure {
        Failure::Fault(format!(
            "the card broke its promise: {what} differs between a list of {} and the same sent one by one; nothing of the list \
             is kept. Build the command and the archive anew with make demo",
            words::count(self.counts.len() as u64, "train")
        ))
    }
}

#[cfg(test)]
mod tests {
    use super::*;

    /// The error report of a drive just switched on: its levels are 1, 0, 1, 0.
    const COUNTS: [u16; 4] = [7, 2, 2, 2];

    fn sent() -> Sent<'static> {
        Sent::by_one_call(&Record::power_on(0, 0), &COUNTS).unwrap()
    }

    fn fault(sent: Sent) -> String {
        match sent.walked() {
            Err(Failure::Fault(sentence)) => sentence,
            _ => panic!("a card that breaks its promise was believed"),
        }
    }

    #[test]
    fn a_list_and_its_walk() {
        let exchange = sent().walked().unwrap();
        let mut record = Record::power_on(0, 0);
        assert_eq!(exchange.steps.len(), COUNTS.len());
        for (step, pulses) in exchange.steps.iter().zip(COUNTS) {
            assert_eq!((step.pulses, step.before), (pulses, record));
            assert_eq!(record.train(pulses), Ok(step.level));
            assert_eq!(step.after, record);
        }
        assert_eq!(exchange.left, record);
    }

    #[test]
    fn a_list_with_a_train_of_0_pulses_is_refused_before_anything_is_sent() {
        let record = Record::power_on(0, 0);
        let refused = Sent::by_one_call(&record, &[7, 0]).err();
        assert_eq!(refused.map(|refusal| refusal.number), Some(5));
    }

    #[test]
    fn a_level_that_the_train_alone_does_not_give_is_a_fault() {
        for index in 0..COUNTS.len() {
            let mut sent = sent();
            sent.levels[index].0 ^= true;
            let what = format!(
                "the card broke its promise: the level after train {} differs",
                index + 1
            );
            assert!(fault(sent).starts_with(&what));
        }
    }

    #[test]
    fn a_record_that_the_trains_alone_do_not_leave_is_a_fault() {
        for index in 0..32 {
            let mut sent = sent();
            sent.left.0[index] ^= 1;
            let what = "the card broke its promise: the record that is left differs between a list of 4 trains";
            assert!(fault(sent).starts_with(what), "byte {index}");
        }
    }
}
