//! A pulse drive that takes lines.

use std::io::Write;

use tapecard::Refusal;
use tapecard::pulse::Record;

use super::line::{self, Line, Trains};
use super::show;
use crate::command_line::failure::Failure;
use crate::files::held_file::unwritten;
use crate::files::record_file::RecordFile;
use crate::pulses::exchange::{Sent, Step};
use crate::pulses::reports::{self, Heard, Listener};
use crate::pulses::state;
use crate::terminal::script::{Flow, Session};
use crate::words;

pub struct PulseSession<'a> {
    record: Record,
    file: Option<&'a mut RecordFile<32>>,
    listener: Listener,
    refused: u64,
}

impl Session for PulseSession<'_> {
    const PROMPT: &'static str = "pulse";

    fn line(&mut self, line: &str, out: &mut dyn Write) -> Result<Flow, Failure> {
        match line::read(line)? {
            Line::Trains(list) => self.trains(&list, out)?,
            Line::Ask(pulses) => self.ask(pulses, out)?,
            Line::Tick(times) => self.call(&format!("tick x{times}"), out, |record| {
                (0..times).try_for_each(|_| record.tick().map(drop))
            })?,
            Line::Insert(cartridge) => {
                self.call("insert", out, |record| record.insert(&cartridge).map(drop))?
            }
            Line::Remove => self.call("remove", out, |record| record.remove().map(drop))?,
            Line::Wait(limit) => self.wait(limit, out)?,
            Line::State => show::below(out, &state::whole(&self.record))?,
            Line::Help => write!(out, "{}", super::LINES)?,
            Line::Quit => return Ok(Flow::Ends),
        }
        Ok(Flow::Goes)
    }

    fn keep(&mut self) -> Result<(), Failure> {
        let Some(file) = &mut self.file else {
            return Ok(());
        };
        let rest = "it has the drive as the last answer left it";
        file.keep(&self.record.0)
            .map_err(|e| unwritten(file.path(), &e, rest))
    }
}

impl<'a> PulseSession<'a> {
    pub fn new(record: Record, file: Option<&'a mut RecordFile<32>>) -> PulseSession<'a> {
        PulseSession {
            record,
            file,
            listener: Listener::default(),
            refused: 0,
        }
    }

    pub fn tell_start(&self, out: &mut dyn Write) -> Result<(), Failure> {
        writeln!(out, "drive    {}", state::summary(&self.record))?;
        Ok(())
    }

    pub fn verdict(&self) -> Result<(), Failure> {
        match self.refused {
            0 => Ok(()),
            refused => Err(Failure::work(format!(
                "{} refused; a refused call changes nothing",
                words::count(refused, "call")
            ))),
        }
    }

    /// A line of trains is one exchange: it is sent whole or not at all.
    fn trains(&mut self, list: &[Trains], out: &mut dyn Write) -> Result<(), Failure> {
        let counts = line::counts(list);
        let Some(steps) = self.exchange(&show::line(list), &counts, out)? else {
            return Ok(());
        };
        let mut rest = steps.as_slice();
        for trains in list {
            let (these, later) = rest.split_at(trains.times as usize);
            self.tell_trains(trains, these, out)?;
            rest = later;
        }
        Ok(())
    }

    fn tell_trains(
        &mut self,
        trains: &Trains,
        steps: &[Step],
        out: &mut dyn Write,
    ) -> Result<(), Failure> {
        let (before, after) = (&steps[0].before, &steps[steps.len() - 1].after);
        let (sent, levels) = (show::trains(trains), show::levels(steps));
        let meaning = state::meaning(trains.pulses, before);
        writeln!(out, "{sent:<8} {levels}  {meaning}")?;
        let mut remarks = self.remarks(steps);
        remarks.extend(show::not_obeyed(trains.pulses, before));
        remarks.extend(state::changes(before, after));
        remarks.dedup();
        show::below(out, &remarks)
    }

    /// A report train and all the 2s that bring its bits.
    fn ask(&mut self, pulses: u16, out: &mut dyn Write) -> Result<(), Failure> {
        let Some(counts) = reports::trains(pulses) else {
            return Err(Failure::work(format!(
                "{pulses} asks for no report: say 6, 7, 8, 9, 32 or 33"
            )));
        };
        if self.record.report_left() > 0 || self.record.waiting_code() != 0 {
            return Err(Failure::work(
                "the drive is in a report or waits for an argument, so the train would not be taken as asked; finish \
                 that first, or send the trains one by one",
            ));
        }
        let before = self.record;
        let asked = format!("ask {pulses}");
        let Some(steps) = self.exchange(&asked, &counts, out)? else {
            return Ok(());
        };
        let (opening, items) = steps.split_at(1);
        // What opens the report is heard, and only its items are told.
        self.remarks(opening);
        let (levels, name) = (show::levels(items), state::meaning(pulses, &before));
        writeln!(out, "{asked:<8} {levels}  {name}")?;
        let mut remarks = self.remarks(items);
        remarks.extend(state::changes(&before, &self.record));
        show::below(out, &remarks)
    }

    /// Sends a line's list by one call and takes over the drive that it left. `None` where it was refused, which is told.
    fn exchange(
        &mut self,
        line: &str,
        counts: &[u16],
        out: &mut dyn Write,
    ) -> Result<Option<Vec<Step>>, Failure> {
        match Sent::by_one_call(&self.record, counts) {
            Ok(sent) => {
                let exchange = sent.walked()?;
                self.record = exchange.left;
                Ok(Some(exchange.steps))
            }
            Err(refusal) => {
                self.refused += 1;
                show::unsent(line, counts, refusal, out)?;
                Ok(None)
            }
        }
    }

    /// What there is to say of the reports that these trains belong to.
    fn remarks(&mut self, steps: &[Step]) -> Vec<String> {
        let mut remarks = Vec::new();
        for step in steps {
            let heard = self.listener.hear(step);
            remarks.extend(self.remark(&heard, &step.after));
        }
        remarks
    }

    fn remark(&self, heard: &Heard, after: &Record) -> Vec<String> {
        match heard {
            Heard::Opened => vec![format!("report open: send 2 x{}", after.report_left())],
            Heard::Closed => self.listener.explain(),
            Heard::Repeat => vec!["the last level once more".into()],
            Heard::Ignored => vec!["ignored: the next 2 repeats the last level".into()],
            Heard::BrokenOff => vec!["the report is broken off".into()],
            Heard::Nothing | Heard::Bit(_) | Heard::UnknownBit => Vec::new(),
        }
    }

    fn wait(&mut self, limit: u32, out: &mut dyn Write) -> Result<(), Failure> {
        match self.record.wait(limit) {
            Err(refusal) => self.refuse("wait", refusal, out),
            Ok(waited) => {
                let ticks = words::count(waited.ticks.into(), "tick");
                self.call(&format!("waited {ticks}"), out, |_| Ok(()))
            }
        }
    }

    /// Makes a call that is no train and tells how the drive stands.
    fn call(
        &mut self,
        what: &str,
        out: &mut dyn Write,
        call: impl FnOnce(&mut Record) -> Result<(), Refusal>,
    ) -> Result<(), Failure> {
        if let Err(refusal) = call(&mut self.record) {
            return self.refuse(what, refusal, out);
        }
        writeln!(out, "{what}")?;
        show::below(out, &[state::summary(&self.record)])
    }

    fn refuse(&mut self, what: &str, refusal: Refusal, out: &mut dyn Write) -> Result<(), Failure> {
        self.refused += 1;
        writeln!(
            out,
            "{what:<8} refused, {}: {}; nothing changed",
            refusal.number,
            refusal.sentence()
        )?;
        Ok(())
    }
}
