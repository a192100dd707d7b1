//! The elements of a file, judged one after the other.

use super::items::{Item, Record, item_at};
use super::mistakes;
use crate::bug::Bug;
use crate::exchange::WORD_LENGTH;
use crate::image::Header;

/// What an import stores.
#[derive(Clone, Copy)]
pub enum Element<'a> {
    Mark,
    Record(Record<'a>),
}

/// What was read of a file.
#[derive(Default)]
pub struct Tape<'a> {
    pub elements: Vec<Element<'a>>,
    /// Bytes of the file up to here, the end mark included.
    pub used: usize,
    pub has_end_mark: bool,
}

impl<'a> Tape<'a> {
    // "Import takes only records of B bytes, and ends at the end mark or the end of the file"; "the first met in file order".
    pub fn read(&mut self, bug: Bug, header: &Header, file: &'a [u8]) -> Result<(), u8> {
        let mut late = None;
        loop {
            let item = item_at(bug, file, self.used);
            if bug == Bug::EndMarkPassed && matches!(item, Item::EndMark) {
                self.used += WORD_LENGTH;
                continue;
            }
            if let Some(ended) = self.ended(bug, header, file, &item) {
                return ended.and(late.map_or(Ok(()), Err));
            }
            match self.refusal(bug, header, &item) {
                Some(number) if mistakes::judges_last(bug, number) => late = late.or(Some(number)),
                Some(number) => return Err(number),
                None => (),
            }
            self.take(item);
        }
    }

    /// Whether the file ends here, and whether it may.
    fn ended(
        &mut self,
        bug: Bug,
        header: &Header,
        file: &[u8],
        item: &Item,
    ) -> Option<Result<(), u8>> {
        match item {
            Item::EndOfFile => Some(mistakes::end_of_file(bug, file)),
            Item::PartOfWord if bug == Bug::FewBytesAreEnd => Some(Ok(())),
            Item::TapeMark if bug == Bug::TwoMarksEnd => {
                matches!(self.elements.last(), Some(Element::Mark)).then_some(Ok(()))
            }
            Item::EndMark => {
                self.used += WORD_LENGTH;
                self.has_end_mark = true;
                Some(match bug {
                    Bug::JudgedBeyondEndMark => {
                        Tape::default().read(bug, header, &file[self.used..])
                    }
                    _ => Ok(()),
                })
            }
            _ => None,
        }
    }

    // "Refusals: 11, lengths disagree or are cut; 12, record not B bytes; 13, more than C elements; .. 11 before 12 before 13".
    fn refusal(&self, bug: Bug, header: &Header, item: &Item) -> Option<u8> {
        let (is_cut, is_other_size) = match item {
            Item::Record(record) => (!record.is_whole(), is_other_size(bug, header, record)),
            Item::PartOfWord => (true, false),
            _ => (false, false),
        };
        let mut judged = [
            (11, is_cut),
            (12, is_other_size),
            (13, self.is_full(bug, header, item)),
        ];
        mistakes::reorder(bug, &mut judged);
        judged
            .into_iter()
            .find(|(_, is_so)| *is_so)
            .map(|(number, _)| number)
    }

    // "more than C elements".
    fn is_full(&self, bug: Bug, header: &Header, item: &Item) -> bool {
        let capacity = header.capacity as usize;
        match bug {
            Bug::OneAboveCapacityTaken => self.elements.len() > capacity,
            Bug::FullFileRefused => self.elements.len() + 1 >= capacity,
            Bug::MarksUncounted => !matches!(item, Item::TapeMark) && self.records() >= capacity,
            Bug::CapacityByRecorded => self.elements.len() >= header.recorded as usize,
            Bug::WarningEndsImport => self.elements.len() >= header.warning_border() as usize,
            _ => self.elements.len() >= capacity,
        }
    }

    /// Elements that are no marks.
    pub fn records(&self) -> usize {
        let is_record = |element: &&Element| matches!(element, Element::Record(_));
        self.elements.iter().filter(is_record).count()
    }

    fn take(&mut self, item: Item<'a>) {
        match item {
            Item::Record(record) => {
                self.used += record.whole as usize;
                self.elements.push(Element::Record(record));
            }
            _ => {
                self.used += WORD_LENGTH;
                self.elements.push(Element::Mark);
            }
        }
    }
}

// "record not B bytes".
fn is_other_size(bug: Bug, header: &Header, record: &Record) -> bool {
    let block_size = u64::from(header.block_size);
    match bug {
        Bug::ShorterRecordTaken => record.length > block_size,
        Bug::UnreadableSizeUnjudged => !record.is_unreadable() && record.length != block_size,
        _ => record.length != block_size,
    }
}
