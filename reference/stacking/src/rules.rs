//! The one-premise rules on their own: the same steps over today and one file
//! or none. They are fed the premise's own records and the day marks in tape
//! order, and nothing from a book.

use crate::agreement;
use crate::answer::Answer;
use crate::days::LAST_DAY;
use crate::file::{File, ORDERS_A_FILE};
use crate::notice::NoticeWriter;
use crate::premise;
use crate::record::{decode, Entry, Record, RECORD_BYTES};

/// Bytes for the notices of one file: two for each order it can hold.
const NOTICE_ROOM: usize = 2 * ORDERS_A_FILE * RECORD_BYTES;

/// What the rules give back for one record.
#[derive(Clone, Debug, PartialEq, Eq)]
pub struct Outcome {
    pub answer: Answer,
    /// The notices, in the 24-byte layout.
    pub notices: Vec<[u8; RECORD_BYTES]>,
}

/// One premise by itself.
#[derive(Clone, Debug, PartialEq, Eq)]
pub struct OnePremise {
    /// T, today.
    pub today: u16,
    /// The file, or none.
    pub file: Option<File>,
}

impl OnePremise {
    /// They start with the start day (4,095 if it is above) and no file.
    pub fn new(start_day: u16) -> OnePremise {
        OnePremise {
            today: start_day.min(LAST_DAY),
            file: None,
        }
    }

    /// One own record of the premise, or one day mark: rows 3 to 5, 7 to 18
    /// and 26, then the steps.
    pub fn step(&mut self, calendar: &[u8], record: &[u8]) -> Outcome {
        let mut room = [0; NOTICE_ROOM];
        let mut writer = NoticeWriter::new(&mut room);
        let result = match decode(record) {
            None => Err(Answer::Malformed),
            Some(Record::DayMark { day }) => self.day_mark(calendar, day, &mut writer),
            Some(Record::OfPremise { premise, entry }) => {
                self.own_record(calendar, premise, entry, &mut writer)
            }
        };
        let count = writer.count();
        Outcome {
            answer: result.err().unwrap_or(Answer::Accepted),
            notices: room
                .chunks_exact(RECORD_BYTES)
                .take(count)
                .map(|notice| notice.try_into().expect("chunks are 24 bytes"))
                .collect(),
        }
    }

    fn own_record(
        &mut self,
        calendar: &[u8],
        premise: u64,
        entry: Entry,
        notices: &mut NoticeWriter,
    ) -> Result<(), Answer> {
        match (entry, &mut self.file) {
            (Entry::Create(_), Some(_)) => Err(Answer::PremiseHeld),
            (Entry::Create(new), file @ None) => {
                *file = Some(File::created(premise, new));
                Ok(())
            }
            (_, None) => Err(Answer::NoSuchPremise),
            (Entry::Retire, Some(file)) => {
                premise::may_retire(file)?;
                self.file = None;
                Ok(())
            }
            (Entry::Order(entry), Some(file)) => {
                premise::order_record(file, calendar, self.today, entry, notices)
            }
            (Entry::Agreement(agreement), Some(file)) => {
                agreement::record(file, agreement, notices)
            }
        }
    }

    fn day_mark(
        &mut self,
        calendar: &[u8],
        day: u16,
        notices: &mut NoticeWriter,
    ) -> Result<(), Answer> {
        premise::is_next_day(self.today, day)?;
        self.today = day;
        if let Some(file) = &mut self.file {
            premise::day_mark(file, calendar, day, notices);
        }
        Ok(())
    }
}
