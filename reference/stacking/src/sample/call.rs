//! Random single calls.

use super::{calendar, damage, well_kept_book, RecordMaker};
use crate::book::Book;
use crate::days::CALENDAR_BYTES;
use crate::notice::NOTICE_BUFFER_BYTES;
use crate::random::Random;
use crate::record::Record;
use crate::single_call::Call;

/// A call on any book: mostly well kept, sometimes damaged; with a record that
/// mostly suits it, sometimes of a wrong length; sometimes with too little room.
pub fn call(random: &mut Random) -> Call {
    let mut book = well_kept_book(random);
    let mut call = Call {
        calendar: any_calendar(random),
        record: any_record(random, &book),
        buffer_length: match random.below(30) {
            0 => random.pick(&[0, 24, NOTICE_BUFFER_BYTES - 1]),
            1 => NOTICE_BUFFER_BYTES + random.below(100),
            _ => NOTICE_BUFFER_BYTES,
        },
        book: Book::fresh(0),
    };
    if random.chance(1, 4) {
        damage(random, &mut book);
    }
    call.book = book;
    call
}

/// Also one with bytes past the last day, which stand for no day.
pub(super) fn any_calendar(random: &mut Random) -> Vec<u8> {
    let mut bytes = calendar(random);
    if random.chance(1, 20) {
        bytes.resize(CALENDAR_BYTES + 10, 0);
    }
    bytes
}

fn any_record(random: &mut Random, book: &Book) -> Vec<u8> {
    let mut record = match random.below(4) {
        0 => Record::DayMark {
            day: book.today.saturating_add(1),
        }
        .to_bytes()
        .to_vec(),
        _ => RecordMaker::for_book(random, book)
            .make(random, book)
            .to_vec(),
    };
    if random.chance(1, 30) {
        let length = random.below(41);
        record.resize(length, 0);
    }
    record
}
