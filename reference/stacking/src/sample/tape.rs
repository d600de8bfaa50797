//! Random tapes.

use super::record::RecordMaker;
use crate::answer::Answer;
use crate::book::{record_call, Book};
use crate::notice::NOTICE_BUFFER_BYTES;
use crate::random::Random;
use crate::record::{Record, RECORD_BYTES};

/// What a tape is to be like.
#[derive(Clone, Copy, Debug)]
pub struct TapeOptions {
    pub records: usize,
    /// How many premises it is about; chosen by the seed if not given.
    pub premises: Option<usize>,
    /// Leaves out creates that would find the book full, so that row 6 is
    /// never met.
    pub never_full: bool,
}

/// A random tape for a calendar. It is made while it is played, so that most of
/// its records suit the book they meet.
pub fn tape(random: &mut Random, calendar: &[u8], options: &TapeOptions) -> Vec<u8> {
    let premises = options
        .premises
        .unwrap_or_else(|| random.pick(&[1, 2, 3, 3, 6, 12, 40, 64, 72]));
    let mut maker = RecordMaker::new(random, premises);
    let mut book = Book::fresh(0);
    let mut tape = records(random, calendar, &mut maker, &mut book, options);
    cut_last_short(random, &mut tape);
    tape
}

/// Whole records for a book, which they are played on while they are made.
pub(super) fn records(
    random: &mut Random,
    calendar: &[u8],
    maker: &mut RecordMaker,
    book: &mut Book,
    options: &TapeOptions,
) -> Vec<u8> {
    let mut marks = Marks::new(random);
    let mut notices = vec![0; NOTICE_BUFFER_BYTES];
    let mut records = Vec::with_capacity(options.records * RECORD_BYTES);
    while records.len() < options.records * RECORD_BYTES {
        let record = match marks.next(random) {
            true => next_mark(book),
            false => maker.make(random, book),
        };
        let (answer, _) = record_call(book, calendar, &record, &mut notices);
        if !(options.never_full && answer == Answer::BookFull) {
            records.extend_from_slice(&record);
        }
    }
    records
}

/// Sometimes the last record of a tape is short.
pub(super) fn cut_last_short(random: &mut Random, tape: &mut Vec<u8>) {
    if !tape.is_empty() && random.chance(1, 5) {
        tape.truncate(tape.len() - random.from_to(1, RECORD_BYTES as i32 - 1) as usize);
    }
}

fn next_mark(book: &Book) -> [u8; RECORD_BYTES] {
    Record::DayMark {
        day: book.today + 1,
    }
    .to_bytes()
}

/// When day marks come: one at a time, and now and then many days on which
/// nothing else happens, so that waits come to their end.
struct Marks {
    left: usize,
    /// One record in this many starts a run of marks.
    rareness: usize,
}

impl Marks {
    /// Some tapes start late in the days, so that 270 days back is a day.
    fn new(random: &mut Random) -> Marks {
        Marks {
            left: random.pick(&[0, 0, 0, 0, 300]),
            rareness: random.pick(&[8, 15, 40]),
        }
    }

    /// Is the next record a mark?
    fn next(&mut self, random: &mut Random) -> bool {
        if self.left == 0 && random.chance(1, self.rareness) {
            self.left = random.pick(&[1, 1, 1, 1, 2, 3, 8, 30]);
        }
        let mark = self.left > 0;
        self.left -= usize::from(mark);
        mark
    }
}
