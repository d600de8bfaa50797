//! The book: today and up to 64 files, and the record call.

use crate::agreement;
use crate::answer::Answer;
use crate::days::LAST_DAY;
use crate::file::File;
use crate::notice::{NoticeWriter, NOTICE_BUFFER_BYTES};
use crate::premise;
use crate::record::{decode, Entry, Record};
use crate::waiting::Waiting;
use crate::well_kept::is_well_kept;

/// A book holds up to this many files.
pub const FILES_A_BOOK: usize = 64;

/// The book. Any number fits in any field; see [`is_well_kept`].
#[derive(Clone, Debug, PartialEq, Eq)]
pub struct Book {
    /// T, today.
    pub today: u16,
    /// How many of the places of `files` are used.
    pub file_count: u8,
    /// How many held orders are in each open status.
    pub waiting: Waiting,
    /// The files, in rising premise number; unused places are zero.
    pub files: [File; FILES_A_BOOK],
}

impl Book {
    /// A fresh book. A start day above 4,095 starts at 4,095.
    pub fn fresh(start_day: u16) -> Book {
        Book {
            today: start_day.min(LAST_DAY),
            file_count: 0,
            waiting: Waiting::default(),
            files: [File::EMPTY; FILES_A_BOOK],
        }
    }

    /// A book of these files, which stand in rising premise number, with their
    /// totals.
    pub fn of_files(today: u16, files: &[File]) -> Book {
        let mut book = Book::fresh(0);
        book.today = today;
        book.file_count = files.len() as u8;
        book.files[..files.len()].copy_from_slice(files);
        book.waiting = book.counted();
        book
    }

    /// What the totals have to be: the count over all files that are held. Of a
    /// damaged book it takes those that its counts speak of and that are there.
    pub fn counted(&self) -> Waiting {
        Waiting::count(self.files.iter().take(usize::from(self.file_count)))
    }

    /// The held files, in rising premise number. The count has to be in range.
    pub fn held(&self) -> &[File] {
        &self.files[..usize::from(self.file_count)]
    }

    /// The place of a premise's file, or the place where it would go.
    pub fn place_of(&self, premise: u64) -> Result<usize, usize> {
        self.held()
            .binary_search_by_key(&premise, |file| file.premise)
    }

    /// Row 6, and then the file takes its place among the others. It is a new one
    /// and holds no order, so that the totals stay.
    pub fn insert(&mut self, place: usize, file: File) -> Result<(), Answer> {
        let count = usize::from(self.file_count);
        if count == FILES_A_BOOK {
            return Err(Answer::BookFull);
        }
        self.files.copy_within(place..count, place + 1);
        self.files[place] = file;
        self.file_count += 1;
        Ok(())
    }

    /// The file leaves the book and frees its place. By row 7 none of its orders is
    /// open, so that the totals stay.
    pub fn remove(&mut self, place: usize) {
        let count = usize::from(self.file_count);
        self.files.copy_within(place + 1..count, place);
        self.files[count - 1] = File::EMPTY;
        self.file_count -= 1;
    }
}

/// A record call on a book: calendar, record and notice buffer go in, the answer
/// and the number of notices come back.
pub type RecordCall = fn(&mut Book, &[u8], &[u8], &mut [u8]) -> (Answer, usize);

/// The record call: the answer, and how many notices stand in the buffer. A
/// refusal leaves the book and the buffer as they were; otherwise the first 24
/// bytes times the count are the notices, and the bytes after them stay.
pub fn record_call(
    book: &mut Book,
    calendar: &[u8],
    record: &[u8],
    notices: &mut [u8],
) -> (Answer, usize) {
    if notices.len() < NOTICE_BUFFER_BYTES {
        return (Answer::BufferTooShort, 0);
    }
    if !is_well_kept(book) {
        return (Answer::BookNotWellKept, 0);
    }
    play(book, calendar, record, notices)
}

/// Rows 3 to 18 and 26, and the steps.
fn play(book: &mut Book, calendar: &[u8], record: &[u8], notices: &mut [u8]) -> (Answer, usize) {
    let mut notices = NoticeWriter::new(notices);
    let result = match decode(record) {
        None => Err(Answer::Malformed),
        Some(Record::DayMark { day }) => day_mark(book, calendar, day, &mut notices),
        Some(Record::OfPremise { premise, entry }) => {
            premise_record(book, calendar, premise, entry, &mut notices)
        }
    };
    match result {
        Ok(()) => (Answer::Accepted, notices.count()),
        Err(row) => (row, 0),
    }
}

/// Record kinds 1 to 9, 11 and 12.
fn premise_record(
    book: &mut Book,
    calendar: &[u8],
    premise: u64,
    entry: Entry,
    notices: &mut NoticeWriter,
) -> Result<(), Answer> {
    match (entry, book.place_of(premise)) {
        (Entry::Create(_), Ok(_)) => Err(Answer::PremiseHeld),
        (Entry::Create(new), Err(place)) => book.insert(place, File::created(premise, new)),
        (_, Err(_)) => Err(Answer::NoSuchPremise),
        (Entry::Retire, Ok(place)) => {
            premise::may_retire(&book.files[place])?;
            book.remove(place);
            Ok(())
        }
        (Entry::Order(entry), Ok(place)) => {
            let before = book.files[place];
            let file = &mut book.files[place];
            premise::order_record(file, calendar, book.today, entry, notices)?;
            book.waiting.follow(&before, &book.files[place]);
            Ok(())
        }
        // no order changes
        (Entry::Agreement(agreement), Ok(place)) => {
            agreement::record(&mut book.files[place], agreement, notices)
        }
    }
}

/// Record kind 10: today becomes the day, then each file in rising premise
/// number.
fn day_mark(
    book: &mut Book,
    calendar: &[u8],
    day: u16,
    notices: &mut NoticeWriter,
) -> Result<(), Answer> {
    premise::is_next_day(book.today, day)?;
    book.today = day;
    for file in &mut book.files[..usize::from(book.file_count)] {
        let before = *file;
        premise::day_mark(file, calendar, day, notices);
        book.waiting.follow(&before, file);
    }
    Ok(())
}
