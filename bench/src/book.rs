//! The fast record calls.

use crate::evaluation;
use crate::waiting;
use crate::well_kept::is_well_kept;
use crate::window::{Window, Windows};
use stacking::agreement;
use stacking::answer::{Answer, BlockAnswer};
use stacking::book::Book;
use stacking::clock;
use stacking::file::File;
use stacking::notice::{NoticeWriter, NOTICE_BUFFER_BYTES};
use stacking::premise;
use stacking::record::{decode, Entry, Record, RECORD_BYTES};
use stacking::stretch::Replies;

/// The record call, as [`stacking::book::record_call`].
pub fn record_call(
    book: &mut Book,
    calendar: &[u8],
    record: &[u8],
    notices: &mut [u8],
) -> (Answer, usize) {
    if notices.len() < NOTICE_BUFFER_BYTES {
        return (Answer::BufferTooShort, 0);
    }
    if !is_well_kept(book) {
        return (Answer::BookNotWellKept, 0);
    }
    play(book, calendar, record, notices)
}

/// The record call without row 2's test. The book has to be well kept: it
/// panics or goes astray on one that is not.
pub fn record_call_untested(
    book: &mut Book,
    calendar: &[u8],
    record: &[u8],
    notices: &mut [u8],
) -> (Answer, usize) {
    if notices.len() < NOTICE_BUFFER_BYTES {
        return (Answer::BufferTooShort, 0);
    }
    play(book, calendar, record, notices)
}

/// Many records in one call, as [`stacking::stretch::record_calls`], with row 2's
/// test once: no record leaves a well-kept book otherwise, and none changes a
/// damaged one.
pub fn record_calls(
    book: &mut Book,
    calendar: &[u8],
    stretch: &[u8],
    answers: &mut [u8],
    notices: &mut [u8],
) -> Replies {
    let records = stretch.chunks_exact(RECORD_BYTES);
    let whole_records = records.len();
    if answers.len() < whole_records {
        return Replies::new(BlockAnswer::AnswersTooShort, 0, 0);
    }
    if notices.len() < NOTICE_BUFFER_BYTES {
        return Replies::new(BlockAnswer::Played, 0, 0);
    }
    if !is_well_kept(book) {
        answers[..whole_records].fill(Answer::BookNotWellKept.number());
        return Replies::new(BlockAnswer::Played, whole_records, 0);
    }
    let (mut played, mut written) = (0, 0);
    for (record, place) in records.zip(answers) {
        let free = &mut notices[written * RECORD_BYTES..];
        if free.len() < NOTICE_BUFFER_BYTES {
            break;
        }
        let (answer, count) = play(book, calendar, record, free);
        *place = answer.number();
        played += 1;
        written += count;
    }
    Replies::new(BlockAnswer::Played, played, written)
}

/// Rows 3 to 18 and 26, and the steps.
fn play(book: &mut Book, calendar: &[u8], record: &[u8], notices: &mut [u8]) -> (Answer, usize) {
    let mut notices = NoticeWriter::new(notices);
    let result = match decode(record) {
        None => Err(Answer::Malformed),
        Some(Record::DayMark { day }) => day_mark(book, calendar, day, &mut notices),
        Some(Record::OfPremise { premise, entry }) => {
            premise_record(book, calendar, premise, entry, &mut notices)
        }
    };
    match result {
        Ok(()) => (Answer::Accepted, notices.count()),
        Err(row) => (row, 0),
    }
}

/// Record kinds 1 to 9, 11 and 12.
fn premise_record(
    book: &mut Book,
    calendar: &[u8],
    premise: u64,
    entry: Entry,
    notices: &mut NoticeWriter,
) -> Result<(), Answer> {
    match (entry, book.place_of(premise)) {
        (Entry::Create(_), Ok(_)) => Err(Answer::PremiseHeld),
        (Entry::Create(new), Err(place)) => book.insert(place, File::created(premise, new)),
        (_, Err(_)) => Err(Answer::NoSuchPremise),
        (Entry::Retire, Ok(place)) => {
            premise::may_retire(&book.files[place])?;
            book.remove(place);
            Ok(())
        }
        (Entry::Order(entry), Ok(place)) => {
            let file = &mut book.files[place];
            let before = waiting::of_file(file);
            premise::order_step(file, calendar, book.today, entry, notices)?;
            let window = Window::new(calendar, book.today, file.window);
            evaluation::run(file, &window, notices);
            let totals = waiting::packed(&book.waiting) + waiting::of_file(file) - before;
            book.waiting = waiting::unpacked(totals);
            Ok(())
        }
        (Entry::Agreement(agreement), Ok(place)) => {
            agreement::record(&mut book.files[place], agreement, notices)
        }
    }
}

/// Record kind 10. The windows are looked for once, for all files. At a mark no
/// order changes its status without a notice, so that most marks leave the totals;
/// where there are notices they are counted anew, which is no dearer than to look
/// at every file before and after.
fn day_mark(
    book: &mut Book,
    calendar: &[u8],
    day: u16,
    notices: &mut NoticeWriter,
) -> Result<(), Answer> {
    premise::is_next_day(book.today, day)?;
    book.today = day;
    let windows = Windows::new(calendar, day);
    for file in &mut book.files[..usize::from(book.file_count)] {
        clock::run(file, calendar, day, notices);
        evaluation::run(file, &windows.of(file.window), notices);
    }
    if notices.count() > 0 {
        let parts = book.held().iter().map(waiting::of_file);
        book.waiting = waiting::unpacked(parts.sum());
    }
    Ok(())
}
