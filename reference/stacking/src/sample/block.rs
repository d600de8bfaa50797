//! Random calls with many records.

use super::call::any_calendar;
use super::record::RecordMaker;
use super::tape::{cut_last_short, records, tape, TapeOptions};
use super::{damage, well_kept_book};
use crate::block_call::BlockCall;
use crate::book::{record_call, Book};
use crate::notice::NOTICE_BUFFER_BYTES;
use crate::random::Random;
use crate::record::RECORD_BYTES;
use crate::tape::TAPE_BYTES;

/// The longest buffers that the proved program takes.
const LONGEST_ANSWERS: usize = 4_096;
const LONGEST_NOTICES: usize = 131_072;

/// A stretch of a random tape on the book that the records before it lead to, or
/// any stretch on any book; the book sometimes damaged, either buffer sometimes
/// too short, the notice buffer mostly so that it may run out within the stretch.
pub fn block_call(random: &mut Random) -> BlockCall {
    let calendar = any_calendar(random);
    let (mut book, stretch) = match random.chance(1, 2) {
        true => stretch_of_tape(random, &calendar),
        false => stretch_on_book(random, &calendar),
    };
    if random.chance(1, 8) {
        damage(random, &mut book);
    }
    let whole_records = stretch.len() / RECORD_BYTES;
    BlockCall {
        book,
        calendar,
        stretch,
        answers_length: answers_length(random, whole_records),
        notices_length: notices_length(random),
    }
}

/// A random tape cut at any of its records, and behind it somewhere, mostly at a
/// record too; the book as the first part leaves it.
fn stretch_of_tape(random: &mut Random, calendar: &[u8]) -> (Book, Vec<u8>) {
    let options = options(random.pick(&[4, 40, 40, 40, 160, 600]));
    let tape = tape(random, calendar, &options);
    let before = random.below(options.records);
    let (first, rest) = tape.split_at(before * RECORD_BYTES);
    let mut book = Book::fresh(0);
    let mut notices = vec![0; NOTICE_BUFFER_BYTES];
    for record in first.chunks_exact(RECORD_BYTES) {
        record_call(&mut book, calendar, record, &mut notices);
    }
    let mut stretch = rest.to_vec();
    stretch.truncate(match random.below(4) {
        0 => rest.len(),
        1 => random.below(rest.len() + 1),
        _ => random.below(rest.len() / RECORD_BYTES + 1) * RECORD_BYTES,
    });
    (book, stretch)
}

/// Records that mostly suit a random book; seldom as many as the proved program
/// takes.
fn stretch_on_book(random: &mut Random, calendar: &[u8]) -> (Book, Vec<u8>) {
    let book = well_kept_book(random);
    let options = options(match random.below(60) {
        0 => TAPE_BYTES / RECORD_BYTES,
        1..=8 => 100 + random.below(200),
        _ => random.below(30),
    });
    let mut maker = RecordMaker::for_book(random, &book);
    let mut stretch = records(random, calendar, &mut maker, &mut book.clone(), &options);
    cut_last_short(random, &mut stretch);
    (book, stretch)
}

fn options(records: usize) -> TapeOptions {
    TapeOptions {
        records,
        premises: None,
        never_full: false,
    }
}

/// Mostly a byte for each record or some more, sometimes one too few or none.
fn answers_length(random: &mut Random, records: usize) -> usize {
    match random.below(12) {
        0 => records.saturating_sub(1),
        1 => random.below(records + 1),
        2 => LONGEST_ANSWERS,
        3..=5 => records + random.below(100),
        _ => records,
    }
}

fn notices_length(random: &mut Random) -> usize {
    match random.below(16) {
        0 => random.pick(&[0, 23, 24, NOTICE_BUFFER_BYTES - 1]),
        1 => NOTICE_BUFFER_BYTES,
        2 => NOTICE_BUFFER_BYTES + random.pick(&[1, 23, 24, 25, 240]),
        3..=6 => NOTICE_BUFFER_BYTES + random.below(40) * RECORD_BYTES,
        7..=8 => NOTICE_BUFFER_BYTES + random.below(2_000),
        9..=11 => NOTICE_BUFFER_BYTES * random.pick(&[2, 3, 5]) + random.pick(&[0, 23, 24]),
        12 => NOTICE_BUFFER_BYTES + random.below(LONGEST_NOTICES - NOTICE_BUFFER_BYTES + 1),
        _ => LONGEST_NOTICES,
    }
}
