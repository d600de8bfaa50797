//! The record call as a whole: its buffer, its book, many files at once.

use crate::support::*;
use stacking::answer::Answer;
use stacking::book::{record_call, Book, FILES_A_BOOK};
use stacking::file::ORDERS_A_FILE;
use stacking::notice::NOTICE_BUFFER_BYTES;
use stacking::record::{Entry, Fields, RECORD_BYTES};
use stacking::well_kept::is_well_kept;

/// A book that is sent records which must all be taken.
fn take(book: &mut Book, buffer: &mut [u8], premise: u64, entry: Entry) {
    let calendar = business_days();
    let (answer, _) = record_call(book, &calendar, &of_premise(premise, entry), buffer);
    assert_eq!(answer, Answer::Accepted, "{premise} {entry:?}");
}

/// Four orders of a full stack are one retailer's, four another's.
fn submitter_of(reference: u32) -> u64 {
    if reference <= 4 {
        SUBMITTER
    } else {
        ANOTHER
    }
}

/// 64 files with 8 cancelled orders each that wait for the last of 7 days.
fn book_before_the_largest_mark() -> Book {
    let mut book = Book::fresh(0);
    let mut buffer = buffer();
    for premise in 1..=FILES_A_BOOK as u64 {
        take(&mut book, &mut buffer, premise, create(0, HOLDER));
        for reference in 1..=ORDERS_A_FILE as u32 {
            let retailer = submitter_of(reference);
            for entry in [
                new_order_of(retailer, 1, 90, reference),
                cancel_by(retailer, reference),
            ] {
                take(&mut book, &mut buffer, premise, entry);
            }
        }
    }
    for day in 1..=6 {
        let outcome = record_call(&mut book, &business_days(), &mark(day), &mut buffer);
        assert_eq!(outcome, (Answer::Accepted, 0));
    }
    book
}

#[test]
fn a_mark_with_1024_notices_fills_the_buffer() {
    let mut book = book_before_the_largest_mark();
    let mut buffer = buffer();
    let outcome = record_call(&mut book, &business_days(), &mark(7), &mut buffer);
    assert_eq!(outcome, (Answer::Accepted, 1_024));
    assert_eq!(1_024 * RECORD_BYTES, buffer.len());
    for (place, bytes) in buffer.chunks_exact(RECORD_BYTES).enumerate() {
        let fields = Fields::from_bytes(bytes.try_into().unwrap());
        assert_eq!(fields.premise, place as u64 / 16 + 1);
        let reference = place as u32 % 16 / 2 + 1;
        let addressee = [TDSP, submitter_of(reference)][place % 2];
        assert_eq!(notice(bytes), (5, 1, NONE, reference, addressee));
    }
    assert!(is_well_kept(&book));
}

#[test]
fn a_buffer_one_byte_short_is_refused() {
    let before = book_before_the_largest_mark();
    let mut book = before.clone();
    let mut short = vec![PATTERN; NOTICE_BUFFER_BYTES - 1];
    let outcome = record_call(&mut book, &business_days(), &mark(7), &mut short);
    assert_eq!(outcome, (Answer::BufferTooShort, 0));
    assert_eq!(book, before);
    assert!(short.iter().all(|&byte| byte == PATTERN));
}

#[test]
fn bytes_after_the_notices_stay() {
    for length in [
        NOTICE_BUFFER_BYTES,
        NOTICE_BUFFER_BYTES + 1,
        2 * NOTICE_BUFFER_BYTES,
    ] {
        let mut book = book_before_the_largest_mark();
        let mut buffer = vec![PATTERN; length];
        take(&mut book, &mut buffer, 5, unexecutable(3));
        assert!(buffer[RECORD_BYTES..].iter().all(|&byte| byte == PATTERN));
        let (_, count) = record_call(&mut book, &business_days(), &mark(7), &mut buffer);
        assert_eq!(count, 1_022);
        assert!(buffer[count * RECORD_BYTES..]
            .iter()
            .all(|&byte| byte == PATTERN));
    }
}

#[test]
fn an_accepted_record_without_notices_leaves_the_buffer() {
    let mut book = Book::fresh(0);
    let mut buffer = buffer();
    take(&mut book, &mut buffer, 1, create(0, 0));
    take(&mut book, &mut buffer, 1, Entry::Retire);
    let outcome = record_call(&mut book, &[], &mark(1), &mut buffer);
    assert_eq!(outcome, (Answer::Accepted, 0));
    assert!(buffer.iter().all(|&byte| byte == PATTERN));
    assert_eq!(book, Book::fresh(1));
}

#[test]
fn files_stand_in_rising_premise_number() {
    let mut book = Book::fresh(0);
    let mut buffer = buffer();
    for premise in [50, 10, u64::MAX, 30, 1] {
        take(&mut book, &mut buffer, premise, create(0, 0));
        take(&mut book, &mut buffer, premise, new_order(1, 5, 1));
        assert!(is_well_kept(&book));
    }
    take(&mut book, &mut buffer, 30, unexecutable(1));
    take(&mut book, &mut buffer, 30, Entry::Retire);
    assert!(is_well_kept(&book));
    let premises: Vec<u64> = book.held().iter().map(|file| file.premise).collect();
    assert_eq!(premises, [1, 10, 50, u64::MAX]);
}

#[test]
fn the_64th_file_is_taken_and_a_retired_one_makes_room() {
    let mut book = Book::fresh(0);
    let mut buffer = buffer();
    for premise in 1..=64 {
        take(&mut book, &mut buffer, premise, create(0, 0));
    }
    let one_more = of_premise(65, create(0, 0));
    let refused = record_call(&mut book, &[], &one_more, &mut buffer);
    assert_eq!(refused, (Answer::BookFull, 0));
    take(&mut book, &mut buffer, 1, Entry::Retire);
    take(&mut book, &mut buffer, 65, create(0, 0));
    assert_eq!(book.file_count, 64);
    assert!(is_well_kept(&book));
}

#[test]
fn the_answers_have_the_documents_numbers() {
    let numbers: Vec<u8> = Answer::ALL.iter().map(|answer| answer.number()).collect();
    assert_eq!(numbers, Vec::from_iter((0..=18).chain([26])));
}
