//! Waiting orders at a glance (document 02, change 11), sentence by sentence. What
//! the totals have to be is counted here anew, by the numbers of the statuses.

use crate::running::{folder, run_on, text};
use crate::support::*;
use stacking::answer::Answer;
use stacking::book::{record_call, Book, FILES_A_BOOK};
use stacking::file::File;
use stacking::order::Order;
use stacking::random::Random;
use stacking::record::{Entry, RECORD_BYTES};
use stacking::sample::{
    block_call, calendar, call, damage, shuffle, tape, well_kept_book, TapeOptions,
};
use stacking::stretch::record_calls;
use stacking::tape::{played, TAPE_BYTES};
use stacking::waiting::{waiting_orders, Waiting};
use stacking::well_kept::is_well_kept;
use std::path::Path;
use std::process::{Command, Output};

const WAITING: &str = env!("CARGO_BIN_EXE_waiting");

/// In Review, Permit Pending, Scheduled, Cancel Pending, counted over all files.
fn counted(book: &Book) -> [u16; 4] {
    let orders = || book.held().iter().flat_map(File::held);
    [1, 2, 3, 4].map(|status| orders().filter(|order| order.status == status).count() as u16)
}

/// What the question says.
fn asked(book: &Book) -> [u16; 4] {
    let waiting = waiting_orders(book);
    [
        waiting.in_review,
        waiting.permit_pending,
        waiting.scheduled,
        waiting.cancel_pending,
    ]
}

fn document_tape() -> Vec<u8> {
    let entries = [
        create(0, 101),
        new_order(3, 0, 1),
        scheduled(1, 0),
        read(1, 0),
    ];
    entries.iter().flat_map(|&e| of_premise(7, e)).collect()
}

#[test]
fn a_fresh_book_has_four_zeros() {
    for start_day in [0, 1, 4_095, 4_096, u16::MAX] {
        assert_eq!(asked(&Book::fresh(start_day)), [0; 4]);
    }
}

/// Document 01's tape, record by record.
#[test]
fn the_documents_tape() {
    let tape = document_tape();
    for (records, expected) in [
        (0, [0, 0, 0, 0]),
        (1, [0, 0, 0, 0]),
        (2, [1, 0, 0, 0]),
        (3, [0, 0, 1, 0]),
        (4, [0, 0, 0, 0]),
    ] {
        let book = played(&business_days(), &tape[..records * RECORD_BYTES]);
        assert_eq!(asked(&book), expected, "{records}");
    }
}

/// Every step of an order from status to status, and the totals behind it.
#[test]
fn each_step_moves_its_totals() {
    let mut desk = Desk::new(10);
    for (entry, expected) in [
        (new_order(1, 40, 1), [1, 0, 0, 0]),
        (new_order(2, 41, 2), [2, 0, 0, 0]),
        (new_order_of(ANOTHER, 1, 42, 3), [3, 0, 0, 0]),
        (permit(1), [2, 1, 0, 0]),
        (permit(3), [1, 2, 0, 0]),
        (read(1, 12), [2, 1, 0, 0]),
        (scheduled(2, 41), [1, 1, 1, 0]),
        (scheduled(3, 42), [1, 0, 2, 0]),
        (date_change(3, 44, 1), [2, 0, 1, 0]),
        (cancel(1), [1, 0, 1, 1]),
        (reject(1), [2, 0, 1, 0]),
        (cancel(2), [2, 0, 0, 1]),
        (reject(2), [2, 0, 1, 0]),
        (cancel(2), [2, 0, 0, 1]),
        (scheduled(2, 43), [2, 0, 1, 0]),
        (read(2, 43), [2, 0, 0, 0]),
        (cancel(1), [1, 0, 0, 1]),
        (accept(1), [1, 0, 0, 0]),
        (establish(ANOTHER), [1, 0, 0, 0]),
        (unexecutable(3), [0, 0, 0, 0]),
        (Entry::Retire, [0, 0, 0, 0]),
        (create(9, 0), [0, 0, 0, 0]),
    ] {
        assert_eq!(desk.send(entry), 0, "{entry:?}");
        assert_eq!(asked(&desk.book), expected, "{entry:?}");
    }
}

#[test]
fn a_refused_record_moves_none() {
    let mut desk = Desk::new(10);
    desk.take(&[new_order(1, 40, 1), new_order(2, 41, 2), scheduled(2, 41)]);
    for (entry, answer) in [
        (create(0, HOLDER), 5),
        (Entry::Retire, 7),
        (new_order(1, 45, 1), 8),
        (new_order(1, 200, 3), 9),
        (new_order(2, 41, 3), 11),
        (scheduled(9, 40), 13),
        (permit(2), 14),
        (date_change(1, 40, 0), 3),
        (delete(ANOTHER), 18),
    ] {
        assert_eq!(desk.send(entry), answer, "{entry:?}");
        assert_eq!(asked(&desk.book), [1, 0, 1, 0], "{entry:?}");
    }
    assert_eq!(desk.send_bytes(&mark(12)), 15);
    assert_eq!(asked(&desk.book), [1, 0, 1, 0]);
}

/// The ninth order drops the oldest closed one, which no total has.
#[test]
fn a_dropped_order_was_not_counted_any_more() {
    let mut desk = Desk::new(10);
    for reference in 1..=8 {
        let retailer = if reference <= 4 { SUBMITTER } else { ANOTHER };
        desk.take(&[new_order_of(retailer, 1, 40 + reference as u16, reference)]);
    }
    assert_eq!(asked(&desk.book), [8, 0, 0, 0]);
    desk.take(&[scheduled(3, 50), read(3, 50)]);
    assert_eq!(asked(&desk.book), [7, 0, 0, 0]);
    desk.take(&[new_order(2, 60, 9)]);
    assert_eq!(asked(&desk.book), [8, 0, 0, 0]);
    assert!(desk.file().place_of(3).is_none());
}

/// Waits that end at a mark, and what an evaluation cancels beside the record's
/// own order.
#[test]
fn marks_and_evaluations_move_them_too() {
    let mut desk = Desk::new(50);
    desk.take(&[new_order(1, 50, 1)]);
    for (day, expected) in [
        (51, [1, 0, 0, 0]),
        (52, [0, 0, 0, 1]),
        (58, [0, 0, 0, 1]),
        (59, [0, 0, 0, 0]),
    ] {
        desk.mark_to(day);
        assert_eq!(asked(&desk.book), expected, "{day}");
    }
    desk.take(&[
        new_order(4, 62, 2),
        new_order_of(ANOTHER, 4, 62, 3),
        scheduled(2, 60),
    ]);
    assert_eq!(asked(&desk.book), [1, 0, 1, 0]);
    desk.take(&[scheduled(3, 60)]);
    assert_eq!(asked(&desk.book), [0, 0, 1, 0]);
    assert_eq!((desk.status(2), desk.status(3)), (3, 6));
}

/// A mark moves the totals for every file that it touches.
#[test]
fn a_mark_over_512_orders() {
    let orders = [1, 2, 3, 4, 5, 6, 7, 8].map(|reference| Order {
        waited: stacking::days::BusinessDays(2),
        ..order(reference, 1, 10, NONE, 1)
    });
    let mut files = [file_with(&orders); FILES_A_BOOK];
    for (file, premise) in files.iter_mut().zip(1..) {
        file.premise = premise;
    }
    let mut book = Book::of_files(10, &files);
    assert_eq!(asked(&book), [512, 0, 0, 0]);
    for (day, expected) in [(11, 512), (17, 512), (18, 0)] {
        while book.today < day {
            let next = mark(book.today + 1);
            let (answer, _) = record_call(&mut book, &business_days(), &next, &mut buffer());
            assert_eq!(answer, Answer::Accepted);
        }
        assert_eq!(asked(&book), [0, 0, 0, expected]);
    }
}

fn options(records: usize) -> TapeOptions {
    TapeOptions {
        records,
        premises: None,
        never_full: false,
    }
}

/// "They equal the count over all files after every list of calls from a fresh
/// book": any start day, records of any length, buffers that are too short.
#[test]
fn after_every_list_of_calls_from_a_fresh_book() {
    let mut random = Random::new(11);
    let mut largest = [0; 4];
    for _ in 0..60 {
        let days = calendar(&mut random);
        let tape = tape(&mut random, &days, &options(400));
        let mut book = Book::fresh(random.pick(&[0, 0, 0, 7, 4_000, u16::MAX]));
        for record in tape.chunks(RECORD_BYTES) {
            let cut = random.chance(1, 20);
            let length = if cut { random.below(30) } else { record.len() };
            let mut record = record.to_vec();
            record.resize(length, 0);
            let room = random.pick(&[24_576, 24_576, 24_576, 24_575]);
            record_call(&mut book, &days, &record, &mut vec![PATTERN; room]);
            assert_eq!(asked(&book), counted(&book));
            for (most, total) in largest.iter_mut().zip(asked(&book)) {
                *most = total.max(*most);
            }
        }
    }
    assert!(largest.iter().all(|&most| most > 2), "{largest:?}");
}

/// "every call keeps true": on any well-kept book, and a call with many records too.
#[test]
fn every_call_keeps_them_true() {
    let mut random = Random::new(12);
    let (mut kept, mut two_bytes) = (0, 0);
    for _ in 0..4_000 {
        let mut call = call(&mut random);
        let was_kept = is_well_kept(&call.book);
        let before = asked(&call.book);
        let mut buffer = vec![PATTERN; call.buffer_length];
        let (answer, _) = record_call(&mut call.book, &call.calendar, &call.record, &mut buffer);
        if was_kept {
            assert_eq!(asked(&call.book), counted(&call.book));
            kept += 1;
            two_bytes += usize::from(before.iter().any(|&total| total > 255));
        }
        if answer != Answer::Accepted {
            assert_eq!(asked(&call.book), before);
        }
    }
    assert!(kept > 2_000 && two_bytes > 20, "{kept} {two_bytes}");
    for _ in 0..300 {
        let mut call = block_call(&mut random);
        let was_kept = is_well_kept(&call.book);
        let before = asked(&call.book);
        let mut answers = vec![PATTERN; call.answers_length];
        let mut notices = vec![PATTERN; call.notices_length];
        let (book, days) = (&mut call.book, &call.calendar);
        record_calls(book, days, &call.stretch, &mut answers, &mut notices);
        match was_kept {
            true => assert_eq!(asked(book), counted(book)),
            false => assert_eq!(asked(book), before),
        }
    }
}

/// "the question returns the stored four, from any book".
#[test]
fn the_question_returns_what_is_stored() {
    let mut random = Random::new(13);
    for _ in 0..500 {
        let mut book = well_kept_book(&mut random);
        damage(&mut random, &mut book);
        let stored = [0; 4].map(|_| random.bits() as u16);
        book.waiting = Waiting::new(stored);
        let before = book.clone();
        assert_eq!(asked(&book), stored);
        assert_eq!(book, before);
    }
}

/// A book with orders in every status, the totals each another number.
fn screen() -> Book {
    let statuses: [&[u8]; 3] = [
        &[1, 1, 1, 1, 5, 5, 5, 5],
        &[2, 3, 3, 3, 4, 4, 5, 6],
        &[6, 6, 6, 6, 6],
    ];
    let held = |(place, statuses): (usize, &&[u8])| {
        let orders: Vec<Order> = (1..)
            .zip(*statuses)
            .map(|(reference, &status)| {
                let day = if status <= 2 { NONE } else { 40 };
                order(reference, 1, 40, day, status)
            })
            .collect();
        File {
            premise: 10 + place as u64,
            ..file_with(&orders)
        }
    };
    let files: Vec<File> = statuses.iter().enumerate().map(held).collect();
    Book::of_files(10, &files)
}

/// A mark on the book with these totals; a refusal leaves them.
fn answer_with(totals: [u16; 4]) -> u8 {
    let mut book = screen();
    book.waiting = Waiting::new(totals);
    assert_eq!(is_well_kept(&book), totals == [4, 1, 3, 2]);
    let (answer, _) = record_call(&mut book, &business_days(), &mark(11), &mut buffer());
    if answer != Answer::Accepted {
        assert_eq!((asked(&book), book.today), (totals, 10));
    }
    answer.number()
}

/// "A book whose totals are off is not well kept."
#[test]
fn totals_that_are_off() {
    let right = [4, 1, 3, 2];
    assert_eq!(answer_with(right), 0);
    for place in 0..4 {
        for total in (0..=600).chain([1_024, 32_768, 65_279, 65_535]) {
            let mut totals = right;
            totals[place] = total;
            let expected = if total == right[place] { 0 } else { 2 };
            assert_eq!(answer_with(totals), expected, "{totals:?}");
        }
        for bit in 0..16 {
            let mut totals = right;
            totals[place] ^= 1 << bit;
            assert_eq!(answer_with(totals), 2, "{totals:?}");
        }
    }
    // all four in every other order
    for code in 0..256 {
        let places = [code % 4, code / 4 % 4, code / 16 % 4, code / 64];
        let totals = places.map(|place| right[place]);
        let expected = if totals == right { 0 } else { 2 };
        assert_eq!(answer_with(totals), expected, "{totals:?}");
    }
    // what is closed is in no total
    for totals in [[4, 1, 8, 2], [4, 1, 3, 8], [9, 1, 3, 2], [5, 1, 3, 2]] {
        assert_eq!(answer_with(totals), 2, "{totals:?}");
    }
}

/// A short notice buffer is told before totals that are off, these before anything
/// about the record, and neither sets them right.
#[test]
fn totals_that_are_off_are_row_2() {
    let mut off = screen();
    off.waiting.in_review = 5;
    let before = off.clone();
    for (record, room, expected) in [
        (mark(11).to_vec(), 24_575, 1),
        (mark(11).to_vec(), 24_576, 2),
        (mark(12).to_vec(), 24_576, 2),
        (vec![], 24_576, 2),
        (of_premise(11, new_order(1, 40, 9)).to_vec(), 24_576, 2),
    ] {
        let mut room = vec![PATTERN; room];
        let (answer, count) = record_call(&mut off, &business_days(), &record, &mut room);
        assert_eq!((answer.number(), count), (expected, 0));
        assert!(off == before && room.iter().all(|&byte| byte == PATTERN));
    }
}

/// "Two shuffled tapes show equal totals under the premises that hold for their
/// books": no record is answered 6.
#[test]
fn shuffled_tapes_show_equal_totals() {
    let mut random = Random::new(14);
    let mut seen = [0; 4];
    for _ in 0..40 {
        let days = calendar(&mut random);
        let made = TapeOptions {
            premises: Some(random.pick(&[3, 12, 64, 70])),
            never_full: true,
            ..options(300)
        };
        let tape = tape(&mut random, &days, &made);
        let shuffled = shuffle(&mut random, &days, &tape);
        let totals = asked(&played(&days, &tape));
        assert_eq!(asked(&played(&days, &shuffled)), totals);
        for (all, total) in seen.iter_mut().zip(totals) {
            *all += total;
        }
    }
    assert!(seen.iter().all(|&all| all > 0), "{seen:?}");
}

/// Damage to the totals comes in all its kinds.
#[test]
fn random_damage_has_totals_that_are_off() {
    let mut random = Random::new(15);
    let (mut by_one, mut in_order, mut alone) = (0, 0, 0);
    for _ in 0..4_000 {
        let mut book = well_kept_book(&mut random);
        let before = book.clone();
        damage(&mut random, &mut book);
        let (right, found) = (asked(&before), asked(&book));
        if book.files == before.files && book.today == before.today && found != right {
            let mut differ = right
                .iter()
                .zip(found)
                .filter(|(one, other)| **one != *other);
            let sorted = |mut totals: [u16; 4]| {
                totals.sort();
                totals
            };
            alone += usize::from(book.file_count == before.file_count);
            in_order += usize::from(sorted(right) == sorted(found));
            by_one += usize::from(
                differ
                    .next()
                    .is_some_and(|(one, other)| one.abs_diff(other) == 1)
                    && differ.next().is_none(),
            );
        }
    }
    assert!(by_one > 100 && in_order > 50 && alone > 400);
}

/// Runs the program in a folder, the tape coming in these pieces.
fn run(folder: &Path, pieces: &[&[u8]]) -> Output {
    run_on(Command::new(WAITING).current_dir(folder), pieces)
}

fn with_calendar(name: &str, calendar: &[u8]) -> std::path::PathBuf {
    let folder = folder(name);
    std::fs::write(folder.join("calendar.bin"), calendar).unwrap();
    folder
}

#[test]
fn the_program_says_what_waits() {
    let folder = with_calendar("waiting", &business_days());
    let tape = document_tape();
    for (bytes, line) in [
        (0, "q 0 0 0 0\n"),
        (24, "q 0 0 0 0\n"),
        (48, "q 1 0 0 0\n"),
        (71, "q 1 0 0 0\n"),
        (72, "q 0 0 1 0\n"),
        (95, "q 0 0 1 0\n"),
        (96, "q 0 0 0 0\n"),
    ] {
        assert_eq!(text(run(&folder, &[&tape[..bytes]])), line);
        let pieces: Vec<&[u8]> = tape[..bytes].chunks(7).collect();
        assert_eq!(text(run(&folder, &pieces)), line);
    }
    let mut random = Random::new(16);
    for _ in 0..8 {
        let tape = stacking::sample::tape(&mut random, &business_days(), &options(300));
        let [a, b, c, d] = counted(&played(&business_days(), &tape));
        let line = format!("q {a} {b} {c} {d}\n");
        assert_eq!(text(run(&folder, &[&tape])), line);
    }
}

/// An absent calendar has no switch date, so that the switch is refused.
#[test]
fn the_program_without_a_calendar() {
    let folder = folder("waiting-absent");
    assert_eq!(text(run(&folder, &[&document_tape()[..72]])), "q 0 0 0 0\n");
}

/// Neither a day past the calendar's 4,096 bytes nor a record past the tape's
/// 65,520 counts.
#[test]
fn the_program_reads_the_first_bytes_only() {
    let mut calendar = vec![2; 4_096];
    calendar.extend([0; 100]);
    let mut tape = vec![0; TAPE_BYTES - RECORD_BYTES];
    tape[..24].copy_from_slice(&of_premise(7, create(0, 101)));
    tape.extend(of_premise(7, new_order(1, 5, 1)));
    tape.extend(of_premise(7, new_order(1, 5, 2)));
    let folder = with_calendar("waiting-first", &calendar);
    assert_eq!(text(run(&folder, &[&tape])), "q 1 0 0 0\n");
}

#[test]
fn the_program_says_what_is_wrong() {
    let folder = folder("waiting-unreadable");
    std::fs::create_dir(folder.join("calendar.bin")).unwrap();
    let output = run(&folder, &[&document_tape()]);
    assert!(!output.status.success() && output.stdout.is_empty());
    let message = String::from_utf8(output.stderr).unwrap();
    assert!(message.contains("calendar.bin") && message.contains("remove it"));
    let run = |argument: &str| run_on(Command::new(WAITING).arg(argument), &[]);
    assert!(text(run("--help")).contains("usage: waiting"));
    let wrong = run("some.tape");
    assert!(!wrong.status.success() && wrong.stdout.is_empty());
    assert!(String::from_utf8(wrong.stderr)
        .unwrap()
        .contains("some.tape"));
}
