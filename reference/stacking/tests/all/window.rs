//! Document 02, change 2: a window per premise.

use crate::support::*;
use stacking::book::record_call;
use stacking::book::Book;
use stacking::days::BusinessDays;
use stacking::order::status;
use stacking::random::Random;
use stacking::record::{Entry, Fields, RECORD_BYTES};
use stacking::sample::{self, TapeOptions};

/// A desk on day 10 whose premise was created with a window.
fn desk_with(window: u8) -> Desk {
    let mut desk = Desk::new(10);
    desk.take(&[Entry::Retire, create_with(0, HOLDER, window)]);
    desk
}

#[test]
fn a_create_gives_the_width_and_0_means_2() {
    for (window, width) in [(0, 2), (1, 1), (2, 2), (3, 3), (4, 4), (5, 5)] {
        assert_eq!(desk_with(window).file().window, BusinessDays(width));
    }
    for window in [6, 7, 128, 255] {
        let mut desk = desk_with(0);
        assert_eq!(desk.send(create_with(0, HOLDER, window)), 3);
        desk.take(&[Entry::Retire]);
        assert_eq!(desk.send(create_with(0, HOLDER, window)), 3);
    }
}

#[test]
fn the_width_changes_by_retire_and_create_only() {
    let mut desk = desk_with(1);
    assert_eq!(desk.send(create_with(0, HOLDER, 5)), 5);
    assert_eq!(desk.file().window, BusinessDays(1));
    desk.take(&[Entry::Retire, create_with(0, HOLDER, 5)]);
    assert_eq!(desk.file().window, BusinessDays(5));
}

/// A switch scheduled for day 15 and the mark at which R is told; 10 is at once.
#[test]
fn a_wider_window_tells_earlier() {
    for (window, told_on) in [(5, 10), (4, 11), (3, 12), (2, 13), (0, 13), (1, 14)] {
        let mut desk = desk_with(window);
        desk.take(&[new_order(4, 15, 1), scheduled(1, 15)]);
        let mut notices = vec![(3, 4, 15, 1, SUBMITTER)];
        for day in 10..=15 {
            desk.mark_to(day);
            if day > 10 {
                notices.clear();
            }
            if day == told_on {
                notices.push((4, 4, 15, 1, HOLDER));
            }
            assert_eq!(desk.notices, notices, "{window} {day}");
        }
    }
}

#[test]
fn the_holder_of_an_agreement_is_told_by_the_same_width() {
    for (window, told_on) in [(5, 10), (3, 12), (0, 13), (1, 14)] {
        let mut desk = desk_with(window);
        desk.take(&[establish(900), new_order(2, 15, 1), scheduled(1, 15)]);
        desk.mark_to(told_on - u16::from(told_on > 10));
        assert_eq!(desk.order(1).told, u8::from(told_on == 10));
        desk.mark_to(told_on);
        assert_eq!(desk.notices.last(), Some(&(12, 2, 15, 1, 900)));
    }
}

/// Move ins for days 11, 12, 13, 15 and 16, and a date change of each.
#[test]
fn a_date_change_goes_by_the_width() {
    for (window, answers) in [
        (1, [17, 0, 0, 0, 0]),
        (0, [17, 17, 0, 0, 0]),
        (2, [17, 17, 0, 0, 0]),
        (3, [17, 17, 17, 0, 0]),
        (4, [17, 17, 17, 0, 0]),
        (5, [17, 17, 17, 17, 0]),
    ] {
        let mut desk = desk_with(window);
        for (reference, day) in (1..).zip([11, 12, 13, 15, 16]) {
            desk.take(&[
                new_order_of(200 + u64::from(reference), 1, day, reference),
                scheduled(reference, day),
            ]);
        }
        let given = [1, 2, 3, 4, 5].map(|reference| desk.send(date_change(reference, 40, 1)));
        assert_eq!(given, answers, "{window}");
    }
}

/// Two switches and a drop scheduled for day 15.
#[test]
fn passes_1_and_2_go_by_the_width() {
    for (window, in_window) in [(5, true), (2, false)] {
        let mut desk = desk_with(window);
        desk.take(&[
            new_order_of(201, 4, 15, 1),
            new_order_of(202, 4, 16, 2),
            new_order_of(203, 5, 15, 3),
            scheduled(1, 15),
            scheduled(2, 15),
        ]);
        let cancelled = [(5, 4, 15, 2, TDSP), (5, 4, 15, 2, 202)];
        assert_eq!(desk.notices[1..], cancelled[..2 * usize::from(in_window)]);
        desk.take(&[scheduled(3, 15)]);
        let dropped = [(5, 5, 15, 3, TDSP), (5, 5, 15, 3, HOLDER)];
        assert_eq!(desk.notices[1..], dropped[..2 * usize::from(in_window)]);
        let expected = match in_window {
            true => [status::SCHEDULED, status::CANCELLED, status::CANCELLED],
            false => [status::SCHEDULED; 3],
        };
        assert_eq!([1, 2, 3].map(|reference| desk.status(reference)), expected);
    }
}

/// Pass 3 asks for no window.
#[test]
fn a_permit_is_overtaken_whatever_the_width() {
    for window in 0..=5 {
        let mut desk = desk_with(window);
        desk.take(&[
            new_order_of(201, 1, 12, 1),
            permit(1),
            new_order_of(202, 1, 13, 2),
            scheduled(2, 11),
        ]);
        desk.mark_to(11);
        assert_eq!(desk.status(1), status::CANCELLED);
    }
}

/// Everything that comes back from the calls of a tape, and the book at its end.
fn outcomes(calendar: &[u8], tape: &[u8]) -> (Vec<(u8, Vec<u8>)>, Book) {
    let mut book = Book::fresh(0);
    let calls = tape.chunks(RECORD_BYTES).map(|record| {
        let mut buffer = buffer();
        let (answer, _) = record_call(&mut book, calendar, record, &mut buffer);
        (answer.number(), buffer)
    });
    (calls.collect(), book)
}

/// The tape with every well-formed create's window set.
fn with_windows(tape: &[u8], window: u8) -> Vec<u8> {
    let mut tape = tape.to_vec();
    for record in tape.chunks_exact_mut(RECORD_BYTES) {
        let fields = Fields::from_bytes((&*record).try_into().unwrap());
        if fields.kind == 1 && fields.detail <= 5 {
            record[1] = window;
        }
    }
    tape
}

/// On a tape whose creates all have detail 0 the windows are of 2 throughout; other
/// windows come out otherwise.
#[test]
fn creates_of_detail_0_give_a_window_of_2_throughout() {
    let mut differ = [0; 6];
    for seed in 0..12 {
        let mut random = Random::new(seed);
        let days = sample::calendar(&mut random);
        let options = TapeOptions {
            records: 300,
            premises: Some(3),
            never_full: false,
        };
        let tape = sample::tape(&mut random, &days, &options);
        let usual = outcomes(&days, &with_windows(&tape, 0));
        assert!(usual.1.held().iter().all(|file| file.window.0 == 2));
        for width in 1..=5 {
            let other = outcomes(&days, &with_windows(&tape, width));
            differ[usize::from(width)] += usize::from(other.0 != usual.0);
        }
    }
    assert_eq!(differ[2], 0);
    assert!(
        differ[1] > 0 && differ[3..].iter().all(|&tapes| tapes > 0),
        "{differ:?}"
    );
}
