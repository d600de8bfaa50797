//! Document 02, change 1: tenants move their date.

use crate::support::*;
use stacking::answer::Answer;
use stacking::book::{record_call, Book};
use stacking::days::{BusinessDays, NO_DAY};
use stacking::order::{status, Order};
use stacking::random::Random;
use stacking::record::{decode, Entry, Event, OrderEntry, Record, RECORD_BYTES};
use stacking::sample::{self, TapeOptions};

/// Sends each record and sees that it is taken and gives these notices.
fn taken(desk: &mut Desk, records: &[(Entry, &[Notice])]) {
    for (entry, notices) in records {
        desk.take(&[*entry]);
        assert_eq!(desk.notices, *notices, "{entry:?}");
    }
}

/// Sends each record and sees that it is refused so.
fn refused(desk: &mut Desk, records: &[(Entry, u8)]) {
    for &(entry, answer) in records {
        assert_eq!(desk.send(entry), answer, "{entry:?}");
    }
}

#[test]
fn the_order_starts_anew_for_the_day_given() {
    for (kind, held_status, day) in [(1, 1, NONE), (1, 3, 30), (2, 1, NONE), (2, 3, 30)] {
        let held = Order {
            waited: BusinessDays(17),
            told: 1,
            counter: 5,
            ..order(1, kind, 20, day, held_status)
        };
        let mut desk = Desk::with_file(10, business_days(), file_with(&[held]));
        desk.take(&[date_change(1, 25, 6)]);
        let expected = Order {
            waited: BusinessDays(1),
            told: 0,
            counter: 6,
            ..order(1, kind, 25, NO_DAY, status::IN_REVIEW)
        };
        assert_eq!(*desk.order(1), expected);
    }
}

/// Equal and lower counters get 16, also after the largest; the last one that
/// was taken is kept.
#[test]
fn counters_rise() {
    let mut desk = Desk::new(10);
    taken(&mut desk, &[(new_order(1, 20, 1), &[(1, 1, 20, 1, TDSP)])]);
    taken(
        &mut desk,
        &[(date_change(1, 25, 5), &[(9, 1, 25, 1, TDSP)])],
    );
    refused(
        &mut desk,
        &[(date_change(1, 25, 5), 16), (date_change(1, 25, 4), 16)],
    );
    taken(
        &mut desk,
        &[
            (scheduled(1, 30), &[(3, 1, 30, 1, SUBMITTER)]),
            (date_change(1, 0, u32::MAX), &[(9, 1, 0, 1, TDSP)]),
        ],
    );
    refused(
        &mut desk,
        &[
            (date_change(1, 0, u32::MAX), 16),
            (date_change(2, 0, u32::MAX), 13),
        ],
    );
    assert_eq!(desk.order(1).counter, u32::MAX);
}

/// Told, cancelled, scheduled anew further off: only so can an order be told and
/// out of window.
fn desk_with_a_told_order_far_off(holder: u64) -> Desk {
    let mut desk = Desk::created_with(10, holder);
    desk.take(&[new_order(1, 20, 1), scheduled(1, 12)]);
    assert_eq!(desk.order(1).told, 1);
    refused(&mut desk, &[(date_change(1, 40, 1), 17)]);
    desk.take(&[cancel(1)]);
    refused(&mut desk, &[(date_change(1, 40, 1), 14)]);
    desk.take(&[scheduled(1, 30)]);
    desk
}

#[test]
fn a_retailer_that_was_told_hears_of_the_new_date_and_is_told_again() {
    let mut desk = desk_with_a_told_order_far_off(HOLDER);
    taken(
        &mut desk,
        &[
            (
                date_change(1, 40, 1),
                &[(9, 1, 40, 1, TDSP), (9, 1, 40, 1, HOLDER)],
            ),
            (
                scheduled(1, 12),
                &[(3, 1, 12, 1, SUBMITTER), (4, 1, 12, 1, HOLDER)],
            ),
        ],
    );
}

#[test]
fn the_submitter_hears_too_where_it_has_the_flat() {
    let mut desk = desk_with_a_told_order_far_off(SUBMITTER);
    let both: &[Notice] = &[(9, 1, 40, 1, TDSP), (9, 1, 40, 1, SUBMITTER)];
    taken(&mut desk, &[(date_change(1, 40, 1), both)]);
}

#[test]
fn nobody_but_the_tdsp_hears_of_a_dark_flat() {
    let mut desk = desk_with_a_told_order_far_off(0);
    taken(
        &mut desk,
        &[(date_change(1, 40, 1), &[(9, 1, 40, 1, TDSP)])],
    );
    assert_eq!(desk.order(1).told, 0);
}

/// Told is by the order, R is the one of now.
#[test]
fn the_retailer_of_now_hears() {
    let mut desk = desk_with_a_told_order_far_off(HOLDER);
    desk.take(&[
        new_order_of(ANOTHER, 5, 9, 2),
        scheduled(2, 10),
        read(2, 10),
    ]);
    let both: &[Notice] = &[(9, 1, 40, 1, TDSP), (9, 1, 40, 1, ANOTHER)];
    taken(&mut desk, &[(date_change(1, 40, 1), both)]);
}

#[test]
fn a_told_move_out_is_told_no_more_and_r_hears_nothing() {
    for (held_status, day) in [(1, NONE), (3, 30)] {
        let mut held = order(1, 2, 20, day, held_status);
        held.told = 1;
        let mut desk = Desk::with_file(10, business_days(), file_with(&[held]));
        taken(
            &mut desk,
            &[(date_change(1, 40, 1), &[(9, 2, 40, 1, TDSP)])],
        );
        assert_eq!(desk.order(1).told, 0);
    }
}

#[test]
fn row_16_comes_before_row_17() {
    let mut desk = Desk::new(10);
    desk.take(&[new_order(1, 20, 1), date_change(1, 21, 3), scheduled(1, 12)]);
    refused(
        &mut desk,
        &[(date_change(1, 22, 3), 16), (date_change(1, 22, 4), 17)],
    );
}

#[test]
fn other_kinds_and_statuses_other_orders_and_premises() {
    let mut desk = Desk::new(10);
    desk.take(&[new_order(3, 0, 1)]);
    refused(&mut desk, &[(date_change(1, 20, 1), 14)]);
    desk.take(&[new_order(1, 20, 2), permit(2)]);
    refused(&mut desk, &[(date_change(2, 20, 1), 14)]);
    desk.take(&[cancel(2)]);
    refused(
        &mut desk,
        &[(date_change(2, 20, 1), 14), (date_change(3, 20, 1), 13)],
    );
    let elsewhere = of_premise(9, date_change(1, 20, 1));
    let (answer, _) = record_call(&mut desk.book, &desk.calendar, &elsewhere, &mut buffer());
    assert_eq!(answer, Answer::NoSuchPremise);
}

/// Rows 9 and 11 are a new order's: a date change may go to another move in's
/// day, and to any day however far.
#[test]
fn neither_row_9_nor_row_11() {
    let mut desk = Desk::new(10);
    desk.take(&[
        new_order(1, 40, 1),
        scheduled(1, 40),
        new_order(1, 41, 2),
        date_change(2, 40, 1),
        date_change(2, 4_000, 2),
    ]);
    assert_eq!(desk.order(2).requested_day, 4_000);
}

#[test]
fn a_day_that_has_passed_is_in_window() {
    let mut desk = Desk::new(10);
    desk.take(&[new_order(2, 20, 1), scheduled(1, 3)]);
    refused(&mut desk, &[(date_change(1, 30, 1), 17)]);
}

#[test]
fn a_date_change_on_a_holiday_starts_the_wait_at_0() {
    let mut desk = Desk::with_calendar(10, calendar_with(&[(12, 2)]));
    desk.take(&[new_order(1, 30, 1)]);
    desk.mark_to(12);
    desk.take(&[date_change(1, 13, 1)]);
    assert_eq!(desk.order(1).waited, BusinessDays(0));
}

#[test]
fn the_wait_starts_anew() {
    let mut desk = Desk::new(48);
    desk.take(&[new_order(1, 49, 1)]);
    desk.mark_to(49);
    desk.take(&[date_change(1, 50, 1)]);
    desk.mark_to(50);
    assert_eq!(desk.status(1), status::IN_REVIEW);
    desk.mark_to(51);
    assert_eq!(desk.status(1), status::CANCEL_PENDING);
}

/// The counter stays with the order whatever becomes of it, and goes with it.
#[test]
fn a_closed_order_keeps_its_counter_and_a_new_one_has_none() {
    let mut desk = Desk::new(10);
    desk.take(&[new_order(1, 20, 1), date_change(1, 21, 9), unexecutable(1)]);
    assert_eq!(desk.order(1).counter, 9);
    desk.take(&[new_order(1, 20, 2)]);
    assert_eq!(desk.order(2).counter, 0);
}

/// From a fresh book the kept counter is that of the last date change taken, and
/// a date change of an order that takes one is refused by the counter first.
#[test]
fn random_tapes_keep_the_last_counter() {
    let mut met = [0; 3];
    for seed in 0..60 {
        let mut random = Random::new(seed);
        let days = sample::calendar(&mut random);
        let options = TapeOptions {
            records: 600,
            premises: Some(3),
            never_full: false,
        };
        let tape = sample::tape(&mut random, &days, &options);
        let mut book = Book::fresh(0);
        for bytes in tape.chunks(RECORD_BYTES) {
            let before = book.clone();
            let (answer, _) = record_call(&mut book, &days, bytes, &mut buffer());
            let Some((premise, reference, counter)) = changed_date(bytes) else {
                continue;
            };
            let kept = |book: &Book| {
                let file = &book.files[book.place_of(premise).ok()?];
                Some(file.orders[file.place_of(reference)?].counter)
            };
            match answer {
                Answer::Accepted => {
                    assert!(kept(&before) < Some(counter) && kept(&book) == Some(counter));
                    met[0] += 1;
                }
                Answer::CounterNotAbove => {
                    assert!(kept(&before) >= Some(counter));
                    met[1] += 1;
                }
                Answer::DateChangeInWindow => {
                    assert!(kept(&before) < Some(counter));
                    met[2] += 1;
                }
                _ => {}
            }
        }
    }
    assert!(met.iter().all(|&times| times > 10), "{met:?}");
}

fn changed_date(record: &[u8]) -> Option<(u64, u32, u32)> {
    match decode(record)? {
        Record::OfPremise {
            premise,
            entry:
                Entry::Order(OrderEntry::Event {
                    reference,
                    event: Event::DateChange { counter, .. },
                }),
        } => Some((premise, reference, counter)),
        _ => None,
    }
}
