//! Row 2: every clause of 'Well kept' broken one at a time.

use crate::support::*;
use stacking::book::{record_call, Book, FILES_A_BOOK};
use stacking::days::{BusinessDays, CalendarDays};
use stacking::file::{File, ORDERS_A_FILE};
use stacking::order::Order;
use stacking::random::Random;
use stacking::sample::{damage, well_kept_book};
use stacking::waiting::Waiting;
use stacking::well_kept::is_well_kept;

/// Is the book answered 2? And if so, was it left as it was?
fn answered_2(book: &Book) -> bool {
    let mut called = book.clone();
    let mut buffer = buffer();
    let (answer, count) = record_call(&mut called, &[], &[], &mut buffer);
    assert_eq!((count, &called), (0, book));
    assert!(buffer.iter().all(|&byte| byte == PATTERN));
    assert_eq!(is_well_kept(book), answer.number() == 3);
    answer.number() == 2
}

/// Three files; the middle one holds an order in each status but one.
fn book() -> Book {
    let mut book = Book::fresh(100);
    book.file_count = 3;
    for (place, file) in book.files[..3].iter_mut().enumerate() {
        *file = File::new(10 * (place as u64 + 1), HOLDER, 50);
    }
    let orders = [
        order(1, 1, 90, NONE, 1),
        order(2, 1, 90, NONE, 2),
        order(3, 2, 90, 95, 3),
        order(4, 3, 90, 95, 4),
        order(5, 4, 90, 95, 5),
        order(6, 5, 90, 95, 6),
    ];
    let file = &mut book.files[1];
    file.orders[..6].copy_from_slice(&orders);
    file.order_count = 6;
    book.waiting = Waiting::new([1, 1, 1, 1]);
    book
}

fn with(change: impl Fn(&mut Book)) -> Book {
    let mut changed = book();
    change(&mut changed);
    // the clause by itself: the totals are those of the changed book
    changed.waiting = changed.counted();
    changed
}

/// The book with a change to the order in a status, 1 to 6.
fn with_order(status: usize, change: impl Fn(&mut Order)) -> Book {
    with(|book| change(&mut book.files[1].orders[status - 1]))
}

#[test]
fn the_book_is_well_kept_as_it_is() {
    assert!(!answered_2(&book()));
    for start_day in [0, 4_095, 4_096, u16::MAX] {
        let fresh = Book::fresh(start_day);
        assert!(!answered_2(&fresh));
        assert_eq!(fresh.today, start_day.min(4_095));
    }
}

#[test]
fn today() {
    for today in [0, 4_095] {
        assert!(!answered_2(&with(|book| book.today = today)));
    }
    for today in [4_096, 4_097, u16::MAX] {
        assert!(answered_2(&with(|book| book.today = today)));
    }
}

#[test]
fn counts_of_files() {
    for count in (0..=255).filter(|&count| count != 3) {
        // one fewer leaves a file in an unused place, one more counts an empty one
        assert!(answered_2(&with(|book| book.file_count = count)), "{count}");
    }
    let full_file = |place| File::new(place + 1, 0, 0);
    let files: Vec<File> = (0..FILES_A_BOOK as u64).map(full_file).collect();
    let mut full = Book::of_files(100, &files);
    assert!(!answered_2(&full));
    for count in 65..=255 {
        full.file_count = count;
        assert!(answered_2(&full));
    }
}

#[test]
fn counts_of_orders() {
    for count in (0..=255).filter(|&count| count != 6) {
        assert!(
            answered_2(&with(|book| book.files[1].order_count = count)),
            "{count}"
        );
    }
    let full = with(|book| {
        book.files[1].orders[6] = order(7, 1, 90, NONE, 1);
        book.files[1].orders[7] = order(8, 1, 90, NONE, 1);
        book.files[1].order_count = 8;
    });
    assert!(!answered_2(&full));
    for count in 9..=255 {
        let mut damaged = full.clone();
        damaged.files[1].order_count = count;
        assert!(answered_2(&damaged));
    }
}

#[test]
fn premises_rise() {
    for (place, premise) in [
        (0, 0),
        (0, 20),
        (0, 21),
        (1, 10),
        (1, 9),
        (1, 30),
        (1, 31),
        (2, 20),
        (2, 1),
    ] {
        assert!(answered_2(
            &with(|book| book.files[place].premise = premise)
        ));
    }
    for (place, premise) in [(0, 1), (0, 19), (1, 11), (1, 29), (2, 21), (2, u64::MAX)] {
        assert!(!answered_2(&with(
            |book| book.files[place].premise = premise
        )));
    }
}

#[test]
fn a_file_has_its_retailers_since_window_and_mark_in_range() {
    for place in 0..3 {
        for retailer in [0, 1, 999_999_999, 1_000_000_000, 1 << 32, 9_999_999_999_999] {
            assert!(!answered_2(&with(
                |book| book.files[place].retailer = retailer
            )));
            assert!(!answered_2(&with(
                |book| book.files[place].agreement = retailer
            )));
        }
        for retailer in [10_000_000_000_000, 1 << 56, u64::MAX] {
            assert!(answered_2(&with(
                |book| book.files[place].retailer = retailer
            )));
            assert!(answered_2(&with(
                |book| book.files[place].agreement = retailer
            )));
        }
        for width in 0..=255 {
            let changed = with(|book| book.files[place].window = BusinessDays(width));
            assert_eq!(answered_2(&changed), !(1..=5).contains(&width));
        }
        for moved_in in 0..=255 {
            let changed = with(|book| book.files[place].moved_in = moved_in);
            assert_eq!(answered_2(&changed), moved_in > 1);
        }
        for since in [0, 4_095] {
            assert!(!answered_2(&with(|book| book.files[place].since = since)));
        }
        for since in [4_096, u16::MAX] {
            assert!(answered_2(&with(|book| book.files[place].since = since)));
        }
    }
}

#[test]
fn references_are_not_0_and_distinct() {
    for status in 1..=6 {
        assert!(answered_2(&with_order(status, |held| held.reference = 0)));
        assert!(!answered_2(
            &with_order(status, |held| held.reference = u32::MAX)
        ));
        for other in (1..=6).filter(|&other| other != status) {
            assert!(answered_2(
                &with_order(status, |held| held.reference = other as u32)
            ));
        }
    }
}

#[test]
fn references_are_distinct_in_a_file_only() {
    let both = with(|book| {
        book.files[0].orders[0] = order(1, 1, 90, NONE, 1);
        book.files[0].order_count = 1;
    });
    assert!(!answered_2(&both));
}

#[test]
fn an_order_has_its_fields_in_range() {
    for status in 1..=6 {
        for kind in [0, 6, 255] {
            assert!(answered_2(&with_order(status, |held| held.kind = kind)));
        }
        for kind in 1..=5 {
            // status 2 goes only with a move in
            let damaged = status == 2 && kind != 1;
            assert_eq!(
                answered_2(&with_order(status, |held| held.kind = kind)),
                damaged
            );
        }
        for (retailer, damaged) in [
            (0, true),
            (1, false),
            (999_999_999, false),
            (1_000_000_000, false),
            (1 << 32, false),
            (9_999_999_999_999, false),
            (10_000_000_000_000, true),
            (1 << 56, true),
            (u64::MAX, true),
        ] {
            assert_eq!(
                answered_2(&with_order(status, |held| held.retailer = retailer)),
                damaged
            );
        }
        for (day, damaged) in [(0, false), (4_095, false), (4_096, true), (u16::MAX, true)] {
            assert_eq!(
                answered_2(&with_order(status, |held| held.requested_day = day)),
                damaged
            );
        }
        for waited in 0..=255 {
            let changed = with_order(status, |held| held.waited = BusinessDays(waited));
            assert_eq!(answered_2(&changed), waited > 21);
        }
        for told in 0..=255 {
            assert_eq!(
                answered_2(&with_order(status, |held| held.told = told)),
                told > 1
            );
        }
    }
}

#[test]
fn a_counter_is_any_number() {
    for status in 1..=6 {
        for counter in [0, 1, 1_000_000_000, u32::MAX] {
            let changed = with_order(status, |held| held.counter = counter);
            assert!(!answered_2(&changed));
        }
    }
}

#[test]
fn the_scheduled_day_goes_with_the_status() {
    // by status: may it be a day, may it be none
    for (status, a_day, none) in [
        (1, false, true),
        (2, false, true),
        (3, true, false),
        (4, true, true),
        (5, true, false),
        (6, true, true),
        (7, true, true),
    ] {
        let changed = |day| {
            with_order(6, |held| {
                held.status = status;
                held.scheduled_day = day;
                held.kind = 1;
            })
        };
        for day in [0, 95, 4_095] {
            assert_eq!(answered_2(&changed(day)), !a_day, "{status} {day}");
        }
        assert_eq!(answered_2(&changed(NONE)), !none, "{status}");
        for day in [4_097, u16::MAX] {
            assert!(answered_2(&changed(day)));
        }
    }
}

#[test]
fn statuses_are_1_to_7() {
    for status in (0..=0).chain(8..=255) {
        for place in 1..=6 {
            assert!(answered_2(&with_order(place, |held| held.status = status)));
        }
    }
}

#[test]
fn the_wait_in_cancel_pending() {
    for status in 1..=6 {
        for days in 0..=255 {
            let changed = with_order(status, |held| held.cancel_pending_for = CalendarDays(days));
            let longest = if status == 4 { 6 } else { 0 };
            assert_eq!(answered_2(&changed), days > longest, "{status} {days}");
        }
    }
    for days in 1..=7 {
        let changed = with_order(6, |held| {
            held.status = 7;
            held.cancel_pending_for = CalendarDays(days);
        });
        assert!(answered_2(&changed));
    }
}

/// A change to one field of an order.
type OrderChange = fn(&mut Order);

const ORDER_FIELDS: [OrderChange; 10] = [
    |held| held.reference = 1,
    |held| held.retailer = 1,
    |held| held.requested_day = 1,
    |held| held.scheduled_day = NONE,
    |held| held.kind = 1,
    |held| held.status = 1,
    |held| held.waited = BusinessDays(1),
    |held| held.cancel_pending_for = CalendarDays(1),
    |held| held.told = 1,
    |held| held.counter = 1,
];

#[test]
fn unused_places_of_a_file_are_zero() {
    for change in ORDER_FIELDS {
        for place in 6..ORDERS_A_FILE {
            assert!(answered_2(&with(|book| change(
                &mut book.files[1].orders[place]
            ))));
        }
        assert!(answered_2(&with(|book| change(
            &mut book.files[2].orders[0]
        ))));
    }
}

#[test]
fn unused_places_of_the_book_are_zero() {
    for place in [3, 4, FILES_A_BOOK - 1] {
        assert!(answered_2(&with(|book| book.files[place].premise = 40)));
        assert!(answered_2(&with(|book| book.files[place].retailer = 1)));
        assert!(answered_2(&with(|book| book.files[place].since = 1)));
        assert!(answered_2(&with(|book| book.files[place].agreement = 1)));
        assert!(answered_2(&with(
            |book| book.files[place].window = BusinessDays(2)
        )));
        assert!(answered_2(&with(|book| book.files[place].moved_in = 1)));
        assert!(answered_2(&with(|book| book.files[place].order_count = 1)));
        for change in ORDER_FIELDS {
            for order_place in 0..ORDERS_A_FILE {
                let damaged = with(|book| change(&mut book.files[place].orders[order_place]));
                assert!(answered_2(&damaged));
            }
        }
    }
}

#[test]
fn random_books() {
    let mut random = Random::new(1);
    let mut damaged = 0;
    for _ in 0..3_000 {
        let mut book = well_kept_book(&mut random);
        assert!(!answered_2(&book));
        damage(&mut random, &mut book);
        damaged += usize::from(answered_2(&book));
    }
    assert!(damaged > 1_000, "{damaged}");
}
