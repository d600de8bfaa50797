//! The table of answers: each row on its own, and before the rows after it.

use crate::support::*;
use stacking::book::{record_call, Book, FILES_A_BOOK};
use stacking::file::File;
use stacking::order::Order;
use stacking::record::{Entry, RECORD_BYTES};

/// A call that gets a certain number.
struct Case {
    answer: u8,
    book: Book,
    calendar: Vec<u8>,
    record: Vec<u8>,
}

impl Case {
    /// On day 300, one file with these orders, all days business days.
    fn new(answer: u8, orders: &[Order], entry: Entry) -> Case {
        Case {
            answer,
            book: Book::of_files(300, &[file_with(orders)]),
            calendar: business_days(),
            record: of_premise(PREMISE, entry).to_vec(),
        }
    }

    fn on_calendar(self, calendar: Vec<u8>) -> Case {
        Case { calendar, ..self }
    }

    fn on_full_book(mut self) -> Case {
        self.book = full_book(300);
        self
    }

    fn with_agreement(mut self, retailer: u64) -> Case {
        self.book.files[0].agreement = retailer;
        self
    }

    fn for_premise_not_held(mut self) -> Case {
        self.record[8] = PREMISE as u8 + 100;
        self
    }

    /// Calls, and checks that a refusal leaves everything as it was.
    fn call_with(&self, mut buffer: Vec<u8>) -> u8 {
        let mut book = self.book.clone();
        let before = buffer.clone();
        let (answer, count) = record_call(&mut book, &self.calendar, &self.record, &mut buffer);
        if answer.number() != 0 {
            assert_eq!(count, 0);
            assert!(book == self.book && buffer == before);
        }
        answer.number()
    }

    fn call(&self) -> u8 {
        self.call_with(buffer())
    }
}

fn full_book(today: u16) -> Book {
    let mut book = Book::fresh(today);
    book.file_count = FILES_A_BOOK as u8;
    for (place, file) in book.files.iter_mut().enumerate() {
        *file = File::new(place as u64 + 1, HOLDER, 0);
    }
    book
}

/// Eight open orders of two other retailers than the submitter.
fn eight_open() -> Vec<Order> {
    (1..=8)
        .map(|reference| Order {
            retailer: if reference <= 4 { HOLDER } else { ANOTHER },
            ..order(reference, 1, 310, NONE, 1)
        })
        .collect()
}

/// The same, but four are the submitter's.
fn eight_open_four_of_submitter() -> Vec<Order> {
    let mut orders = eight_open_one_scheduled();
    for order in &mut orders[4..] {
        order.retailer = SUBMITTER;
    }
    orders
}

/// Eight open orders, the first a move in Scheduled for day 310.
fn eight_open_one_scheduled() -> Vec<Order> {
    let mut orders = eight_open();
    orders[0] = order(1, 1, 310, 310, 3);
    orders
}

/// A call for each number from 3 on, and accepted ones of every kind of record.
/// A move in, Scheduled, with a date change of counter 5 behind it.
fn dated_scheduled(day: u16) -> [Order; 1] {
    [Order {
        counter: 5,
        ..order(1, 1, 310, day, 3)
    }]
}

fn cases() -> Vec<Case> {
    let mark_case = |answer, day| Case {
        record: mark(day).to_vec(),
        ..Case::new(answer, &[], Entry::Retire)
    };
    let review = [order(1, 1, 310, NONE, 1)];
    let scheduled_move_in = [order(1, 1, 310, 310, 3)];
    let cancel_pending = [order(1, 1, 310, 310, 4)];
    let closed = [order(1, 1, 310, 310, 6)];
    let four_open = [1, 2, 3, 4].map(|reference| order(reference, 2, 310, NONE, 1));
    vec![
        Case::new(0, &[], create(5, 0)).for_premise_not_held(),
        Case::new(0, &closed, Entry::Retire),
        Case::new(0, &[], new_order(1, 310, 1)),
        Case::new(0, &review, scheduled(1, 310)),
        Case::new(0, &review, permit(1)),
        Case::new(0, &review, unexecutable(1)),
        Case::new(0, &scheduled_move_in, read(1, 310)),
        Case::new(0, &review, cancel(1)),
        Case::new(0, &cancel_pending, accept(1)),
        Case::new(0, &cancel_pending, reject(1)),
        mark_case(0, 301),
        mark_case(3, 4_096),
        Case::new(4, &[], Entry::Retire).for_premise_not_held(),
        Case::new(4, &[], new_order(1, 310, 1)).for_premise_not_held(),
        Case::new(4, &[], scheduled(1, 310)).for_premise_not_held(),
        Case::new(5, &[], create(5, 0)),
        Case::new(6, &[], create(5, 0))
            .on_full_book()
            .for_premise_not_held(),
        Case::new(7, &review, Entry::Retire),
        Case::new(8, &review, new_order(1, 310, 1)),
        Case::new(9, &[], new_order(1, 391, 1)),
        Case::new(9, &[], new_order(2, 29, 1)),
        Case::new(9, &[], new_order(4, 391, 1)),
        Case::new(10, &[], new_order(3, 0, 1)).on_calendar(vec![]),
        Case::new(11, &scheduled_move_in, new_order(1, 310, 2)),
        Case::new(26, &four_open, new_order(1, 310, 9)),
        Case::new(12, &eight_open(), new_order(1, 310, 9)),
        Case::new(13, &review, scheduled(2, 310)),
        Case::new(13, &review, cancel_by(HOLDER, 1)),
        Case::new(14, &closed, scheduled(1, 310)),
        mark_case(15, 302),
        Case::new(0, &review, date_change(1, 391, 1)),
        Case::new(4, &[], date_change(1, 310, 1)).for_premise_not_held(),
        Case::new(13, &review, date_change(2, 310, 1)),
        Case::new(14, &closed, date_change(1, 310, 1)),
        Case::new(16, &dated_scheduled(310), date_change(1, 320, 5)),
        Case::new(17, &dated_scheduled(302), date_change(1, 320, 6)),
        Case::new(0, &review, establish(900)),
        Case::new(0, &review, delete(900)).with_agreement(900),
        Case::new(4, &[], establish(900)).for_premise_not_held(),
        Case::new(4, &[], delete(900)).for_premise_not_held(),
        Case::new(18, &review, delete(900)),
        Case::new(18, &[], delete(900)).with_agreement(901),
    ]
}

#[test]
fn each_row_on_its_own() {
    let cases = cases();
    for case in &cases {
        assert_eq!(case.call(), case.answer, "{:?}", case.record);
    }
    for number in (3..=18).chain([26]) {
        assert!(cases.iter().any(|case| case.answer == number));
    }
}

#[test]
fn row_1_comes_before_all_others() {
    for mut case in cases() {
        for length in [0, 1, 24, 24_575] {
            assert_eq!(case.call_with(vec![PATTERN; length]), 1);
        }
        case.book.today = 4_096;
        assert_eq!(case.call_with(vec![PATTERN; 24_575]), 1);
    }
}

#[test]
fn row_2_comes_before_all_but_row_1() {
    for mut case in cases() {
        case.book.today = 4_096;
        assert_eq!(case.call(), 2);
    }
}

#[test]
fn row_3_comes_before_rows_4_to_18_and_26() {
    for mut case in cases() {
        case.record[23] = 1;
        assert_eq!(case.call(), 3);
        case.record[23] = 0;
        case.record.push(0);
        assert_eq!(case.call(), 3);
        case.record.truncate(RECORD_BYTES - 1);
        assert_eq!(case.call(), 3);
    }
}

#[test]
fn row_4_comes_before_rows_9_10_13_and_18() {
    for case in [
        Case::new(4, &[], new_order(1, 391, 1)),
        Case::new(4, &[], new_order(3, 0, 1)).on_calendar(vec![]),
        Case::new(4, &[], scheduled(9, 310)),
        Case::new(4, &[], date_change(9, 310, 1)),
        Case::new(4, &[], delete(900)),
    ] {
        assert_eq!(case.for_premise_not_held().call(), 4);
    }
}

#[test]
fn row_5_comes_before_row_6() {
    let case = Case::new(5, &[], create(5, 0)).on_full_book();
    assert_eq!(case.call(), 5);
}

#[test]
fn row_8_comes_before_rows_9_to_12_and_26() {
    for orders in [
        eight_open_one_scheduled(),
        eight_open(),
        eight_open_four_of_submitter(),
    ] {
        for entry in [
            new_order(1, 391, 1),
            new_order(1, 310, 1),
            new_order(1, 311, 1),
        ] {
            assert_eq!(Case::new(8, &orders, entry).call(), 8);
        }
        let no_switch_date = Case::new(8, &orders, new_order(3, 0, 1)).on_calendar(vec![]);
        assert_eq!(no_switch_date.call(), 8);
    }
    // a closed order's reference is held too, even if it is about to be dropped
    let mut orders = eight_open();
    orders[2].status = 6;
    assert_eq!(Case::new(8, &orders, new_order(1, 310, 3)).call(), 8);
}

#[test]
fn row_9_comes_before_rows_11_26_and_12() {
    let far = [order(1, 1, 310, 391, 3)];
    assert_eq!(Case::new(9, &far, new_order(1, 391, 2)).call(), 9);
    for orders in [eight_open(), eight_open_four_of_submitter()] {
        assert_eq!(Case::new(9, &orders, new_order(1, 391, 9)).call(), 9);
    }
}

#[test]
fn row_10_comes_before_rows_26_and_12() {
    for orders in [eight_open(), eight_open_four_of_submitter()] {
        let case = Case::new(10, &orders, new_order(3, 0, 9)).on_calendar(vec![]);
        assert_eq!(case.call(), 10);
    }
}

#[test]
fn row_11_comes_before_rows_26_and_12() {
    for orders in [eight_open_one_scheduled(), eight_open_four_of_submitter()] {
        assert_eq!(Case::new(11, &orders, new_order(1, 310, 9)).call(), 11);
    }
}

#[test]
fn row_26_comes_before_row_12() {
    let orders = eight_open_four_of_submitter();
    assert_eq!(Case::new(26, &orders, new_order(1, 311, 9)).call(), 26);
    assert_eq!(
        Case::new(12, &orders, new_order_of(ANOTHER, 1, 311, 9)).call(),
        12
    );
}

#[test]
fn row_13_comes_before_row_14() {
    let closed = [order(1, 1, 310, 310, 6)];
    assert_eq!(Case::new(13, &closed, cancel_by(HOLDER, 1)).call(), 13);
    assert_eq!(Case::new(14, &closed, cancel(1)).call(), 14);
}

#[test]
fn row_7_goes_by_open_statuses() {
    for (status, answer) in [(1, 7), (2, 7), (3, 7), (4, 7), (5, 0), (6, 0), (7, 0)] {
        let day = match status {
            1 | 2 => NONE,
            _ => 310,
        };
        let orders = [order(1, 1, 310, 310, 6), order(2, 1, 310, day, status)];
        assert_eq!(Case::new(answer, &orders, Entry::Retire).call(), answer);
    }
}

#[test]
fn row_9_leaves_standard_switches_and_drops_alone() {
    let mut case = Case::new(0, &[], new_order(5, 4_095, 1));
    assert_eq!(case.call(), 0);
    case.record = of_premise(PREMISE, new_order(5, 0, 1)).to_vec();
    assert_eq!(case.call(), 0);
    // a switch date more than 90 days ahead
    let far: Vec<u8> = (0..4_096)
        .map(|day| if day < 1_000 { 2 } else { 1 })
        .collect();
    assert_eq!(
        Case::new(0, &[], new_order(3, 0, 1))
            .on_calendar(far)
            .call(),
        0
    );
}

/// Table 11.1 as it is printed: by scheduled kind, then columns 1 to 4.
const PRINTED: [(u8, &str); 5] = [
    (1, "Y N N Y"),
    (2, "N Y N Y"),
    (3, "N N N Y"),
    (4, "N N N Y"),
    (5, "N N N N"),
];

/// A new order of a kind with requested day 300, which is also its switch date.
fn new_for_300(kind: u8) -> Entry {
    new_order(kind, if kind == 3 { 0 } else { 300 }, 2)
}

#[test]
fn row_11_is_the_table() {
    for (held_kind, printed) in PRINTED {
        for (column, letter) in printed.split(' ').enumerate() {
            let kind = column as u8 + 1;
            let held = |status, day| [order(1, held_kind, 300, day, status)];
            // the sentence beside the table, for two standard switches
            let both_standard = held_kind == 3 && kind == 3;
            let on_the_day = if letter == "Y" || both_standard {
                11
            } else {
                0
            };
            let after = if both_standard { 11 } else { 0 };
            let call = |orders: &[Order]| Case::new(0, orders, new_for_300(kind)).call();
            assert_eq!(call(&held(3, 300)), on_the_day, "{held_kind} {kind}");
            assert_eq!(call(&held(3, 301)), after, "{held_kind} {kind}");
            assert_eq!(call(&held(3, 299)), 0);
            for status in [4, 5, 6, 7] {
                assert_eq!(call(&held(status, 300)), 0, "only Scheduled counts");
            }
        }
        let held = [order(1, held_kind, 300, 300, 3)];
        assert_eq!(Case::new(0, &held, new_for_300(5)).call(), 0);
    }
}

#[test]
fn row_14_for_every_kind_of_record_and_status() {
    let taken: [(Entry, &[u8]); 8] = [
        (scheduled(1, 310), &[1, 2, 4]),
        (permit(1), &[1]),
        (unexecutable(1), &[1, 2, 3, 4]),
        (read(1, 310), &[2, 3]),
        (cancel(1), &[1, 2, 3]),
        (accept(1), &[4]),
        (reject(1), &[4]),
        (date_change(1, 320, 1), &[1, 3]),
    ];
    for (entry, statuses) in taken {
        for status in 1..=7 {
            let day = match status {
                1 | 2 => NONE,
                _ => 310,
            };
            let answer = if statuses.contains(&status) { 0 } else { 14 };
            let orders = [order(1, 1, 310, day, status)];
            assert_eq!(
                Case::new(answer, &orders, entry).call(),
                answer,
                "{entry:?} {status}"
            );
        }
    }
}

#[test]
fn row_14_permits_are_for_move_ins() {
    for kind in 2..=5 {
        let orders = [order(1, kind, 310, NONE, 1)];
        assert_eq!(Case::new(14, &orders, permit(1)).call(), 14);
    }
}

#[test]
fn row_14_date_changes_are_for_move_ins_and_move_outs() {
    for (kind, answer) in [(1, 0), (2, 0), (3, 14), (4, 14), (5, 14)] {
        for (status, day) in [(1, NONE), (3, 310)] {
            let orders = [order(1, kind, 310, day, status)];
            let case = Case::new(answer, &orders, date_change(1, 320, 1));
            assert_eq!(case.call(), answer, "{kind} {status}");
        }
    }
}

#[test]
fn row_14_comes_before_row_16_and_row_16_before_row_17() {
    let mut pending = dated_scheduled(302);
    pending[0].status = 4;
    assert_eq!(Case::new(14, &pending, date_change(1, 320, 5)).call(), 14);
    let near = dated_scheduled(302);
    assert_eq!(Case::new(16, &near, date_change(1, 320, 5)).call(), 16);
}

#[test]
fn row_15_on_the_last_day() {
    let mut case = Case::new(15, &[], Entry::Retire);
    for (today, day, answer) in [
        (4_094, 4_095, 0),
        (4_095, 4_095, 15),
        (4_095, 0, 15),
        (4_095, 4_096, 3),
        (300, 300, 15),
        (300, 299, 15),
    ] {
        case.book.today = today;
        case.record = mark(day).to_vec();
        assert_eq!(case.call(), answer);
    }
}
