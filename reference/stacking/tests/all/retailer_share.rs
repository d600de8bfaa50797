//! Document 02, change 12: no retailer fills a flat's stack.

use crate::support::*;
use stacking::answer::Answer;
use stacking::book::{record_call, Book};
use stacking::file::File;
use stacking::order::Order;
use stacking::random::Random;
use stacking::record::{decode, Entry, OrderEntry, Record, RECORD_BYTES};
use stacking::sample::{self, TapeOptions};

/// Answers to new orders for day 40 on a file with these orders, on day 10.
fn asked(orders: &[Order], retailer: u64, kind: u8) -> u8 {
    let mut desk = Desk::with_file(10, business_days(), file_with(orders));
    let day = if kind == 3 { 0 } else { 40 };
    desk.send(new_order_of(retailer, kind, day, 99))
}

/// Orders of the submitter, one for each kind and status.
fn orders_of(kinds_and_statuses: &[(u8, u8)]) -> Vec<Order> {
    let made = |(place, &(kind, status)): (usize, &(u8, u8))| {
        let day = if status <= 2 { NONE } else { 30 };
        order(place as u32 + 1, kind, 20, day, status)
    };
    kinds_and_statuses.iter().enumerate().map(made).collect()
}

fn drop_of(retailer: u64, reference: u32) -> Entry {
    new_order_of(retailer, 5, 5, reference)
}

#[test]
fn two_retailers_hold_the_stack_and_a_third_meets_it() {
    let mut desk = Desk::new(10);
    for reference in 1..=8 {
        let retailer = if reference <= 4 { 202 } else { 203 };
        desk.take(&[drop_of(retailer, reference)]);
    }
    for (entry, answer) in [
        (drop_of(204, 9), 12),
        (drop_of(202, 9), 26),
        (drop_of(203, 9), 26),
        (unexecutable(3), 0),
        (drop_of(203, 9), 26),
        (drop_of(204, 9), 0),
        (drop_of(202, 10), 12),
    ] {
        assert_eq!(desk.send(entry), answer, "{entry:?}");
    }
    let held: Vec<(u32, u64, u8)> = desk
        .file()
        .held()
        .iter()
        .map(|order| (order.reference, order.retailer, order.status))
        .collect();
    let expected = [
        (1, 202),
        (2, 202),
        (4, 202),
        (5, 203),
        (6, 203),
        (7, 203),
        (8, 203),
        (9, 204),
    ];
    assert_eq!(held, expected.map(|(order, retailer)| (order, retailer, 1)));
}

#[test]
fn row_26_comes_after_11_and_a_cancel_pending_order_counts() {
    let mut desk = Desk::new(10);
    for reference in 1..=4 {
        desk.take(&[new_order(1, 12 + reference as u16, reference)]);
    }
    for (entry, answer) in [
        (scheduled(1, 30), 0),
        (new_order(1, 40, 1), 8),
        (new_order(1, 101, 9), 9),
        (new_order(1, 30, 9), 11),
        (new_order(1, 40, 9), 26),
        (new_order_of(203, 1, 40, 9), 0),
        (cancel(2), 0),
        (new_order(1, 40, 10), 26),
        (accept(2), 0),
        (new_order(1, 40, 10), 0),
    ] {
        assert_eq!(desk.send(entry), answer, "{entry:?}");
    }
}

#[test]
fn four_or_more_for_every_kind_of_new_order() {
    for kind in 1..=5 {
        for (count, answer) in [(3, 0), (4, 26), (5, 26), (7, 26), (8, 26)] {
            let orders = orders_of(&[(2, 1)].repeat(count));
            assert_eq!(asked(&orders, SUBMITTER, kind), answer, "{kind} {count}");
        }
    }
}

#[test]
fn open_orders_of_every_kind_count_and_closed_ones_do_not() {
    let three = [(2, 1); 3];
    for (kind, status) in (1..=5).flat_map(|kind| (1..=7).map(move |status| (kind, status))) {
        if status == 2 && kind != 1 {
            continue;
        }
        let orders = orders_of(&[&[(kind, status)], &three[..]].concat());
        let answer = if status <= 4 { 26 } else { 0 };
        assert_eq!(asked(&orders, SUBMITTER, 5), answer, "{kind} {status}");
        let orders = orders_of(&[&three[..], &[(kind, status)]].concat());
        assert_eq!(asked(&orders, SUBMITTER, 5), answer, "{kind} {status}");
    }
}

#[test]
fn orders_count_for_their_own_retailer_and_premise() {
    let orders = orders_of(&[(2, 1); 4]);
    for other in [
        1,
        HOLDER,
        SUBMITTER - 1,
        SUBMITTER + 65_536,
        SUBMITTER + (1 << 32),
    ] {
        assert_eq!(asked(&orders, other, 1), 0, "{other}");
    }
    let mut desk = Desk::with_file(10, business_days(), file_with(&orders));
    desk.book.file_count = 2;
    desk.book.files[1] = File::new(PREMISE + 1, HOLDER, 0);
    let elsewhere = of_premise(PREMISE + 1, new_order(1, 40, 9));
    let outcome = record_call(&mut desk.book, &business_days(), &elsewhere, &mut buffer());
    assert_eq!(outcome.0, Answer::Accepted);
}

/// How many orders of a file are open, and how many of them a retailer's.
fn open(file: &File, retailer: u64) -> (usize, usize) {
    let open = || file.held().iter().filter(|order| order.is_open());
    let of_retailer = open().filter(|order| order.retailer == retailer);
    (open().count(), of_retailer.count())
}

/// From a fresh book no retailer has more than four; a new order that comes past
/// row 11 is accepted while its retailer has fewer and a place is left.
#[test]
fn random_tapes_leave_room_for_others() {
    let mut met = [0; 3];
    for seed in 0..60 {
        let mut random = Random::new(seed);
        let days = sample::calendar(&mut random);
        let options = TapeOptions {
            records: 600,
            premises: Some(3),
            never_full: false,
        };
        let tape = sample::tape(&mut random, &days, &options);
        let mut book = Book::fresh(0);
        let mut buffer = buffer();
        for bytes in tape.chunks(RECORD_BYTES) {
            let before = book.clone();
            let (answer, _) = record_call(&mut book, &days, bytes, &mut buffer);
            for file in book.held() {
                assert!(file
                    .held()
                    .iter()
                    .all(|order| open(file, order.retailer).1 <= 4));
            }
            let Some(Record::OfPremise {
                premise,
                entry: Entry::Order(OrderEntry::New(new)),
            }) = decode(bytes)
            else {
                continue;
            };
            let Ok(place) = before.place_of(premise) else {
                continue;
            };
            let expected = match open(&before.files[place], new.retailer) {
                (_, 4..) => Answer::FourOpenOrdersOfRetailer,
                (8.., _) => Answer::EightOpenOrders,
                _ => Answer::Accepted,
            };
            if !(8..=11).contains(&answer.number()) {
                assert_eq!(answer, expected);
                met[[0, 12, 26]
                    .iter()
                    .position(|&row| row == answer.number())
                    .unwrap()] += 1;
            }
        }
    }
    assert!(met.iter().all(|&times| times > 100), "{met:?}");
}
