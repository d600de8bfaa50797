//! What each kind of record does, field by field.

use super::*;
use kind::*;

pub fn calls() -> Vec<Stored> {
    [
        files(),
        new_orders(),
        scheduling(),
        permits(),
        unexecutables(),
        reads(),
        cancels(),
        replies(),
    ]
    .into_iter()
    .flatten()
    .collect()
}

fn numbered(premise: u64, orders: &[Order]) -> File {
    File {
        premise,
        ..file(orders)
    }
}

/// Kinds 1 and 2.
fn files() -> Vec<Stored> {
    let closed = [cancelled(1, MOVE_IN), complete(2, MOVE_OUT, 8)];
    let others = [numbered(6, &closed), numbered(8, &closed)];
    let three = [numbered(6, &[]), file(&closed), numbered(8, &closed)];
    let largest = Record::OfPremise {
        premise: u64::MAX,
        entry: Entry::Create(NewFile {
            since: 4_095,
            retailer: 9_999_999_999_999,
            window: 5,
        }),
    };
    vec![
        stored("create between two files", &others, create(4, HOLDER)),
        stored("create before all files", &others[1..], create(20, 0)),
        stored("create behind all files", &others[..1], create(0, HOLDER)),
        stored(
            "create with the largest numbers",
            &others,
            largest.to_bytes(),
        ),
        stored("create in an empty book", &[], create(4, HOLDER)),
        stored("retire with closed orders", &three, retire()),
        stored("retire the only file", &three[1..2], retire()),
    ]
}

/// Kind 3.
fn new_orders() -> Vec<Stored> {
    let unused = file(&[cancelled(1, MOVE_IN), told(scheduled(2, MOVE_IN, 20))]);
    let largest = own(Entry::new_order(NewOrder {
        kind: MASS_TRANSITION_DROP,
        day: 4_095,
        reference: u32::MAX,
        retailer: 9_999_999_999_999,
    }));
    let smallest = own(Entry::new_order(NewOrder {
        kind: MOVE_IN,
        day: 0,
        reference: 1,
        retailer: 1,
    }));
    let mut full: Vec<Order> = (1..=8).map(|place| in_review(place, MOVE_OUT)).collect();
    full[2] = complete(3, MOVE_IN, 8);
    full[5] = cancelled(6, SELF_SELECTED_SWITCH);
    let first_closed = {
        let mut orders = full.clone();
        orders[0] = cancelled(1, MOVE_IN);
        file(&orders)
    };
    let last_closed = {
        let mut orders: Vec<Order> = (1..=8).map(|place| in_review(place, MOVE_OUT)).collect();
        orders[7] = order(8, MOVE_IN, status::UNEXECUTABLE, NO_DAY);
        file(&orders)
    };
    vec![
        stored(
            "a closed order stays while places remain",
            &[unused],
            new_order(3, MOVE_IN, 12),
        ),
        stored("a new move out", &[unused], new_order(3, MOVE_OUT, 12)),
        stored(
            "a new self-selected switch",
            &[unused],
            new_order(3, SELF_SELECTED_SWITCH, 12),
        ),
        stored(
            "a new drop",
            &[unused],
            new_order(3, MASS_TRANSITION_DROP, 12),
        ),
        stored(
            "a new order with the largest numbers",
            &[file(&[])],
            largest,
        ),
        on_book(
            "a new order with the smallest numbers",
            book(0, &[file(&[])]),
            smallest,
        ),
        stored(
            "the oldest closed order is dropped",
            &[file(&full)],
            new_order(9, MOVE_IN, 12),
        ),
        stored(
            "a closed first order is dropped",
            &[first_closed],
            new_order(9, MOVE_IN, 12),
        ),
        stored(
            "a closed last order is dropped",
            &[last_closed],
            new_order(9, MOVE_IN, 12),
        ),
    ]
}

/// Kind 4. Day 20 is out of window, so that the record alone shows.
fn scheduling() -> Vec<Stored> {
    let two = |order| [file(&[order, in_review(2, MOVE_OUT)])];
    vec![
        stored(
            "scheduled from In Review",
            &two(in_review(1, MOVE_IN)),
            schedule(1, 20),
        ),
        stored(
            "scheduled from Permit Pending",
            &two(permit_pending(1)),
            schedule(1, 20),
        ),
        stored(
            "scheduled from Cancel Pending",
            &two(told(cancel_pending(1, MOVE_IN, 9))),
            schedule(1, 20),
        ),
        stored(
            "scheduled again from Cancel Pending without a day",
            &two(cancel_pending(1, MOVE_OUT, NO_DAY)),
            schedule(1, 4_095),
        ),
        stored(
            "scheduled for the losing retailer",
            &[file(&[by(HOLDER, in_review(1, STANDARD_SWITCH))])],
            schedule(1, 0),
        ),
        stored(
            "a move out scheduled in window",
            &two(in_review(1, MOVE_OUT)),
            schedule(1, 11),
        ),
        stored(
            "a drop scheduled in window",
            &two(in_review(1, MASS_TRANSITION_DROP)),
            schedule(1, 11),
        ),
    ]
}

/// Kind 5.
fn permits() -> Vec<Stored> {
    let held = [file(&[told(in_review(1, MOVE_IN)), in_review(2, MOVE_IN)])];
    vec![
        stored("a permit is required", &held, permit(1)),
        stored("a permit is required of the second order", &held, permit(2)),
    ]
}

/// Kind 6.
fn unexecutables() -> Vec<Stored> {
    let pending = cancel_pending(1, MOVE_IN, 20);
    vec![
        stored(
            "unexecutable from In Review",
            &[file(&[in_review(1, MOVE_OUT)])],
            unexecutable(1),
        ),
        stored(
            "unexecutable from Permit Pending",
            &[file(&[permit_pending(1)])],
            unexecutable(1),
        ),
        stored(
            "unexecutable from Scheduled",
            &[file(&[scheduled(1, MOVE_IN, 20)])],
            unexecutable(1),
        ),
        stored(
            "unexecutable from Cancel Pending, told",
            &[file(&[told(pending)])],
            unexecutable(1),
        ),
        stored(
            "unexecutable, told, without a retailer",
            &[dark_file(&[told(pending)])],
            unexecutable(1),
        ),
        stored(
            "unexecutable, told, by the retailer itself",
            &[file(&[by(HOLDER, told(pending))])],
            unexecutable(1),
        ),
    ]
}

/// Kind 7.
fn reads() -> Vec<Stored> {
    let told_order = |kind| [file(&[told(scheduled(1, kind, 9))])];
    vec![
        stored(
            "a read sets SD, S and R",
            &told_order(STANDARD_SWITCH),
            read(1, 8),
        ),
        stored("a move in's read", &told_order(MOVE_IN), read(1, 12)),
        stored(
            "a drop's read",
            &told_order(MASS_TRANSITION_DROP),
            read(1, 10),
        ),
        stored("a move out's read", &told_order(MOVE_OUT), read(1, 9)),
        stored(
            "a read on the day of S",
            &told_order(SELF_SELECTED_SWITCH),
            read(1, SINCE),
        ),
        stored(
            "a read on the day before S",
            &told_order(MOVE_IN),
            read(1, SINCE - 1),
        ),
        stored(
            "a move out's read before S",
            &told_order(MOVE_OUT),
            read(1, 0),
        ),
        stored(
            "a read on a Permit Pending order",
            &[file(&[told(permit_pending(1))])],
            read(1, 12),
        ),
    ]
}

/// Kind 8.
fn cancels() -> Vec<Stored> {
    vec![
        stored(
            "cancel from In Review",
            &[file(&[in_review(1, MOVE_OUT)])],
            cancel(1),
        ),
        stored(
            "cancel from Permit Pending",
            &[file(&[permit_pending(1)])],
            cancel(1),
        ),
        stored(
            "cancel from Scheduled",
            &[file(&[told(scheduled(1, MOVE_IN, 20))])],
            cancel(1),
        ),
    ]
}

/// Kind 9.
fn replies() -> Vec<Stored> {
    let with_day = [file(&[told(cancel_pending(1, MOVE_IN, 20))])];
    let without = [file(&[told(cancel_pending(
        1,
        SELF_SELECTED_SWITCH,
        NO_DAY,
    ))])];
    let day_0 = [file(&[cancel_pending(1, MOVE_OUT, 0)])];
    let last_day = [file(&[cancel_pending(1, MOVE_IN, 4_095)])];
    vec![
        stored("a cancel is accepted", &with_day, accept(1)),
        stored("a cancel without a day is accepted", &without, accept(1)),
        stored("a cancel is rejected", &with_day, reject(1)),
        stored("a cancel without a day is rejected", &without, reject(1)),
        stored("a cancel for day 0 is rejected", &day_0, reject(1)),
        stored("a cancel for day 4,095 is rejected", &last_day, reject(1)),
    ]
}
