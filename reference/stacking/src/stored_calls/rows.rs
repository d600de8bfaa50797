//! The rows of the table, each at its limit, and which comes first.

use super::*;
use kind::*;

pub fn calls() -> Vec<Stored> {
    [
        first_rows(),
        new_orders(),
        days_ahead(),
        first_in(),
        shares(),
        on_orders(),
        marks(),
    ]
    .into_iter()
    .flatten()
    .collect()
}

/// Rows 1 to 7.
fn first_rows() -> Vec<Stored> {
    let damaged = || book(4_096, &[]);
    let marked = mark(11).to_vec();
    let mut kind_13 = marked.clone();
    kind_13[0] = 13;
    let open = |order| [file(&[cancelled(9, MOVE_IN), order])];
    let full: Vec<File> = (1..=64).map(|place| File::new(place * 10, 0, 0)).collect();
    vec![
        stored("row 1: a buffer of 24,575 bytes", &[], mark(11)).with_room(24_575),
        stored(
            "a buffer of 24,577 bytes",
            &[file(&[in_review(1, MOVE_OUT)])],
            mark(11),
        )
        .with_room(24_577),
        on_book("row 1 before row 2", damaged(), mark(11)).with_room(0),
        stored("row 1 before row 3", &[], [0; 24]).with_room(0),
        on_book("row 2 before row 3", damaged(), [0; 24]),
        stored("row 3: 23 bytes", &[], mark(11)).with_record(marked[..23].to_vec()),
        stored("row 3: 25 bytes", &[], mark(11)).with_record([marked, vec![0]].concat()),
        stored("row 3: no byte", &[], mark(11)).with_record(vec![]),
        stored("row 3: kind 13", &[], mark(11)).with_record(kind_13),
        stored("row 4: retire", &[], retire()),
        stored("row 4: a new order", &[], new_order(1, MOVE_IN, 11)),
        stored("row 4: a cancel", &[], cancel(1)),
        stored("row 5", &[file(&[])], create(4, HOLDER)),
        stored("row 5 before row 6", &full, full_create(640)),
        stored("row 6", &full, full_create(641)),
        stored("no row 6 with 63 files", &full[1..], full_create(5)),
        stored("row 7: In Review", &open(in_review(1, MOVE_IN)), retire()),
        stored("row 7: Permit Pending", &open(permit_pending(1)), retire()),
        stored(
            "row 7: Scheduled",
            &open(scheduled(1, MOVE_OUT, 8)),
            retire(),
        ),
        stored(
            "row 7: Cancel Pending",
            &open(cancel_pending(1, MOVE_IN, NO_DAY)),
            retire(),
        ),
    ]
}

fn full_create(premise: u64) -> [u8; 24] {
    Record::OfPremise {
        premise,
        entry: Entry::Create(NewFile {
            since: 4,
            retailer: HOLDER,
            window: 0,
        }),
    }
    .to_bytes()
}

/// Rows 8, 11 and 12, and what comes before what.
fn new_orders() -> Vec<Stored> {
    let eight = |first: Order| {
        let mut orders: Vec<Order> = (1..=8).map(|place| in_review(place, MOVE_OUT)).collect();
        orders[0] = first;
        [file(&orders)]
    };
    let open = eight(told(scheduled(1, MOVE_IN, 12)));
    let closed = eight(cancelled(1, MOVE_IN));
    let seven = [file(&open[0].orders[1..])];
    let no_switches = vec![2; 30];
    vec![
        stored(
            "row 8: an open order's reference",
            &seven,
            new_order(8, MOVE_IN, 12),
        ),
        stored(
            "row 8: a closed order's reference",
            &closed,
            new_order(1, MOVE_IN, 12),
        ),
        stored("row 8 before row 9", &closed, new_order(1, MOVE_IN, 400)),
        stored(
            "row 8 before row 10",
            &closed,
            new_order(1, STANDARD_SWITCH, 0),
        )
        .with_calendar(no_switches.clone()),
        stored("row 9 before row 12", &open, new_order(9, MOVE_IN, 400)),
        stored(
            "row 10 before row 12",
            &open,
            new_order(9, STANDARD_SWITCH, 0),
        )
        .with_calendar(no_switches),
        stored("row 11 before row 12", &open, new_order(9, MOVE_IN, 12)),
        stored("row 12", &open, new_order(9, MOVE_IN, 13)),
        stored(
            "no row 12 with 7 open orders",
            &seven,
            new_order(9, MOVE_IN, 13),
        ),
    ]
}

/// Row 9, on day 300.
fn days_ahead() -> Vec<Stored> {
    let asked = |name, kind, day| on_book(name, book(300, &[file(&[])]), new_order(1, kind, day));
    let far = vec![2; 30];
    vec![
        asked("90 days ahead", MOVE_IN, 390),
        asked("row 9: 91 days ahead", MOVE_IN, 391),
        asked("270 days back", MOVE_IN, 30),
        asked("row 9: 271 days back", MOVE_IN, 29),
        asked("row 9: a move out 91 days ahead", MOVE_OUT, 391),
        asked("row 9: a move out 271 days back", MOVE_OUT, 29),
        asked(
            "row 9: a self-selected switch 91 days ahead",
            SELF_SELECTED_SWITCH,
            391,
        ),
        asked("a drop 91 days ahead", MASS_TRANSITION_DROP, 391),
        asked("a drop 271 days back", MASS_TRANSITION_DROP, 29),
        stored(
            "a standard switch 91 days ahead",
            &[file(&[])],
            new_order(1, STANDARD_SWITCH, 0),
        )
        .with_calendar([far, vec![2; 71], vec![0]].concat()),
    ]
}

/// Row 11 beyond table 11.1, and the table's first conditions.
fn first_in() -> Vec<Stored> {
    let held = |order| [file(&[cancelled(9, MOVE_IN), told(order)])];
    let switch = new_order(1, STANDARD_SWITCH, 0);
    vec![
        stored(
            "row 11: a move in for a move in's day",
            &held(scheduled(2, MOVE_IN, 12)),
            new_order(1, MOVE_IN, 12),
        ),
        stored(
            "a move in for the day before a move in's",
            &held(scheduled(2, MOVE_IN, 12)),
            new_order(1, MOVE_IN, 11),
        ),
        stored(
            "a move in for a Cancel Pending move in's day",
            &held(cancel_pending(2, MOVE_IN, 12)),
            new_order(1, MOVE_IN, 12),
        ),
        stored(
            "a move in for a complete move in's day",
            &held(complete(2, MOVE_IN, 12)),
            new_order(1, MOVE_IN, 12),
        ),
        stored(
            "a move in for a move in's requested day",
            &held(requested(12, scheduled(2, MOVE_IN, 13))),
            new_order(1, MOVE_IN, 12),
        ),
        stored(
            "row 11: a standard switch on a standard switch's day",
            &held(scheduled(2, STANDARD_SWITCH, 10)),
            switch,
        ),
        stored(
            "row 11: a standard switch before a standard switch",
            &held(scheduled(2, STANDARD_SWITCH, 20)),
            switch,
        ),
        stored(
            "a standard switch after a standard switch",
            &held(scheduled(2, STANDARD_SWITCH, 9)),
            switch,
        ),
        stored(
            "a standard switch before a self-selected one",
            &held(scheduled(2, SELF_SELECTED_SWITCH, 20)),
            switch,
        ),
        stored(
            "a standard switch before a Cancel Pending one",
            &held(cancel_pending(2, STANDARD_SWITCH, 20)),
            switch,
        ),
        stored(
            "a self-selected switch before a standard one",
            &held(scheduled(2, STANDARD_SWITCH, 20)),
            new_order(1, SELF_SELECTED_SWITCH, 12),
        ),
        stored(
            "a drop is always first in",
            &held(scheduled(2, STANDARD_SWITCH, 20)),
            new_order(1, MASS_TRANSITION_DROP, 20),
        ),
    ]
}

/// Row 26, about orders of the retailer that the new order has.
fn shares() -> Vec<Stored> {
    let of = |retailer, orders: &[Order]| -> Vec<Order> {
        orders.iter().map(|&order| by(retailer, order)).collect()
    };
    let each_open = of(
        ANOTHER,
        &[
            in_review(1, MOVE_OUT),
            permit_pending(2),
            told(scheduled(3, MOVE_IN, 12)),
            cancel_pending(4, SELF_SELECTED_SWITCH, NO_DAY),
        ],
    );
    let review = |references: std::ops::RangeInclusive<u32>, kind, retailer| -> Vec<Order> {
        references
            .map(|reference| by(retailer, in_review(reference, kind)))
            .collect()
    };
    let closed = of(
        ANOTHER,
        &[
            complete(5, MOVE_IN, 8),
            cancelled(6, MOVE_OUT),
            order(7, MOVE_IN, status::UNEXECUTABLE, NO_DAY),
        ],
    );
    let four = [file(&each_open)];
    let drops = [file(&review(1..=4, MASS_TRANSITION_DROP, ANOTHER))];
    let five = [file(&review(1..=5, MOVE_OUT, ANOTHER))];
    let three_and_closed = [file(&[&closed[..], &each_open[1..]].concat())];
    let others = [file(
        &[
            review(5..=8, MOVE_OUT, SUBMITTER),
            review(1..=3, MOVE_OUT, ANOTHER),
        ]
        .concat(),
    )];
    let ends_alike = [file(
        &(1..=4)
            .map(|place| {
                by(
                    ANOTHER + (u64::from(place) << 16),
                    in_review(place, MOVE_OUT),
                )
            })
            .collect::<Vec<Order>>(),
    )];
    let elsewhere = [
        File {
            premise: 6,
            ..four[0]
        },
        file(&[]),
    ];
    // the last four are the retailer's, and the first is Scheduled
    let mut eight = review(5..=8, MOVE_OUT, SUBMITTER);
    eight[0] = told(scheduled(5, MOVE_IN, 12));
    eight.extend(review(1..=4, MOVE_OUT, ANOTHER));
    let mut three_of_eight = eight.clone();
    three_of_eight[4].retailer = HOLDER;
    let holders = [file(&review(1..=4, MOVE_OUT, HOLDER))];
    let eight = [file(&eight)];
    let no_switches = vec![2; 30];
    vec![
        stored(
            "row 26: an open order in each open status",
            &four,
            new_order(9, MOVE_IN, 13),
        ),
        stored("row 26: a new move out", &drops, new_order(9, MOVE_OUT, 13)),
        stored(
            "row 26: a new standard switch",
            &drops,
            new_order(9, STANDARD_SWITCH, 0),
        ),
        stored(
            "row 26: a new self-selected switch",
            &drops,
            new_order(9, SELF_SELECTED_SWITCH, 13),
        ),
        stored(
            "row 26: a new drop",
            &four,
            new_order(9, MASS_TRANSITION_DROP, 13),
        ),
        stored(
            "row 26: five open orders, as no tape leads to",
            &five,
            new_order(9, MOVE_IN, 13),
        ),
        stored(
            "no row 26 with three open orders, however many are closed",
            &three_and_closed,
            new_order(9, MOVE_IN, 13),
        ),
        stored(
            "no row 26 by other retailers' orders",
            &others,
            new_order(9, MOVE_IN, 13),
        ),
        stored(
            "no row 26 by orders of the premise's retailer",
            &holders,
            new_order(9, MOVE_IN, 13),
        ),
        stored(
            "no row 26 by retailers whose numbers end alike",
            &ends_alike,
            new_order(9, MOVE_IN, 13),
        ),
        stored(
            "no row 26 by orders at another premise",
            &elsewhere,
            new_order(9, MOVE_IN, 13),
        ),
        stored("row 8 before row 26", &eight, new_order(4, MOVE_IN, 13)),
        stored("row 9 before row 26", &eight, new_order(9, MOVE_IN, 400)),
        stored(
            "row 10 before row 26",
            &eight,
            new_order(9, STANDARD_SWITCH, 0),
        )
        .with_calendar(no_switches),
        stored("row 11 before row 26", &eight, new_order(9, MOVE_IN, 12)),
        stored("row 26 before row 12", &eight, new_order(9, MOVE_IN, 13)),
        stored(
            "row 12: three of eight open orders are the retailer's",
            &[file(&three_of_eight)],
            new_order(9, MOVE_IN, 13),
        ),
    ]
}

/// Rows 13 and 14.
fn on_orders() -> Vec<Stored> {
    let one = |order| [file(&[in_review(9, MOVE_OUT), told(order)])];
    let by_another = |reference| cancel_by(ANOTHER, reference);
    vec![
        stored(
            "row 13: no such reference",
            &one(in_review(1, MOVE_IN)),
            schedule(2, 12),
        ),
        stored(
            "row 13: a cancel by another retailer",
            &one(in_review(1, MOVE_IN)),
            by_another(1),
        ),
        stored(
            "row 13: a cancel by the premise's retailer",
            &one(in_review(1, MOVE_IN)),
            cancel_by(HOLDER, 1),
        ),
        stored(
            "row 13 before row 14",
            &one(complete(1, MOVE_IN, 9)),
            by_another(1),
        ),
        stored(
            "row 14: a closed order's reference",
            &one(cancelled(1, MOVE_IN)),
            unexecutable(1),
        ),
        stored(
            "row 14: Scheduled is not scheduled again",
            &one(scheduled(1, MOVE_IN, 20)),
            schedule(1, 12),
        ),
        stored(
            "row 14: a permit for a switch",
            &one(in_review(1, STANDARD_SWITCH)),
            permit(1),
        ),
        stored(
            "row 14: a permit for a Permit Pending order",
            &one(permit_pending(1)),
            permit(1),
        ),
        stored(
            "row 14: a permit for a Scheduled order",
            &one(scheduled(1, MOVE_IN, 20)),
            permit(1),
        ),
        stored(
            "row 14: unexecutable once complete",
            &one(complete(1, MOVE_IN, 9)),
            unexecutable(1),
        ),
        stored(
            "row 14: a read in review",
            &one(in_review(1, MOVE_IN)),
            read(1, 9),
        ),
        stored(
            "row 14: a read while Cancel Pending",
            &one(cancel_pending(1, MOVE_IN, 9)),
            read(1, 9),
        ),
        stored(
            "row 14: a cancel while Cancel Pending",
            &one(cancel_pending(1, MOVE_IN, 9)),
            cancel(1),
        ),
        stored(
            "row 14: a reply while Scheduled",
            &one(scheduled(1, MOVE_IN, 20)),
            accept(1),
        ),
        stored(
            "row 14: a rejection in review",
            &one(in_review(1, MOVE_IN)),
            reject(1),
        ),
    ]
}

/// Row 15.
fn marks() -> Vec<Stored> {
    vec![
        stored("row 15: today again", &[], mark(10)),
        stored("row 15: the day after tomorrow", &[], mark(12)),
        on_book("row 15: no day follows the last", book(4_095, &[]), mark(0)),
        on_book("the last day comes", book(4_094, &[]), mark(4_095)),
    ]
}
