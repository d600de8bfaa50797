//! Date changes (02, change 1): what one does, field by field, and its rows.

use super::*;
use kind::*;

pub fn calls() -> Vec<Stored> {
    [changes(), told_retailers(), refused(), malformed()]
        .into_iter()
        .flatten()
        .collect()
}

/// The order that is changed, with a counter of 5, and one beside it.
fn beside(order: Order) -> [File; 1] {
    [file(&[
        dated(5, order),
        dated(7, told(scheduled(9, STANDARD_SWITCH, 20))),
    ])]
}

fn changes() -> Vec<Stored> {
    let review = |kind| beside(waited(19, in_review(1, kind)));
    let holiday = calendar_with(&[(10, 2)]);
    let other_day = calendar_with(&[(10, 1)]);
    vec![
        stored(
            "a move in's date changes in review",
            &review(MOVE_IN),
            date_change(1, 25, 6),
        ),
        stored(
            "a move out's date changes in review",
            &review(MOVE_OUT),
            date_change(1, 25, 6),
        ),
        stored(
            "a Scheduled move in's date changes",
            &beside(waited(19, scheduled(1, MOVE_IN, 20))),
            date_change(1, 25, 6),
        ),
        stored(
            "a Scheduled move out's date changes",
            &beside(waited(19, scheduled(1, MOVE_OUT, 20))),
            date_change(1, 25, 6),
        ),
        stored(
            "a date change to the first day, with the largest counter",
            &review(MOVE_IN),
            date_change(1, 0, u32::MAX),
        ),
        stored(
            "a date change to the last day, with a counter that is no retailer",
            &review(MOVE_OUT),
            date_change(1, 4_095, 1_000_000_000),
        ),
        stored(
            "the first date change, with the smallest counter",
            &[file(&[in_review(1, MOVE_IN)])],
            date_change(1, 25, 1),
        ),
        stored(
            "a date change 91 days ahead is taken",
            &review(MOVE_IN),
            date_change(1, 101, 6),
        ),
        on_book(
            "a date change 271 days back is taken",
            book(300, &review(MOVE_IN)),
            date_change(1, 29, 6),
        ),
        stored(
            "a date change to a Scheduled move in's day",
            &[file(&[
                in_review(1, MOVE_IN),
                told(scheduled(2, MOVE_IN, 12)),
            ])],
            date_change(1, 12, 1),
        ),
        stored(
            "a date change on a holiday: no day has been waited",
            &review(MOVE_IN),
            date_change(1, 25, 6),
        )
        .with_calendar(holiday.clone()),
        stored(
            "a move out's date change on a holiday",
            &review(MOVE_OUT),
            date_change(1, 25, 6),
        )
        .with_calendar(holiday),
        stored(
            "a date change on a day of kind 1: no day has been waited",
            &review(MOVE_IN),
            date_change(1, 25, 6),
        )
        .with_calendar(other_day),
        stored(
            "a date change of the second order",
            &[file(&[in_review(1, MOVE_IN), in_review(2, MOVE_OUT)])],
            date_change(2, 25, 1),
        ),
        stored(
            "evaluation after a date change",
            &[file(&[
                in_review(1, MOVE_IN),
                told(scheduled(2, STANDARD_SWITCH, 12)),
                scheduled(3, SELF_SELECTED_SWITCH, 12),
            ])],
            date_change(1, 25, 1),
        ),
    ]
}

/// Notice 9 to the premise's retailer.
fn told_retailers() -> Vec<Stored> {
    let far = |kind| told(scheduled(1, kind, 20));
    vec![
        stored(
            "the retailer that was told hears of the new date",
            &[file(&[far(MOVE_IN)])],
            date_change(1, 25, 1),
        ),
        stored(
            "the retailer that was told in review hears of the new date",
            &[file(&[told(in_review(1, MOVE_IN))])],
            date_change(1, 25, 1),
        ),
        stored(
            "the retailer hears of its own order's new date",
            &[file(&[by(HOLDER, far(MOVE_IN))])],
            date_change(1, 25, 1),
        ),
        stored(
            "the retailer that was not told hears nothing of a new date",
            &[file(&[scheduled(1, MOVE_IN, 20)])],
            date_change(1, 25, 1),
        ),
        stored(
            "nobody hears of a new date without a retailer",
            &[dark_file(&[far(MOVE_IN)])],
            date_change(1, 25, 1),
        ),
        stored(
            "the retailer hears nothing of a move out's new date",
            &[file(&[far(MOVE_OUT)])],
            date_change(1, 25, 1),
        ),
        stored(
            "a told move out in review is told no more",
            &[file(&[told(in_review(1, MOVE_OUT))])],
            date_change(1, 25, 1),
        ),
    ]
}

/// Rows 4, 13, 14, 16 and 17, and which comes first.
fn refused() -> Vec<Stored> {
    let one = |order| [file(&[dated(5, order)])];
    let near = |kind, day| one(scheduled(1, kind, day));
    let above = date_change(1, 25, 6);
    let not_above = date_change(1, 25, 5);
    vec![
        stored("row 4: a date change", &[], above),
        stored(
            "row 13: a date change",
            &one(in_review(1, MOVE_IN)),
            date_change(2, 25, 6),
        ),
        stored(
            "row 14: a date change of a standard switch",
            &one(in_review(1, STANDARD_SWITCH)),
            above,
        ),
        stored(
            "row 14: a date change of a self-selected switch",
            &near(SELF_SELECTED_SWITCH, 20),
            above,
        ),
        stored(
            "row 14: a date change of a drop",
            &one(in_review(1, MASS_TRANSITION_DROP)),
            above,
        ),
        stored(
            "row 14: a date change while Permit Pending",
            &one(permit_pending(1)),
            above,
        ),
        stored(
            "row 14: a date change while Cancel Pending",
            &one(cancel_pending(1, MOVE_OUT, 20)),
            above,
        ),
        stored(
            "row 14: a date change once complete",
            &one(complete(1, MOVE_IN, 9)),
            above,
        ),
        stored(
            "row 14: a date change once cancelled",
            &one(cancelled(1, MOVE_OUT)),
            above,
        ),
        stored(
            "row 14: a date change once unexecutable",
            &one(order(1, MOVE_IN, status::UNEXECUTABLE, NO_DAY)),
            above,
        ),
        stored("row 14 before row 16", &one(permit_pending(1)), not_above),
        stored(
            "row 14 before row 17",
            &near(SELF_SELECTED_SWITCH, 12),
            above,
        ),
        stored(
            "row 16: an equal counter",
            &one(in_review(1, MOVE_IN)),
            not_above,
        ),
        stored(
            "row 16: a lower counter",
            &one(in_review(1, MOVE_OUT)),
            date_change(1, 25, 4),
        ),
        stored(
            "row 16: no counter is above the largest",
            &[file(&[dated(u32::MAX, in_review(1, MOVE_IN))])],
            date_change(1, 25, u32::MAX),
        ),
        stored(
            "row 16: counters are compared in all their bytes",
            &[file(&[dated(0x0100_0000, in_review(1, MOVE_IN))])],
            date_change(1, 25, 0x00ff_ffff),
        ),
        stored("row 16 before row 17", &near(MOVE_IN, 12), not_above),
        stored(
            "row 17: two business days before",
            &near(MOVE_IN, 12),
            above,
        ),
        stored("row 17: a move out", &near(MOVE_OUT, 12), above),
        stored("row 17: today", &near(MOVE_IN, 10), above),
        stored("row 17: a day gone by", &near(MOVE_OUT, 3), above),
        stored("no row 17 out of window", &near(MOVE_OUT, 13), above),
        stored(
            "row 17: days that are no business days",
            &near(MOVE_IN, 14),
            above,
        )
        .with_calendar(calendar_with(&[(11, 1), (12, 2)])),
        stored(
            "no row 17 in review without a calendar",
            &one(in_review(1, MOVE_IN)),
            above,
        )
        .with_calendar(vec![]),
    ]
}

/// Row 3.
fn malformed() -> Vec<Stored> {
    let held = [file(&[in_review(1, MOVE_IN)])];
    let with = |name, place: usize, byte: u8| {
        let mut record = date_change(1, 25, 6);
        record[place] = byte;
        stored(name, &held, record)
    };
    vec![
        with("row 3: a date change with counter 0", 16, 0),
        with("row 3: a date change with a detail", 1, 1),
        with("row 3: a date change to day 4,121", 3, 16),
        with("row 3: a date change without a reference", 4, 0),
        with("row 3: a date change without a premise", 8, 0),
        with("row 3: a date change with byte 20", 20, 1),
        with("row 3: a date change with byte 23", 23, 1),
    ]
}
