//! Service agreements (02, change 3): record kind 12, whom a move out leaves the
//! premise to, and who is told of it.

use super::*;
use kind::*;

pub fn calls() -> Vec<Stored> {
    [
        records(),
        refused(),
        malformed(),
        told_of_move_outs(),
        told_later(),
        unexecutables(),
        reads(),
        beside_other_records(),
    ]
    .into_iter()
    .flatten()
    .collect()
}

/// Kind 12.
fn records() -> Vec<Stored> {
    let none = [file(&[])];
    let agreed = [agreed_file(&[in_review(1, MOVE_OUT)])];
    let dark = [File {
        agreement: LANDLORDS,
        ..dark_file(&[])
    }];
    let silent = [
        told(scheduled(1, STANDARD_SWITCH, 12)),
        scheduled(2, SELF_SELECTED_SWITCH, 12),
        scheduled(3, MOVE_OUT, 11),
    ];
    vec![
        stored("the first agreement", &none, establish(LANDLORDS)),
        stored("the same agreement again", &agreed, establish(LANDLORDS)),
        stored("an agreement in another's place", &agreed, establish(901)),
        stored("an agreement of the retailer R", &agreed, establish(HOLDER)),
        stored("an agreement in a dark flat", &dark, establish(901)),
        stored("the smallest retailer's agreement", &none, establish(1)),
        stored(
            "the largest retailer's agreement",
            &agreed,
            establish(9_999_999_999_999),
        ),
        stored("an agreement is deleted", &agreed, delete(LANDLORDS)),
        stored(
            "a dark flat's agreement is deleted",
            &dark,
            delete(LANDLORDS),
        ),
        stored(
            "no evaluation after an agreement is established",
            &[file(&silent)],
            establish(LANDLORDS),
        ),
        stored(
            "no evaluation after an agreement is replaced",
            &[agreed_file(&silent)],
            establish(901),
        ),
        stored(
            "no evaluation after an agreement is deleted",
            &[agreed_file(&silent)],
            delete(LANDLORDS),
        ),
        stored(
            "an agreement of the record's file only",
            &[
                File {
                    premise: 5,
                    ..agreed_file(&[])
                },
                file(&[]),
                File {
                    premise: 9,
                    ..agreed_file(&[])
                },
            ],
            establish(901),
        ),
    ]
}

/// Rows 4 and 18.
fn refused() -> Vec<Stored> {
    let agreed = [agreed_file(&[scheduled(1, MOVE_OUT, 11)])];
    let elsewhere = [File {
        premise: 8,
        ..agreed_file(&[])
    }];
    vec![
        stored(
            "row 4: an agreement is established",
            &[],
            establish(LANDLORDS),
        ),
        stored("row 4 before row 18", &elsewhere, delete(LANDLORDS)),
        stored("row 18: no agreement", &[file(&[])], delete(LANDLORDS)),
        stored("row 18: another agreement", &agreed, delete(901)),
        stored("row 18: the retailer R is named", &agreed, delete(HOLDER)),
        stored(
            "row 18: an order's retailer is named",
            &agreed,
            delete(SUBMITTER),
        ),
        stored(
            "row 18: retailers whose numbers end alike",
            &agreed,
            delete(LANDLORDS + (1 << 16)),
        ),
    ]
}

/// Row 3.
fn malformed() -> Vec<Stored> {
    let agreed = [agreed_file(&[in_review(1, MOVE_OUT)])];
    let with = |name, record: [u8; 24], place: usize, byte: u8| {
        let mut record = record;
        record[place] = byte;
        stored(name, &agreed, record)
    };
    vec![
        with("row 3: an agreement of detail 0", establish(901), 1, 0),
        with("row 3: an agreement of detail 3", establish(901), 1, 3),
        with("row 3: an agreement with a day", establish(901), 2, 1),
        with("row 3: an agreement with a reference", establish(901), 4, 1),
        with(
            "row 3: an agreement without a premise",
            establish(901),
            8,
            0,
        ),
        with("row 3: an agreement with byte 23", establish(901), 23, 1),
        with("row 3: a deletion with a day", delete(LANDLORDS), 3, 1),
        with(
            "row 3: a deletion with a reference",
            delete(LANDLORDS),
            7,
            1,
        ),
        stored("row 3: an agreement of retailer 0", &agreed, establish(0)),
        stored("row 3: a deletion of retailer 0", &[file(&[])], delete(0)),
        stored(
            "row 3: an agreement of retailer 10,000,000,000,000",
            &agreed,
            establish(10_000_000_000_000),
        ),
    ]
}

/// Pass 4, at a mark for day 11.
fn told_of_move_outs() -> Vec<Stored> {
    let marked = |name, orders: &[Order]| stored(name, &[agreed_file(orders)], mark(11));
    let with_head = |name, retailer, agreement| {
        let held = File {
            retailer,
            agreement,
            ..file(&[scheduled(1, MOVE_OUT, 12)])
        };
        stored(name, &[held], mark(11))
    };
    vec![
        marked(
            "the agreement's holder is told of a move out",
            &[requested(20, scheduled(1, MOVE_OUT, 12))],
        ),
        marked(
            "the agreement's holder is not told out of window",
            &[scheduled(1, MOVE_OUT, 14)],
        ),
        marked(
            "the agreement's holder is told once",
            &[told(scheduled(1, MOVE_OUT, 12))],
        ),
        marked(
            "the agreement's holder is not told of a Cancel Pending move out",
            &[cancel_pending(1, MOVE_OUT, 12)],
        ),
        marked(
            "the agreement's holder is not told of a complete move out",
            &[complete(1, MOVE_OUT, 12)],
        ),
        marked(
            "the agreement's holder is told of move outs only",
            &[
                scheduled(1, MOVE_IN, 12),
                scheduled(2, STANDARD_SWITCH, 13),
                scheduled(3, MASS_TRANSITION_DROP, 12),
            ],
        ),
        marked(
            "move ins and move outs are told of in their order",
            &[
                scheduled(1, MOVE_IN, 12),
                scheduled(2, MOVE_OUT, 12),
                by(ANOTHER, scheduled(3, MOVE_IN, 12)),
                scheduled(4, MOVE_OUT, 13),
            ],
        ),
        marked(
            "the agreement's holder is told of its own move out",
            &[by(LANDLORDS, scheduled(1, MOVE_OUT, 12))],
        ),
        with_head(
            "the agreement's holder R is told of a move out",
            HOLDER,
            HOLDER,
        ),
        with_head(
            "the agreement's holder is told in a dark flat",
            0,
            LANDLORDS,
        ),
        with_head("a move out stays untold without an agreement", HOLDER, 0),
        with_head("a move out stays untold in a dark flat", 0, 0),
    ]
}

/// An agreement that came after the scheduling: the next evaluation tells of it.
fn told_later() -> Vec<Stored> {
    let beside = |order| [agreed_file(&[scheduled(2, MOVE_OUT, 12), order])];
    let review = || beside(in_review(1, MOVE_IN));
    vec![
        stored(
            "a new order tells of a silent move out",
            &review(),
            new_order(3, MOVE_IN, 20),
        ),
        stored(
            "a scheduling tells of a silent move out",
            &review(),
            schedule(1, 20),
        ),
        stored("a permit tells of a silent move out", &review(), permit(1)),
        stored(
            "a failure tells of a silent move out",
            &review(),
            unexecutable(1),
        ),
        stored("a cancel tells of a silent move out", &review(), cancel(1)),
        stored(
            "a date change tells of a silent move out",
            &review(),
            date_change(1, 25, 1),
        ),
        stored(
            "a read tells of a silent move out",
            &beside(told(scheduled(1, MOVE_IN, 12))),
            read(1, 12),
        ),
        stored(
            "a permit's read tells of a silent move out",
            &beside(permit_pending(1)),
            read(1, 12),
        ),
        stored(
            "an accepted cancel tells of a silent move out",
            &beside(cancel_pending(1, MOVE_IN, 20)),
            accept(1),
        ),
        stored(
            "a rejected cancel tells of a silent move out",
            &beside(cancel_pending(1, MOVE_IN, 20)),
            reject(1),
        ),
    ]
}

/// The second notice 7.
fn unexecutables() -> Vec<Stored> {
    let ended = |name, retailer, agreement, order| {
        let held = File {
            retailer,
            agreement,
            ..file(&[order])
        };
        stored(name, &[held], unexecutable(1))
    };
    let out = told(scheduled(1, MOVE_OUT, 20));
    let into = told(scheduled(1, MOVE_IN, 20));
    vec![
        ended(
            "a told move out's failure, to the agreement's holder",
            HOLDER,
            LANDLORDS,
            out,
        ),
        ended(
            "a told move out's failure in a dark flat",
            0,
            LANDLORDS,
            out,
        ),
        ended(
            "a told move out's failure without an agreement",
            HOLDER,
            0,
            out,
        ),
        ended(
            "a move out's failure, not told",
            HOLDER,
            LANDLORDS,
            scheduled(1, MOVE_OUT, 20),
        ),
        ended(
            "a told move out's failure, of the agreement's holder itself",
            HOLDER,
            LANDLORDS,
            by(LANDLORDS, out),
        ),
        ended(
            "a told move out's failure in review",
            HOLDER,
            LANDLORDS,
            told(in_review(1, MOVE_OUT)),
        ),
        ended(
            "a told move in's failure, to R in spite of the agreement",
            HOLDER,
            LANDLORDS,
            into,
        ),
        ended(
            "a told move in's failure in a dark flat with an agreement",
            0,
            LANDLORDS,
            into,
        ),
        ended(
            "a told drop's failure, to R in spite of the agreement",
            HOLDER,
            LANDLORDS,
            told(scheduled(1, MASS_TRANSITION_DROP, 20)),
        ),
    ]
}

/// Kind 7.
fn reads() -> Vec<Stored> {
    let agreed = |kind| [agreed_file(&[told(scheduled(1, kind, 9))])];
    vec![
        stored(
            "a move out's read leaves the flat to the agreement's holder",
            &agreed(MOVE_OUT),
            read(1, 9),
        ),
        stored(
            "a move out's read on the day of S, with an agreement",
            &agreed(MOVE_OUT),
            read(1, SINCE),
        ),
        stored(
            "a move out's read before S, with an agreement",
            &agreed(MOVE_OUT),
            read(1, SINCE - 1),
        ),
        stored(
            "a move in's read, with an agreement",
            &agreed(MOVE_IN),
            read(1, 9),
        ),
        stored(
            "a switch's read, with an agreement",
            &agreed(STANDARD_SWITCH),
            read(1, 9),
        ),
        stored(
            "a drop's read, with an agreement",
            &agreed(MASS_TRANSITION_DROP),
            read(1, 9),
        ),
        stored(
            "a permit's read, with an agreement",
            &[agreed_file(&[permit_pending(1)])],
            read(1, 9),
        ),
    ]
}

/// What else becomes of a file with an agreement.
fn beside_other_records() -> Vec<Stored> {
    let far = told(scheduled(1, MOVE_OUT, 20));
    vec![
        stored(
            "a told move out's date change: the agreement's holder hears nothing",
            &[agreed_file(&[far])],
            date_change(1, 25, 1),
        ),
        stored(
            "a told move in's date change, with an agreement",
            &[agreed_file(&[told(scheduled(1, MOVE_IN, 20))])],
            date_change(1, 25, 1),
        ),
        stored("retire with an agreement", &[agreed_file(&[])], retire()),
        stored(
            "create beside a file with an agreement",
            &[File {
                premise: 5,
                ..agreed_file(&[])
            }],
            create(4, HOLDER),
        ),
    ]
}
