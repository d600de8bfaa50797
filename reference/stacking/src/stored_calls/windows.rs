//! A window per premise (02, change 2): what a create gives, and everything that
//! goes by the file's width.

use super::*;
use kind::*;

pub fn calls() -> Vec<Stored> {
    [creates(), told_by(), passes(), dates(), left()]
        .into_iter()
        .flatten()
        .collect()
}

/// The premise's file with this width and these orders.
fn wide(width: u8, orders: &[Order]) -> File {
    File {
        window: BusinessDays(width),
        ..file(orders)
    }
}

/// Kind 1.
fn creates() -> Vec<Stored> {
    let made = |name, window| stored(name, &[], create_with(4, HOLDER, window));
    vec![
        made("a create without a window: two business days", 0),
        made("a create with a window of 1", 1),
        made("a create with a window of 2", 2),
        made("a create with a window of 3", 3),
        made("a create with a window of 4", 4),
        made("a create with a window of 5", 5),
        made("row 3: a create with a window of 6", 6),
        made("row 3: a create with a window of 255", 255),
        stored(
            "row 5: a create with another window",
            &[wide(1, &[])],
            create_with(4, HOLDER, 5),
        ),
    ]
}

/// Pass 4 after a scheduling on day 10, at the last day of each width and after it.
fn told_by() -> Vec<Stored> {
    let told_for = |name, width, day| {
        stored(
            name,
            &[wide(width, &[in_review(1, MOVE_IN)])],
            schedule(1, day),
        )
    };
    let out_for = |name, width, day| {
        let held = File {
            agreement: LANDLORDS,
            ..wide(width, &[in_review(1, MOVE_OUT)])
        };
        stored(name, &[held], schedule(1, day))
    };
    vec![
        told_for("a window of 1: one business day before", 1, 11),
        told_for("a window of 1: two business days before", 1, 12),
        told_for("a window of 3: three business days before", 3, 13),
        told_for("a window of 3: four business days before", 3, 14),
        told_for("a window of 4: four business days before", 4, 14),
        told_for("a window of 4: five business days before", 4, 15),
        told_for("a window of 5: five business days before", 5, 15),
        told_for("a window of 5: six business days before", 5, 16),
        told_for("a window of 5: a day gone by", 5, 4),
        told_for("a window of 5: other days between do not count", 5, 17)
            .with_calendar(calendar_with(&[(11, 1), (12, 2)])),
        out_for(
            "a window of 5: a move out, five business days before",
            5,
            15,
        ),
        out_for("a window of 5: a move out, six business days before", 5, 16),
        out_for("a window of 1: a move out, one business day before", 1, 11),
        out_for("a window of 1: a move out, two business days before", 1, 12),
    ]
}

/// Passes 1 and 2 at a mark for day 11, and pass 3, which asks for no window.
fn passes() -> Vec<Stored> {
    let marked = |name, width, orders: &[Order]| stored(name, &[wide(width, orders)], mark(11));
    let switches = |day| {
        [
            told(scheduled(1, STANDARD_SWITCH, day)),
            told(scheduled(2, SELF_SELECTED_SWITCH, day)),
        ]
    };
    let drop_and_switch = |day| {
        [
            told(scheduled(1, MASS_TRANSITION_DROP, day)),
            told(scheduled(2, STANDARD_SWITCH, day)),
        ]
    };
    let overtaken = [
        requested(9, permit_pending(1)),
        requested(10, told(scheduled(2, MOVE_IN, 11))),
    ];
    let untold = [scheduled(1, MOVE_IN, 14)];
    let street: Vec<File> = (1..=5)
        .map(|width| File {
            premise: u64::from(width),
            ..wide(width, &untold)
        })
        .collect();
    vec![
        marked("a window of 5: two switches in it", 5, &switches(16)),
        marked("a window of 5: two switches out of it", 5, &switches(17)),
        marked("a window of 1: two switches in it", 1, &switches(12)),
        marked("a window of 1: two switches out of it", 1, &switches(13)),
        marked(
            "a window of 5: a drop beside a switch in it",
            5,
            &drop_and_switch(16),
        ),
        marked(
            "a window of 5: a drop beside a switch out of it",
            5,
            &drop_and_switch(17),
        ),
        marked(
            "a window of 1: a drop beside a switch in it",
            1,
            &drop_and_switch(12),
        ),
        marked(
            "a window of 1: a drop beside a switch out of it",
            1,
            &drop_and_switch(13),
        ),
        marked("a window of 1: a permit is overtaken", 1, &overtaken),
        stored("files of five widths, in rising P", &street, mark(11)),
        stored("files of five widths without a calendar", &street, mark(11)).with_calendar(vec![]),
    ]
}

/// Row 17.
fn dates() -> Vec<Stored> {
    let moved = |name, width, day| {
        stored(
            name,
            &[wide(width, &[told(scheduled(1, MOVE_IN, day))])],
            date_change(1, 25, 1),
        )
    };
    vec![
        moved("row 17: a window of 1", 1, 11),
        moved("no row 17 out of a window of 1", 1, 12),
        moved("row 17: a window of 3", 3, 13),
        moved("no row 17 out of a window of 3", 3, 14),
        moved("row 17: a window of 4", 4, 14),
        moved("no row 17 out of a window of 4", 4, 15),
        moved("row 17: a window of 5", 5, 15),
        moved("no row 17 out of a window of 5", 5, 16),
    ]
}

/// What leaves the width.
fn left() -> Vec<Stored> {
    let held = |order| [wide(4, &[order])];
    vec![
        stored(
            "a read leaves the window",
            &held(told(scheduled(1, MOVE_IN, 9))),
            read(1, 9),
        ),
        stored(
            "a move out's read leaves the window",
            &held(told(scheduled(1, MOVE_OUT, 9))),
            read(1, 9),
        ),
        stored(
            "an agreement leaves the window",
            &held(in_review(1, MOVE_IN)),
            establish(LANDLORDS),
        ),
        stored(
            "a new order leaves the window",
            &held(in_review(1, MOVE_IN)),
            new_order(2, MOVE_OUT, 12),
        ),
        stored("a create leaves another file's window", &[wide(4, &[])], {
            let mut record = create_with(4, HOLDER, 1);
            record[8] = 9;
            record
        }),
    ]
}
