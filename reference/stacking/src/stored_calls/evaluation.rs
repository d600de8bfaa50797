//! The evaluation. Its passes show at a mark for day 11 on a book of day 10, and
//! it follows every accepted record of kinds 3 to 9 (`date_changes` has kind 11).

use super::*;
use kind::*;

pub fn calls() -> Vec<Stored> {
    [
        after_records(),
        same_day_switches(),
        drops(),
        overtaken_permits(),
        losing_retailer(),
        passes_in_order(),
    ]
    .into_iter()
    .flatten()
    .collect()
}

fn marked(name: &'static str, orders: &[Order]) -> Stored {
    stored(name, &[file(orders)], mark(11))
}

/// A second switch of the same day, which only an evaluation takes away.
fn after_records() -> Vec<Stored> {
    let beside = |order| {
        let switches = [
            told(scheduled(2, STANDARD_SWITCH, 12)),
            scheduled(3, SELF_SELECTED_SWITCH, 12),
        ];
        [file(&[order, switches[0], switches[1]])]
    };
    let read_order = told(scheduled(1, MOVE_IN, 9));
    vec![
        stored(
            "no evaluation after create",
            &beside(in_review(1, MOVE_IN)),
            other_create(),
        ),
        stored(
            "evaluation after a new order",
            &beside(cancelled(1, MOVE_IN)),
            new_order(4, MOVE_IN, 15),
        ),
        stored(
            "evaluation after scheduled",
            &beside(in_review(1, MOVE_IN)),
            schedule(1, 20),
        ),
        stored(
            "evaluation after a permit",
            &beside(in_review(1, MOVE_IN)),
            permit(1),
        ),
        stored(
            "evaluation after unexecutable",
            &beside(in_review(1, MOVE_IN)),
            unexecutable(1),
        ),
        stored("evaluation after a read", &beside(read_order), read(1, 9)),
        stored(
            "evaluation after a permit's read",
            &beside(permit_pending(1)),
            read(1, 9),
        ),
        stored(
            "evaluation after a cancel",
            &beside(in_review(1, MOVE_IN)),
            cancel(1),
        ),
        stored(
            "evaluation after an accepted cancel",
            &beside(cancel_pending(1, MOVE_IN, 20)),
            accept(1),
        ),
        stored(
            "evaluation after a rejected cancel",
            &beside(cancel_pending(1, MOVE_IN, 20)),
            reject(1),
        ),
        stored(
            "no evaluation after a refusal",
            &beside(in_review(1, MOVE_IN)),
            read(1, 9),
        ),
        stored(
            "evaluation of the record's file only",
            &[other_file(), beside(permit_pending(1))[0]],
            read(1, 9),
        ),
        stored(
            "a record's evaluation is for today",
            &beside_on(13),
            permit(1),
        ),
    ]
}

fn beside_on(day: u16) -> [File; 1] {
    [file(&[
        in_review(1, MOVE_IN),
        scheduled(2, STANDARD_SWITCH, day),
    ])]
}

fn other_file() -> File {
    File {
        premise: 5,
        ..file(&[scheduled(1, MOVE_IN, 11)])
    }
}

fn other_create() -> [u8; 24] {
    Record::OfPremise {
        premise: 8,
        entry: Entry::Create(NewFile {
            since: 0,
            retailer: 0,
            window: 0,
        }),
    }
    .to_bytes()
}

/// Pass 1.
fn same_day_switches() -> Vec<Stored> {
    let switch = |reference, day| told(scheduled(reference, STANDARD_SWITCH, day));
    let chosen = |reference, day| told(scheduled(reference, SELF_SELECTED_SWITCH, day));
    let pending = |reference, day| told(cancel_pending(reference, SELF_SELECTED_SWITCH, day));
    vec![
        marked(
            "the second of two switches is cancelled",
            &[switch(1, 12), chosen(2, 12)],
        ),
        marked(
            "the Scheduled one is kept",
            &[pending(1, 12), switch(2, 12), chosen(3, 12)],
        ),
        marked(
            "the oldest is kept if none is Scheduled",
            &[pending(1, 12), pending(2, 12)],
        ),
        marked(
            "a Cancel Pending one goes",
            &[switch(1, 12), pending(2, 12)],
        ),
        marked(
            "switches of two days are kept",
            &[switch(1, 12), switch(2, 13)],
        ),
        marked(
            "switches of two days, two each",
            &[switch(1, 12), switch(2, 13), chosen(3, 13), chosen(4, 12)],
        ),
        marked(
            "switches out of window are kept",
            &[switch(1, 14), chosen(2, 14)],
        ),
        marked(
            "other kinds are no switches",
            &[
                switch(1, 12),
                told(scheduled(2, MOVE_IN, 12)),
                told(scheduled(3, MOVE_OUT, 12)),
            ],
        ),
        marked(
            "closed switches do not count",
            &[
                complete(1, STANDARD_SWITCH, 12),
                switch(2, 12),
                told(order(3, STANDARD_SWITCH, status::UNEXECUTABLE, 12)),
            ],
        ),
        marked(
            "switches without a day are kept",
            &[
                told(cancel_pending(1, STANDARD_SWITCH, NO_DAY)),
                told(cancel_pending(2, STANDARD_SWITCH, NO_DAY)),
            ],
        )
        .with_calendar(vec![]),
        marked("a switch of a day gone by", &[switch(1, 4), chosen(2, 4)]),
    ]
}

/// Pass 2.
fn drops() -> Vec<Stored> {
    let drop_on = |day| told(scheduled(1, MASS_TRANSITION_DROP, day));
    let switch = |day| told(scheduled(2, STANDARD_SWITCH, day));
    let chosen = |day| told(scheduled(2, SELF_SELECTED_SWITCH, day));
    let without_retailer = [dark_file(&[drop_on(12), switch(12)])];
    vec![
        marked("a drop gives way to a switch", &[drop_on(12), switch(12)]),
        marked(
            "a drop gives way to a self-selected switch",
            &[drop_on(12), chosen(12)],
        ),
        stored(
            "a drop gives way without a retailer",
            &without_retailer,
            mark(11),
        ),
        marked("a drop out of window stays", &[drop_on(14), switch(14)]),
        marked(
            "a drop stays beside a switch of another day",
            &[drop_on(12), switch(13)],
        ),
        marked(
            "a drop stays beside a Cancel Pending switch",
            &[drop_on(12), told(cancel_pending(2, STANDARD_SWITCH, 12))],
        ),
        marked(
            "a drop stays beside a move in",
            &[drop_on(12), told(scheduled(2, MOVE_IN, 12))],
        ),
        marked(
            "a drop stays beside a complete switch",
            &[drop_on(12), complete(2, STANDARD_SWITCH, 12)],
        ),
        marked(
            "a Cancel Pending drop stays",
            &[
                told(cancel_pending(1, MASS_TRANSITION_DROP, 12)),
                switch(12),
            ],
        ),
        marked(
            "a drop stays beside a drop",
            &[drop_on(12), told(scheduled(2, MASS_TRANSITION_DROP, 12))],
        ),
        marked(
            "a drop behind the switch gives way",
            &[switch(12), told(scheduled(3, MASS_TRANSITION_DROP, 12))],
        ),
        marked(
            "two drops give way, the older one first",
            &[
                told(scheduled(3, MASS_TRANSITION_DROP, 12)),
                switch(12),
                told(scheduled(4, MASS_TRANSITION_DROP, 12)),
            ],
        ),
    ]
}

/// Pass 3. Scheduled days and requested days run against each other here.
fn overtaken_permits() -> Vec<Stored> {
    let permit = requested(9, permit_pending(1));
    let begun = |requested_day, day| requested(requested_day, told(scheduled(2, MOVE_IN, day)));
    vec![
        marked("a permit is overtaken", &[permit, begun(10, 8)]),
        marked(
            "a permit is overtaken by one that begins today",
            &[permit, begun(10, 11)],
        ),
        marked(
            "a permit is not overtaken by one that begins tomorrow",
            &[permit, begun(10, 12)],
        ),
        marked(
            "a permit is not overtaken by one of its own requested day",
            &[permit, begun(9, 8)],
        ),
        marked(
            "a permit is not overtaken by an earlier one",
            &[permit, begun(8, 11)],
        ),
        marked(
            "a permit is not overtaken by a complete one",
            &[permit, requested(10, complete(2, MOVE_IN, 8))],
        ),
        marked(
            "a permit is not overtaken by a Cancel Pending one",
            &[permit, requested(10, cancel_pending(2, MOVE_IN, 8))],
        ),
        marked(
            "a permit is not overtaken by a switch",
            &[
                permit,
                requested(10, told(scheduled(2, STANDARD_SWITCH, 8))),
            ],
        ),
        marked(
            "two move ins do not overtake together",
            &[
                permit,
                begun(8, 8),
                requested(10, told(scheduled(3, MOVE_IN, 12))),
            ],
        ),
        marked(
            "an order in review is not overtaken",
            &[requested(9, waited(1, in_review(1, MOVE_IN))), begun(10, 8)],
        ),
        marked(
            "a permit is overtaken by an older order",
            &[
                requested(10, told(scheduled(1, MOVE_IN, 8))),
                requested(9, permit_pending(2)),
            ],
        ),
        marked(
            "two permits are overtaken, the older one first",
            &[permit, begun(10, 8), requested(8, permit_pending(3))],
        ),
    ]
}

/// Pass 4.
fn losing_retailer() -> Vec<Stored> {
    let dark = [dark_file(&[scheduled(1, MOVE_IN, 12)])];
    vec![
        marked(
            "the retailer is told of a move in",
            &[scheduled(1, MOVE_IN, 12)],
        ),
        marked(
            "the retailer is told of a switch",
            &[scheduled(1, STANDARD_SWITCH, 13)],
        ),
        marked(
            "the retailer is told of a drop",
            &[scheduled(1, MASS_TRANSITION_DROP, 12)],
        ),
        marked(
            "nobody is told of a move out",
            &[scheduled(1, MOVE_OUT, 12)],
        ),
        marked("nobody is told out of window", &[scheduled(1, MOVE_IN, 14)]),
        marked("nobody is told twice", &[told(scheduled(1, MOVE_IN, 12))]),
        marked(
            "nobody is told of a Cancel Pending order",
            &[cancel_pending(1, MOVE_IN, 12)],
        ),
        marked(
            "nobody is told of a complete order",
            &[complete(1, MOVE_IN, 12)],
        ),
        marked(
            "the retailer is not told of its own order",
            &[by(HOLDER, scheduled(1, MOVE_IN, 12))],
        ),
        stored("nobody is told without a retailer", &dark, mark(11)),
        marked(
            "the retailer is told of each order",
            &[
                scheduled(1, MOVE_IN, 12),
                by(ANOTHER, scheduled(2, SELF_SELECTED_SWITCH, 11)),
            ],
        ),
    ]
}

/// Which pass comes first shows in the notices' order and in what is told.
fn passes_in_order() -> Vec<Stored> {
    let permit = requested(9, permit_pending(1));
    let begun = requested(10, scheduled(2, MOVE_IN, 8));
    let drop_order = scheduled(3, MASS_TRANSITION_DROP, 12);
    let switches = [
        scheduled(4, STANDARD_SWITCH, 12),
        scheduled(5, SELF_SELECTED_SWITCH, 12),
    ];
    let first_goes = [
        cancel_pending(1, STANDARD_SWITCH, 12),
        drop_order,
        cancel_pending(4, SELF_SELECTED_SWITCH, 12),
    ];
    let ends = pending_for(6, cancel_pending(1, STANDARD_SWITCH, 12));
    vec![
        marked(
            "four passes",
            &[permit, begun, drop_order, switches[0], switches[1]],
        ),
        marked("a drop stays if no switch stays Scheduled", &first_goes),
        marked(
            "the clock comes before the evaluation",
            &[ends, cancel_pending(2, SELF_SELECTED_SWITCH, 12)],
        ),
        stored(
            "the evaluation comes after the read",
            &[file(&[
                told(scheduled(1, MOVE_IN, 9)),
                scheduled(2, SELF_SELECTED_SWITCH, 12),
            ])],
            read(1, 9),
        ),
    ]
}
