//! Move out and move in read on one day (02, change 4): the mark of a file, which
//! reads set and clear, and the move out that it holds off.

use super::*;
use kind::*;

pub fn calls() -> Vec<Stored> {
    [held_off(), set(), cleared(), left()]
        .into_iter()
        .flatten()
        .collect()
}

/// A file with a Scheduled order and the mark as given.
fn marked(moved_in: u8, kind: u8) -> File {
    File {
        moved_in,
        ..file(&[told(scheduled(1, kind, 9))])
    }
}

fn agreed(file: File) -> File {
    File {
        agreement: LANDLORDS,
        ..file
    }
}

/// Move outs, on the day of S and around it.
fn held_off() -> Vec<Stored> {
    let out = marked(1, MOVE_OUT);
    let dark = File { retailer: 0, ..out };
    let reads = |name, file, day| stored(name, &[file], read(1, day));
    vec![
        reads("a move out is held off on the day of a move in", out, SINCE),
        reads(
            "a move out is held off in spite of an agreement",
            agreed(out),
            SINCE,
        ),
        reads(
            "a move out is held off in a flat without a retailer",
            dark,
            SINCE,
        ),
        reads("a move out on the day after the move in", out, SINCE + 1),
        reads(
            "a move out on the day after the move in, with an agreement",
            agreed(out),
            SINCE + 1,
        ),
        reads("a move out on the day before the move in", out, SINCE - 1),
        reads(
            "a move out on the day of S that no move in set",
            marked(0, MOVE_OUT),
            SINCE,
        ),
        stored(
            "a move out of the retailer that has moved in is held off",
            &[File {
                moved_in: 1,
                ..file(&[by(HOLDER, scheduled(1, MOVE_OUT, 9))])
            }],
            read(1, SINCE),
        ),
        on_book(
            "a move out is held off on day 0",
            book(
                0,
                &[File {
                    since: 0,
                    ..marked(1, MOVE_OUT)
                }],
            ),
            read(1, 0),
        ),
    ]
}

/// Reads of move ins.
fn set() -> Vec<Stored> {
    let own = |moved_in| File {
        moved_in,
        ..file(&[by(HOLDER, scheduled(1, MOVE_IN, 9))])
    };
    let reads = |name, file, day| stored(name, &[file], read(1, day));
    vec![
        reads("a move in's read sets the mark", marked(0, MOVE_IN), 9),
        reads(
            "a move in's read on the day of S sets the mark",
            marked(0, MOVE_IN),
            SINCE,
        ),
        reads(
            "a move in's read before S leaves the mark clear",
            marked(0, MOVE_IN),
            SINCE - 1,
        ),
        reads(
            "a move in's read before S leaves the mark set",
            marked(1, MOVE_IN),
            SINCE - 1,
        ),
        reads("a second move in's read", marked(1, MOVE_IN), 9),
        reads("a move in of the retailer R sets the mark", own(0), 9),
        reads(
            "a move in of the retailer R on the day of S sets the mark",
            own(0),
            SINCE,
        ),
    ]
}

/// Any other read that sets R.
fn cleared() -> Vec<Stored> {
    let reads = |name, kind, day| stored(name, &[marked(1, kind)], read(1, day));
    let own = File {
        moved_in: 1,
        ..file(&[by(HOLDER, told(scheduled(1, SELF_SELECTED_SWITCH, 9)))])
    };
    vec![
        reads("a standard switch clears the mark", STANDARD_SWITCH, 9),
        reads(
            "a standard switch on the day of S clears the mark",
            STANDARD_SWITCH,
            SINCE,
        ),
        reads(
            "a self-selected switch clears the mark",
            SELF_SELECTED_SWITCH,
            SINCE,
        ),
        reads("a drop clears the mark", MASS_TRANSITION_DROP, SINCE),
        reads(
            "a drop on a later day clears the mark",
            MASS_TRANSITION_DROP,
            9,
        ),
        stored(
            "a switch of the retailer R clears the mark",
            &[own],
            read(1, SINCE),
        ),
    ]
}

/// What leaves the mark.
fn left() -> Vec<Stored> {
    let with = |moved_in, order| {
        [File {
            moved_in,
            ..file(&[order])
        }]
    };
    let out = scheduled(1, MOVE_OUT, 20);
    vec![
        stored(
            "a switch's read before S leaves the mark",
            &[marked(1, STANDARD_SWITCH)],
            read(1, SINCE - 1),
        ),
        stored(
            "a drop's read before S leaves the mark",
            &[marked(1, MASS_TRANSITION_DROP)],
            read(1, SINCE - 1),
        ),
        stored(
            "a permit's read leaves the mark set",
            &with(1, permit_pending(1)),
            read(1, SINCE),
        ),
        stored(
            "a permit's read leaves the mark clear",
            &with(0, permit_pending(1)),
            read(1, 9),
        ),
        stored("a day mark leaves the mark", &with(1, out), mark(11)),
        stored(
            "an agreement leaves the mark",
            &with(1, out),
            establish(LANDLORDS),
        ),
        stored("a failure leaves the mark", &with(1, out), unexecutable(1)),
        stored(
            "a new order leaves the mark",
            &with(1, out),
            new_order(2, MOVE_IN, 12),
        ),
    ]
}
