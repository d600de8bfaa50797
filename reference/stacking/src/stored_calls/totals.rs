//! Waiting orders at a glance (document 02, change 11): the totals that calls
//! move, and those that are off. What a kind of record does to them shows in the
//! calls of its own topic too.

use super::*;
use crate::book::FILES_A_BOOK;
use crate::file::ORDERS_A_FILE;
use crate::waiting::Waiting;
use kind::*;

pub fn calls() -> Vec<Stored> {
    [
        moved_by_records(),
        moved_by_marks(),
        full_books(),
        off(),
        out_of_order(),
        refused(),
    ]
    .into_iter()
    .flatten()
    .collect()
}

/// Four files whose orders are 4 In Review, 1 Permit Pending, 3 Scheduled and 2
/// Cancel Pending, and of the closed ones 5, 6 and 8: each number another, so that
/// no total can stand for another.
pub(super) fn screen() -> Book {
    book(
        TODAY,
        &[
            with_statuses(5, &[1, 5, 6, 7, 1, 7, 6, 5]),
            with_statuses(PREMISE, &[2, 3, 4, 5, 6, 7, 1, 7]),
            with_statuses(9, &[3, 5, 5, 6, 6, 7, 7, 1]),
            with_statuses(11, &[4, 3, 7, 7, 6]),
        ],
    )
}

/// A premise's file with orders in these statuses, none of which the next mark
/// moves.
fn with_statuses(premise: u64, statuses: &[u8]) -> File {
    let in_status = |(reference, &status): (u32, &u8)| match status {
        status::IN_REVIEW => requested(25, in_review(reference, MOVE_IN)),
        status::PERMIT_PENDING => permit_pending(reference),
        status::CANCEL_PENDING => cancel_pending(reference, MOVE_IN, 20),
        _ => order(reference, MOVE_IN, status, 20),
    };
    let orders: Vec<Order> = (1..).zip(statuses).map(in_status).collect();
    File {
        premise,
        ..file(&orders)
    }
}

fn on_screen(name: &'static str, record: [u8; 24]) -> Stored {
    on_book(name, screen(), record)
}

fn moved_by_records() -> Vec<Stored> {
    vec![
        on_screen("totals: a file comes", {
            let mut record = create(3, HOLDER);
            record[8] = 8;
            record
        }),
        on_book(
            "totals: a file with closed orders leaves",
            {
                let mut book = screen();
                book.files[1] = with_statuses(PREMISE, &[5, 6, 7, 7]);
                book.waiting = book.counted();
                book
            },
            retire(),
        ),
        on_screen(
            "totals: a new order, and the oldest closed one dropped",
            new_order(9, MOVE_OUT, 25),
        ),
        on_screen("totals: Permit Pending to Scheduled", schedule(1, 20)),
        on_screen("totals: Cancel Pending to Scheduled", schedule(3, 20)),
        on_screen("totals: In Review to Scheduled", schedule(7, 20)),
        on_screen("totals: In Review to Permit Pending", permit(7)),
        on_screen("totals: Permit Pending to In Review", read(1, 10)),
        on_screen("totals: Scheduled to Complete", read(2, 10)),
        on_screen("totals: Scheduled to Cancel Pending", cancel(2)),
        on_screen("totals: Cancel Pending to Cancelled", accept(3)),
        on_screen("totals: Cancel Pending back to Scheduled", reject(3)),
        on_screen("totals: In Review to Unexecutable", unexecutable(7)),
        on_screen(
            "totals: Scheduled to In Review, on another day",
            date_change(2, 22, 1),
        ),
        on_screen("totals: an agreement moves none", establish(LANDLORDS)),
        stored(
            "totals: a scheduling and the switches that its evaluation cancels",
            &[file(&[
                scheduled(1, STANDARD_SWITCH, 11),
                in_review(2, SELF_SELECTED_SWITCH),
                cancel_pending(3, STANDARD_SWITCH, 11),
                scheduled(4, MASS_TRANSITION_DROP, 11),
            ])],
            schedule(2, 11),
        ),
    ]
}

/// A mark over the four files, at which the orders In Review of some come to the
/// end of their wait.
fn moved_by_marks() -> Vec<Stored> {
    let due = |name, places: &[usize]| {
        let mut book = screen();
        for &place in places {
            for order in book.files[place].held_mut() {
                if order.status == status::IN_REVIEW {
                    order.requested_day = TODAY + 1;
                }
            }
        }
        on_book(name, book, mark(TODAY + 1))
    };
    let over = |name, place: usize| {
        let mut book = screen();
        for order in book.files[place].held_mut() {
            if order.status == status::CANCEL_PENDING {
                order.cancel_pending_for.0 = 6;
            }
        }
        on_book(name, book, mark(TODAY + 1))
    };
    vec![
        due("totals: a mark that moves none", &[]),
        due("totals: a mark that moves those of the first file", &[0]),
        due("totals: a mark that moves those of a middle file", &[1]),
        due("totals: a mark that moves those of three files", &[0, 1, 2]),
        over("totals: a mark that ends a cancellation", 1),
        over(
            "totals: a mark that ends a cancellation of the last file",
            3,
        ),
    ]
}

/// 512 orders in one status: a total that takes its second byte.
fn full_books() -> Vec<Stored> {
    let full = |status: u8| {
        let one = with_statuses(1, &[status; ORDERS_A_FILE]);
        let mut book = book(TODAY, &[one; FILES_A_BOOK]);
        for (file, premise) in book.files.iter_mut().zip(1..) {
            file.premise = premise;
        }
        book
    };
    let due = || {
        let mut book = full(status::IN_REVIEW);
        for order in book.files.iter_mut().flat_map(File::held_mut) {
            order.requested_day = TODAY;
        }
        book
    };
    let last_file_not_counted = || {
        let mut book = full(status::SCHEDULED);
        book.waiting.scheduled -= ORDERS_A_FILE as u16;
        book
    };
    let low_byte = || {
        let mut book = full(status::SCHEDULED);
        book.waiting.scheduled = 0;
        book
    };
    vec![
        on_book(
            "well kept: 512 orders In Review",
            full(status::IN_REVIEW),
            mark(TODAY + 1),
        ),
        on_book(
            "well kept: 512 orders Permit Pending",
            full(status::PERMIT_PENDING),
            mark(TODAY + 1),
        ),
        on_book(
            "well kept: 512 orders Scheduled",
            full(status::SCHEDULED),
            mark(TODAY + 1),
        ),
        on_book(
            "well kept: 512 orders Cancel Pending",
            full(status::CANCEL_PENDING),
            mark(TODAY + 1),
        ),
        on_book(
            "well kept: 512 orders that are closed",
            full(status::COMPLETE),
            mark(TODAY + 1),
        ),
        on_book("totals: a mark that moves 512", due(), mark(TODAY + 1)),
        on_book(
            "row 2: the total of all files but the last",
            last_file_not_counted(),
            mark(TODAY + 1),
        ),
        on_book(
            "row 2: the low byte of a total alone is right",
            low_byte(),
            mark(TODAY + 1),
        ),
    ]
}

/// A mark on the four files with other totals.
fn with_totals(name: &'static str, totals: [u16; 4]) -> Stored {
    let mut book = screen();
    book.waiting = Waiting::new(totals);
    on_book(name, book, mark(TODAY + 1))
}

/// One total that is off.
fn off() -> Vec<Stored> {
    let no_orders = |name, totals| {
        let mut book = book(TODAY, &[file(&[])]);
        book.waiting = Waiting::new(totals);
        on_book(name, book, mark(TODAY + 1))
    };
    let no_files = |name, totals| {
        let mut book = Book::fresh(TODAY);
        book.waiting = Waiting::new(totals);
        on_book(name, book, mark(TODAY + 1))
    };
    vec![
        with_totals("well kept: 4, 1, 3 and 2", [4, 1, 3, 2]),
        with_totals("row 2: one too many In Review", [5, 1, 3, 2]),
        with_totals("row 2: one too few In Review", [3, 1, 3, 2]),
        with_totals("row 2: one too many Permit Pending", [4, 2, 3, 2]),
        with_totals("row 2: one too few Permit Pending", [4, 0, 3, 2]),
        with_totals("row 2: one too many Scheduled", [4, 1, 4, 2]),
        with_totals("row 2: one too few Scheduled", [4, 1, 2, 2]),
        with_totals("row 2: one too many Cancel Pending", [4, 1, 3, 3]),
        with_totals("row 2: one too few Cancel Pending", [4, 1, 3, 1]),
        with_totals("row 2: 256 too many In Review", [260, 1, 3, 2]),
        with_totals("row 2: 256 too many Permit Pending", [4, 257, 3, 2]),
        with_totals("row 2: 256 too many Scheduled", [4, 1, 259, 2]),
        with_totals("row 2: 32,768 too many Cancel Pending", [4, 1, 3, 32_770]),
        with_totals("row 2: as many In Review as Cancelled", [6, 1, 3, 2]),
        with_totals("row 2: as many Permit Pending as Complete", [4, 5, 3, 2]),
        with_totals("row 2: as many Scheduled as Cancelled", [4, 1, 6, 2]),
        with_totals("row 2: as many Cancel Pending as Complete", [4, 1, 3, 5]),
        with_totals("row 2: Complete counted as Scheduled", [4, 1, 8, 2]),
        with_totals("row 2: Cancelled counted as Cancel Pending", [4, 1, 3, 8]),
        with_totals("row 2: Unexecutable counted as In Review", [12, 1, 3, 2]),
        no_files("row 2: one In Review and no file", [1, 0, 0, 0]),
        no_files("row 2: one Permit Pending and no file", [0, 1, 0, 0]),
        no_files("row 2: one Scheduled and no file", [0, 0, 1, 0]),
        no_files("row 2: one Cancel Pending and no file", [0, 0, 0, 1]),
        no_orders("row 2: one In Review and no order", [1, 0, 0, 0]),
        no_orders("row 2: one Cancel Pending and no order", [0, 0, 0, 1]),
    ]
}

/// All four, none of them a total's own; and those of other books.
fn out_of_order() -> Vec<Stored> {
    vec![
        with_totals("row 2: In Review and Permit Pending swapped", [1, 4, 3, 2]),
        with_totals("row 2: In Review and Scheduled swapped", [3, 1, 4, 2]),
        with_totals("row 2: In Review and Cancel Pending swapped", [2, 1, 3, 4]),
        with_totals("row 2: Permit Pending and Scheduled swapped", [4, 3, 1, 2]),
        with_totals(
            "row 2: Permit Pending and Cancel Pending swapped",
            [4, 2, 3, 1],
        ),
        with_totals("row 2: Scheduled and Cancel Pending swapped", [4, 1, 2, 3]),
        with_totals("row 2: all four one on", [2, 4, 1, 3]),
        with_totals("row 2: all four one back", [1, 3, 2, 4]),
        with_totals("row 2: all four the other way round", [2, 3, 1, 4]),
        with_totals("row 2: one In Review for one Scheduled", [5, 1, 2, 2]),
        with_totals("row 2: one on and one off at the ends", [3, 1, 3, 3]),
        with_totals("row 2: no totals", [0, 0, 0, 0]),
        with_totals("row 2: the totals of the first file", [2, 0, 0, 0]),
        with_totals("row 2: the totals without the first file", [2, 1, 3, 2]),
        with_totals("row 2: the totals without the last file", [4, 1, 2, 1]),
        with_totals("row 2: all orders in each", [28, 28, 28, 28]),
        with_totals(
            "row 2: the largest numbers",
            [u16::MAX, u16::MAX, u16::MAX, u16::MAX],
        ),
    ]
}

/// A refusal leaves totals that are off as they are, also where the record would
/// make up for it.
fn refused() -> Vec<Stored> {
    let off = |totals| {
        let mut book = screen();
        book.waiting = Waiting::new(totals);
        book
    };
    vec![
        on_book(
            "row 1: totals that are off",
            off([4, 2, 3, 2]),
            mark(TODAY + 1),
        )
        .with_room(NOTICE_BUFFER_BYTES - 1),
        on_book(
            "row 2: a new order would make up for the total",
            off([5, 1, 3, 2]),
            new_order(9, MOVE_OUT, 25),
        ),
        on_book(
            "row 2: a scheduling would make up for two totals",
            off([4, 0, 4, 2]),
            schedule(1, 20),
        ),
        on_book(
            "row 2: totals that are off and a short record",
            off([4, 1, 3, 1]),
            mark(TODAY + 1),
        )
        .with_record(vec![10; 23]),
        on_book(
            "row 2: totals that are off and a premise that is not held",
            off([3, 1, 3, 2]),
            {
                let mut record = retire();
                record[8] = 8;
                record
            },
        ),
        on_book(
            "row 2: totals that are off and a wrong mark",
            off([4, 1, 3, 3]),
            mark(TODAY + 2),
        ),
        on_screen("row 14: totals stay", permit(2)),
        on_screen("row 8: totals stay", new_order(8, MOVE_OUT, 25)),
        on_screen("row 7: totals stay", retire()),
        on_screen("row 15: totals stay", mark(TODAY + 2)),
    ]
}
