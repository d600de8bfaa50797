//! Row 2: every clause of 'Well kept', on both sides of each limit. The record
//! is a mark, which any well-kept book takes. The totals are those of the changed
//! book (`totals` has the others), so that each clause is seen by itself.

use super::*;
use kind::*;

pub fn calls() -> Vec<Stored> {
    [
        kept(),
        heads(),
        references(),
        orders(),
        statuses(),
        unused(),
    ]
    .into_iter()
    .flatten()
    .collect()
}

/// Three files; the middle one holds an order in each status.
fn sound() -> Book {
    let orders = [
        in_review(1, MOVE_OUT),
        permit_pending(2),
        scheduled(3, MOVE_IN, 20),
        cancel_pending(4, MOVE_IN, 20),
        complete(5, MOVE_IN, 9),
        order(6, MOVE_IN, status::CANCELLED, 20),
        order(7, MOVE_IN, status::UNEXECUTABLE, 20),
    ];
    book(
        TODAY,
        &[
            File::new(5, 0, 0),
            file(&orders),
            File::new(9, HOLDER, SINCE),
        ],
    )
}

fn marked(name: &'static str, change: impl Fn(&mut Book)) -> Stored {
    let mut book = sound();
    change(&mut book);
    book.waiting = book.counted();
    let next = mark(book.today.wrapping_add(1));
    on_book(name, book, next)
}

/// A change to the order in a status, 1 to 7.
fn with_order(name: &'static str, status: usize, change: impl Fn(&mut Order)) -> Stored {
    marked(name, |book| change(&mut book.files[1].orders[status - 1]))
}

/// Well kept, at the limits.
fn kept() -> Vec<Stored> {
    let largest = Order {
        reference: u32::MAX,
        retailer: 9_999_999_999_999,
        requested_day: 4_095,
        scheduled_day: 4_095,
        kind: MASS_TRANSITION_DROP,
        status: status::SCHEDULED,
        waited: BusinessDays(21),
        told: 1,
        counter: u32::MAX,
        ..Order::EMPTY
    };
    let smallest = Order {
        reference: 1,
        retailer: 1,
        requested_day: 0,
        scheduled_day: 0,
        kind: MOVE_IN,
        status: status::COMPLETE,
        ..Order::EMPTY
    };
    let full = |reference: u32| Order {
        reference,
        ..largest
    };
    let mut most = file(&[1, 2, 3, 4, 5, 6, 7, u32::MAX].map(full));
    most.premise = u64::MAX;
    most.retailer = 9_999_999_999_999;
    most.since = 4_095;
    most.agreement = 9_999_999_999_999;
    most.moved_in = 1;
    most.window = BusinessDays(5);
    let last = book(4_094, &[File::new(1, 0, 0), most]);
    let first = book(
        0,
        &[File {
            premise: 1,
            since: 0,
            ..dark_file(&[smallest])
        }],
    );
    vec![
        marked("well kept", |_| ()),
        on_book("well kept at the upper limits", last, mark(4_095)),
        on_book("well kept at the lower limits", first, mark(1)),
        on_book("well kept without files", book(0, &[]), mark(1)),
        with_order("well kept: a closed order's counter", 6, |order| {
            order.counter = 1
        }),
        with_order("well kept: a Permit Pending order's counter", 2, |order| {
            order.counter = u32::MAX
        }),
        with_order("well kept: W 6 in Cancel Pending", 4, |order| {
            order.cancel_pending_for.0 = 6
        }),
        with_order("well kept: Cancel Pending without a day", 4, |order| {
            order.scheduled_day = NO_DAY
        }),
        with_order("well kept: Cancelled without a day", 6, |order| {
            order.scheduled_day = NO_DAY
        }),
        with_order("well kept: Unexecutable without a day", 7, |order| {
            order.scheduled_day = NO_DAY
        }),
        marked("well kept: windows of 1, 3 and 4", |book| {
            book.files[0].window.0 = 1;
            book.files[1].window.0 = 3;
            book.files[2].window.0 = 4;
        }),
        marked("well kept: the mark, with and without R", |book| {
            book.files[0].moved_in = 1;
            book.files[1].moved_in = 1;
        }),
        marked("well kept: C 1, with and without R", |book| {
            book.files[0].agreement = 1;
            book.files[1].agreement = 1;
        }),
        marked("well kept: R and C of ten digits", |book| {
            book.files[0].retailer = 1_000_000_000;
            book.files[2].agreement = 1_000_000_000;
        }),
        marked("well kept: R and C 4,294,967,296", |book| {
            book.files[0].retailer = 1 << 32;
            book.files[2].agreement = 1 << 32;
        }),
        with_order("well kept: Q 1,000,000,000", 1, |order| {
            order.retailer = 1_000_000_000
        }),
        with_order("well kept: Q 4,294,967,296", 1, |order| {
            order.retailer = 1 << 32
        }),
        marked("well kept: one reference in two files", |book| {
            book.files[2].order_count = 1;
            book.files[2].orders[0] = in_review(1, MOVE_OUT);
        }),
    ]
}

/// T, counts and the heads of files.
fn heads() -> Vec<Stored> {
    let mut full = book(TODAY, &[]);
    for (place, file) in full.files.iter_mut().enumerate() {
        *file = File::new(place as u64 + 1, 0, 0);
    }
    full.file_count = 65;
    let eight = |count| {
        marked("row 2: nine orders", move |book| {
            book.files[1].orders[7] = in_review(8, MOVE_OUT);
            book.files[1].order_count = count;
        })
    };
    vec![
        marked("row 2: T 4,096", |book| book.today = 4_096),
        on_book("row 2: 65 files", full, mark(11)),
        eight(9),
        marked("row 2: P 0", |book| book.files[0].premise = 0),
        marked("row 2: P equal", |book| book.files[2].premise = PREMISE),
        marked("row 2: P falling", |book| book.files[2].premise = 6),
        marked("row 2: P falling at the start", |book| {
            book.files[0].premise = 8
        }),
        marked("row 2: R 10,000,000,000,000", |book| {
            book.files[1].retailer = 10_000_000_000_000
        }),
        marked("row 2: S 4,096", |book| book.files[1].since = 4_096),
        marked("row 2: C 10,000,000,000,000", |book| {
            book.files[1].agreement = 10_000_000_000_000
        }),
        marked("row 2: a window of 0", |book| book.files[1].window.0 = 0),
        marked("row 2: a window of 6", |book| book.files[0].window.0 = 6),
        marked("row 2: a window of 255", |book| {
            book.files[2].window.0 = 255
        }),
        marked("row 2: a mark of 2", |book| book.files[1].moved_in = 2),
        marked("row 2: a mark of 255", |book| book.files[2].moved_in = 255),
        marked("row 2: the largest number as R", |book| {
            book.files[0].retailer = u64::MAX
        }),
        marked("row 2: R with byte 7 set", |book| {
            book.files[2].retailer |= 1 << 56
        }),
        marked("row 2: the largest number as C", |book| {
            book.files[0].agreement = u64::MAX
        }),
        marked("row 2: C with byte 7 set", |book| {
            book.files[2].agreement |= 1 << 56
        }),
        marked("row 2: a place too few is counted", |book| {
            book.files[1].order_count = 6
        }),
        marked("row 2: a place too many is counted", |book| {
            book.files[1].order_count = 8
        }),
        marked("row 2: a file too few is counted", |book| {
            book.file_count = 2
        }),
        marked("row 2: a file too many is counted", |book| {
            book.file_count = 4
        }),
    ]
}

fn references() -> Vec<Stored> {
    vec![
        with_order("row 2: F 0", 3, |order| order.reference = 0),
        with_order("row 2: F as the order before", 2, |order| {
            order.reference = 1
        }),
        with_order("row 2: F as the first order", 7, |order| {
            order.reference = 1
        }),
        with_order("row 2: F as a closed order", 4, |order| order.reference = 6),
    ]
}

/// An order's other fields.
fn orders() -> Vec<Stored> {
    vec![
        with_order("row 2: K 0", 1, |order| order.kind = 0),
        with_order("row 2: K 6", 1, |order| order.kind = 6),
        with_order("row 2: Q 0", 1, |order| order.retailer = 0),
        with_order("row 2: Q 10,000,000,000,000", 1, |order| {
            order.retailer = 10_000_000_000_000
        }),
        with_order("row 2: the largest number as Q", 1, |order| {
            order.retailer = u64::MAX
        }),
        with_order("row 2: Q with byte 7 set", 6, |order| {
            order.retailer |= 1 << 56
        }),
        with_order("row 2: RD 4,096", 1, |order| order.requested_day = NO_DAY),
        with_order("row 2: N 22", 1, |order| order.waited.0 = 22),
        with_order("row 2: told 2", 1, |order| order.told = 2),
        with_order("row 2: a closed order's told 2", 6, |order| order.told = 2),
        with_order("row 2: a closed order's N 22", 7, |order| {
            order.waited.0 = 22
        }),
        with_order("row 2: SD 4,097 in Cancel Pending", 4, |order| {
            order.scheduled_day = 4_097
        }),
        with_order("row 2: SD 4,097 in Cancelled", 6, |order| {
            order.scheduled_day = 4_097
        }),
        with_order("row 2: SD 4,097 in Unexecutable", 7, |order| {
            order.scheduled_day = 4_097
        }),
    ]
}

/// What goes with a status.
fn statuses() -> Vec<Stored> {
    vec![
        with_order("row 2: status 0", 6, |order| order.status = 0),
        with_order("row 2: status 8", 6, |order| order.status = 8),
        with_order("row 2: In Review with a day", 1, |order| {
            order.scheduled_day = 20
        }),
        with_order("row 2: Permit Pending with a day", 2, |order| {
            order.scheduled_day = 20
        }),
        with_order("row 2: Scheduled without a day", 3, |order| {
            order.scheduled_day = NO_DAY
        }),
        with_order("row 2: Complete without a day", 5, |order| {
            order.scheduled_day = NO_DAY
        }),
        with_order("row 2: a Permit Pending move out", 2, |order| {
            order.kind = MOVE_OUT
        }),
        with_order("row 2: a Permit Pending drop", 2, |order| {
            order.kind = MASS_TRANSITION_DROP
        }),
        with_order("row 2: W 7 in Cancel Pending", 4, |order| {
            order.cancel_pending_for.0 = 7
        }),
        with_order("row 2: W 1 in In Review", 1, |order| {
            order.cancel_pending_for.0 = 1
        }),
        with_order("row 2: W 1 in Permit Pending", 2, |order| {
            order.cancel_pending_for.0 = 1
        }),
        with_order("row 2: W 1 in Scheduled", 3, |order| {
            order.cancel_pending_for.0 = 1
        }),
        with_order("row 2: W 1 in Complete", 5, |order| {
            order.cancel_pending_for.0 = 1
        }),
        with_order("row 2: W 1 in Cancelled", 6, |order| {
            order.cancel_pending_for.0 = 1
        }),
        with_order("row 2: W 1 in Unexecutable", 7, |order| {
            order.cancel_pending_for.0 = 1
        }),
    ]
}

/// Unused places, field by field.
fn unused() -> Vec<Stored> {
    let place = |name, change: fn(&mut Order)| {
        marked(name, move |book| change(&mut book.files[1].orders[7]))
    };
    let unused_file =
        |name, change: fn(&mut File)| marked(name, move |book| change(&mut book.files[63]));
    vec![
        place("row 2: F in an unused place", |order| order.reference = 8),
        place("row 2: K in an unused place", |order| order.kind = 1),
        place("row 2: Q in an unused place", |order| order.retailer = 1),
        place("row 2: the last byte of Q in an unused place", |order| {
            order.retailer = 1 << 56
        }),
        place("row 2: RD in an unused place", |order| {
            order.requested_day = 1
        }),
        place("row 2: SD in an unused place", |order| {
            order.scheduled_day = NO_DAY
        }),
        place("row 2: a status in an unused place", |order| {
            order.status = 6
        }),
        place("row 2: N in an unused place", |order| order.waited.0 = 1),
        place("row 2: W in an unused place", |order| {
            order.cancel_pending_for.0 = 1
        }),
        place("row 2: told in an unused place", |order| order.told = 1),
        place("row 2: a counter in an unused place", |order| {
            order.counter = 1 << 31
        }),
        unused_file("row 2: P in an unused file", |file| file.premise = u64::MAX),
        unused_file("row 2: R in an unused file", |file| file.retailer = 1),
        unused_file("row 2: the last byte of R in an unused file", |file| {
            file.retailer = 1 << 56
        }),
        unused_file("row 2: S in an unused file", |file| file.since = 1),
        unused_file("row 2: a window in an unused file", |file| {
            file.window.0 = 2
        }),
        unused_file("row 2: C in an unused file", |file| file.agreement = 1),
        unused_file("row 2: the last byte of C in an unused file", |file| {
            file.agreement = 1 << 56
        }),
        unused_file("row 2: a mark in an unused file", |file| file.moved_in = 1),
        unused_file("row 2: a count in an unused file", |file| {
            file.order_count = 1
        }),
        unused_file("row 2: an order in an unused file", |file| {
            file.orders[7].told = 1
        }),
        marked("row 2: an order in an empty file's last place", |book| {
            book.files[2].orders[7].told = 1
        }),
        marked("row 2: an order in an empty file", |book| {
            book.files[2].orders[0].told = 1
        }),
    ]
}
