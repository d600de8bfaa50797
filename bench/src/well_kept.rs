//! Row 2's test made fast.

use crate::waiting;
use stacking::book::{Book, FILES_A_BOOK};
use stacking::clock::{CANCEL_PENDING_WAIT, LONGEST_WAIT};
use stacking::days::{is_day, CalendarDays, NARROWEST_WINDOW, NO_DAY, WIDEST_WINDOW};
use stacking::file::{File, ORDERS_A_FILE};
use stacking::order::{kind, Order, LARGEST_RETAILER};

/// Every field in range, premises rising, references distinct in a file, the
/// days and waits that go with each status, unused places zero, the four totals
/// the count over all files, which is taken in the same walk.
pub fn is_well_kept(book: &Book) -> bool {
    let count = usize::from(book.file_count);
    if !is_day(book.today) || count > FILES_A_BOOK {
        return false;
    }
    let (held, unused) = book.files.split_at(count);
    let mut totals = 0;
    held.windows(2)
        .all(|pair| pair[0].premise < pair[1].premise)
        && held.iter().all(|file| file_is_well_kept(file, &mut totals))
        && unused.iter().all(file_is_empty)
        && totals == waiting::packed(&book.waiting)
}

/// Also adds the file's part to the totals.
fn file_is_well_kept(file: &File, totals: &mut u64) -> bool {
    let count = usize::from(file.order_count);
    if count > ORDERS_A_FILE {
        return false;
    }
    let (held, unused) = file.orders.split_at(count);
    (file.premise != 0)
        & (file.retailer <= LARGEST_RETAILER)
        & is_day(file.since)
        & (file.window >= NARROWEST_WINDOW)
        & (file.window <= WIDEST_WINDOW)
        & (file.agreement <= LARGEST_RETAILER)
        & (file.moved_in <= 1)
        & held_are_well_kept(held, totals)
        & all(unused, order_is_empty)
        && references_are_distinct(held)
}

/// Is every field 0, those of all orders too?
fn file_is_empty(file: &File) -> bool {
    let numbers = file.premise | file.retailer | file.agreement;
    let bytes = file.order_count | file.window.0 | file.moved_in;
    let own = numbers | u64::from(file.since) | u64::from(bytes);
    (own == 0) & all(&file.orders, order_is_empty)
}

/// Is every field 0? One test over all of them.
fn order_is_empty(order: &Order) -> bool {
    let numbers = order.retailer | u64::from(order.reference | order.counter);
    let days = order.requested_day | order.scheduled_day;
    let bytes =
        order.kind | order.status | order.waited.0 | order.cancel_pending_for.0 | order.told;
    numbers | u64::from(days) | u64::from(bytes) == 0
}

/// Tests all orders without stopping at the first that fails: this is done for
/// every order at every call, and hardly ever does one fail.
fn all(orders: &[Order], test: fn(&Order) -> bool) -> bool {
    orders
        .iter()
        .fold(true, |so_far, order| so_far & test(order))
}

/// The same for held orders, which are counted on the way.
fn held_are_well_kept(held: &[Order], totals: &mut u64) -> bool {
    let (mut so_far, mut own) = (true, 0);
    for order in held {
        so_far &= order_is_well_kept(order);
        own += waiting::unit(order.status);
    }
    *totals += own;
    so_far
}

/// Most files give their references one after the other. Then the last six bits
/// already tell them apart, and only where they don't are all pairs compared.
fn references_are_distinct(held: &[Order]) -> bool {
    let endings = held
        .iter()
        .fold(0u64, |seen, order| seen | 1 << (order.reference % 64));
    endings.count_ones() as usize == held.len() || all_pairs_differ(held)
}

fn all_pairs_differ(held: &[Order]) -> bool {
    held.iter().enumerate().all(|(place, order)| {
        held[..place]
            .iter()
            .all(|earlier| earlier.reference != order.reference)
    })
}

fn order_is_well_kept(order: &Order) -> bool {
    let status = &STATUSES[usize::from(order.status).min(STATUSES.len() - 1)];
    let day = order.scheduled_day;
    (order.reference != 0)
        & (order.kind >= kind::MOVE_IN)
        & (order.kind <= status.last_kind)
        & (order.retailer != 0)
        & (order.retailer <= LARGEST_RETAILER)
        & is_day(order.requested_day)
        & ((status.a_day & is_day(day)) | (status.no_day & (day == NO_DAY)))
        & (order.waited <= LONGEST_WAIT)
        & (order.cancel_pending_for <= status.longest_pending)
        & (order.told <= 1)
}

/// What goes with a status.
struct Status {
    /// May the scheduled day be a day?
    a_day: bool,
    /// May it be missing?
    no_day: bool,
    /// Kinds 1 to this one.
    last_kind: u8,
    /// The longest wait in Cancel Pending.
    longest_pending: CalendarDays,
}

const NO_STATUS: Status = Status {
    a_day: false,
    no_day: false,
    last_kind: 0,
    longest_pending: CalendarDays(0),
};

const WITHOUT_DAY: Status = Status {
    no_day: true,
    last_kind: kind::MASS_TRANSITION_DROP,
    ..NO_STATUS
};

const WITH_DAY: Status = Status {
    a_day: true,
    last_kind: kind::MASS_TRANSITION_DROP,
    ..NO_STATUS
};

const WITH_OR_WITHOUT: Status = Status {
    a_day: true,
    ..WITHOUT_DAY
};

/// The numbers 0 to 8; every larger one is no status either.
const STATUSES: [Status; 9] = [
    NO_STATUS,
    // In Review
    WITHOUT_DAY,
    // Permit Pending: a move in
    Status {
        last_kind: kind::MOVE_IN,
        ..WITHOUT_DAY
    },
    // Scheduled
    WITH_DAY,
    // Cancel Pending: one day short of the wait that ends it
    Status {
        longest_pending: CalendarDays(CANCEL_PENDING_WAIT.0 - 1),
        ..WITH_OR_WITHOUT
    },
    // Complete
    WITH_DAY,
    // Cancelled
    WITH_OR_WITHOUT,
    // Unexecutable
    WITH_OR_WITHOUT,
    NO_STATUS,
];
