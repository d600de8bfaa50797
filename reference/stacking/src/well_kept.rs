//! Row 2: is a book that was handed in well kept?

use crate::book::{Book, FILES_A_BOOK};
use crate::clock::{CANCEL_PENDING_WAIT, LONGEST_WAIT};
use crate::days::{is_day, CalendarDays, NARROWEST_WINDOW, NO_DAY, WIDEST_WINDOW};
use crate::file::{File, ORDERS_A_FILE};
use crate::order::{kind, status, Order, LARGEST_RETAILER};

/// Every field in range, premises rising, references distinct in a file, the
/// days and waits that go with each status, unused places zero, and the four
/// totals the count over all files (02, change 11).
pub fn is_well_kept(book: &Book) -> bool {
    let count = usize::from(book.file_count);
    if !is_day(book.today) || count > FILES_A_BOOK {
        return false;
    }
    let (held, unused) = book.files.split_at(count);
    held.iter().all(file_is_well_kept)
        && premises_rise(held)
        && unused.iter().all(|place| *place == File::EMPTY)
        && book.waiting == book.counted()
}

fn premises_rise(held: &[File]) -> bool {
    held.windows(2)
        .all(|pair| pair[0].premise < pair[1].premise)
}

fn file_is_well_kept(file: &File) -> bool {
    let count = usize::from(file.order_count);
    if count > ORDERS_A_FILE {
        return false;
    }
    let (held, unused) = file.orders.split_at(count);
    file.premise != 0
        && file.retailer <= LARGEST_RETAILER
        && is_day(file.since)
        && (NARROWEST_WINDOW..=WIDEST_WINDOW).contains(&file.window)
        && file.agreement <= LARGEST_RETAILER
        && file.moved_in <= 1
        && held.iter().all(order_is_well_kept)
        && references_are_distinct(held)
        && unused.iter().all(|place| *place == Order::EMPTY)
}

fn references_are_distinct(held: &[Order]) -> bool {
    held.iter().enumerate().all(|(place, order)| {
        held[..place]
            .iter()
            .all(|earlier| earlier.reference != order.reference)
    })
}

fn order_is_well_kept(order: &Order) -> bool {
    order.reference != 0
        && (kind::MOVE_IN..=kind::MASS_TRANSITION_DROP).contains(&order.kind)
        && (1..=LARGEST_RETAILER).contains(&order.retailer)
        && is_day(order.requested_day)
        && scheduled_day_is_well_kept(order)
        && (order.status != status::PERMIT_PENDING || order.kind == kind::MOVE_IN)
        && order.waited <= LONGEST_WAIT
        && order.cancel_pending_for <= longest_pending(order.status)
        && order.told <= 1
}

/// The status is one, and SD goes with it.
fn scheduled_day_is_well_kept(order: &Order) -> bool {
    let day = order.scheduled_day;
    match order.status {
        status::IN_REVIEW | status::PERMIT_PENDING => day == NO_DAY,
        status::SCHEDULED | status::COMPLETE => is_day(day),
        status::CANCEL_PENDING | status::CANCELLED | status::UNEXECUTABLE => {
            is_day(day) || day == NO_DAY
        }
        _ => false,
    }
}

/// One day short of the wait that ends Cancel Pending; in no other status is
/// there such a wait.
fn longest_pending(status: u8) -> CalendarDays {
    match status {
        status::CANCEL_PENDING => CalendarDays(CANCEL_PENDING_WAIT.0 - 1),
        _ => CalendarDays(0),
    }
}
