//! The clock (002, rule 23; 001, 15.1.4): what a new day does to waiting orders.

use crate::days::{is_business_day, BusinessDays, CalendarDays};
use crate::file::File;
use crate::notice::{Code, NoticeWriter, TDSP};
use crate::order::{status, Order};

/// In Review ends after this wait, whatever the requested day.
pub const REVIEW_WAIT: BusinessDays = BusinessDays(20);

/// In Review ends after this wait once the requested day has come.
pub const REVIEW_WAIT_WHEN_DUE: BusinessDays = BusinessDays(3);

/// Permit Pending ends after this wait; no wait is counted further.
pub const LONGEST_WAIT: BusinessDays = BusinessDays(21);

/// Cancel Pending ends after this wait.
pub const CANCEL_PENDING_WAIT: CalendarDays = CalendarDays(7);

/// The wait of an order that starts In Review today: a business day counts.
pub fn first_wait(calendar: &[u8], today: u16) -> BusinessDays {
    BusinessDays(u8::from(is_business_day(calendar, today)))
}

/// The day that has just begun.
struct NewDay {
    /// T.
    today: u16,
    is_business_day: bool,
}

/// The clock of one file, on the day that has just begun. Each order takes one
/// branch, by the status it had before.
pub fn run(file: &mut File, calendar: &[u8], today: u16, notices: &mut NoticeWriter) {
    let day = NewDay {
        today,
        is_business_day: is_business_day(calendar, today),
    };
    let premise = file.premise;
    for order in file.held_mut() {
        match order.status {
            status::IN_REVIEW => review(order, &day, premise, notices),
            status::PERMIT_PENDING => permit(order, &day, premise, notices),
            status::CANCEL_PENDING => cancel_pending(order, premise, notices),
            _ => {}
        }
    }
}

/// The test is made on every day, not only when the wait has grown.
fn review(order: &mut Order, day: &NewDay, premise: u64, notices: &mut NoticeWriter) {
    if day.is_business_day {
        wait_on(order);
    }
    let due = day.today >= order.requested_day;
    if order.waited >= REVIEW_WAIT || (order.waited >= REVIEW_WAIT_WHEN_DUE && due) {
        ask_for_cancellation(order, premise, notices);
    }
}

/// The wait for a permit is counted from the requested day on.
fn permit(order: &mut Order, day: &NewDay, premise: u64, notices: &mut NoticeWriter) {
    if day.is_business_day && day.today >= order.requested_day {
        wait_on(order);
    }
    if order.waited >= LONGEST_WAIT {
        ask_for_cancellation(order, premise, notices);
    }
}

fn cancel_pending(order: &mut Order, premise: u64, notices: &mut NoticeWriter) {
    order.cancel_pending_for.0 += 1;
    if order.cancel_pending_for >= CANCEL_PENDING_WAIT {
        order.set_status(status::CANCELLED);
        notices.write(Code::Cancel, premise, order, TDSP);
        notices.write(Code::Cancel, premise, order, order.retailer);
    }
}

/// One more business day waited, up to the longest wait.
fn wait_on(order: &mut Order) {
    if order.waited < LONGEST_WAIT {
        order.waited.0 += 1;
    }
}

fn ask_for_cancellation(order: &mut Order, premise: u64, notices: &mut NoticeWriter) {
    order.set_status(status::CANCEL_PENDING);
    notices.write(Code::Cancel, premise, order, TDSP);
}
