//! The evaluation: four passes over a file's orders, oldest first, each seeing
//! what the one before left.

use crate::days::{in_window, BusinessDays};
use crate::file::{File, DE_ENERGIZED, NO_AGREEMENT};
use crate::notice::{Code, NoticeWriter, TDSP};
use crate::order::{kind, status, Order};

/// A file's evaluation.
pub fn run(file: &mut File, calendar: &[u8], today: u16, notices: &mut NoticeWriter) {
    keep_one_switch_a_day(file, calendar, today, notices);
    cancel_drops_beside_switches(file, calendar, today, notices);
    cancel_overtaken_permits(file, today, notices);
    tell_retailers(file, calendar, today, notices);
}

/// Pass 1: of the switches in window for one day, one is kept.
pub fn keep_one_switch_a_day(
    file: &mut File,
    calendar: &[u8],
    today: u16,
    notices: &mut NoticeWriter,
) {
    for place in 0..file.held().len() {
        let order = file.orders[place];
        if is_contested(&order, calendar, today, file.window)
            && kept_switch(file, calendar, today, order.scheduled_day) != Some(place)
        {
            cancel(file, place, notices);
            tell_submitter(file, place, notices);
        }
    }
}

/// A switch in window that is Scheduled or Cancel Pending.
fn is_contested(order: &Order, calendar: &[u8], today: u16, window: BusinessDays) -> bool {
    order.is_switch()
        && matches!(order.status, status::SCHEDULED | status::CANCEL_PENDING)
        && in_window(calendar, today, window, order.scheduled_day)
}

/// The switch kept for a day: the oldest Scheduled one, or the oldest if none is.
fn kept_switch(file: &File, calendar: &[u8], today: u16, day: u16) -> Option<usize> {
    let on_the_day = |&place: &usize| {
        let order = &file.orders[place];
        is_contested(order, calendar, today, file.window) && order.scheduled_day == day
    };
    let is_scheduled = |&place: &usize| file.orders[place].is_scheduled();
    let contested = || (0..file.held().len()).filter(on_the_day);
    contested().find(is_scheduled).or(contested().next())
}

/// Pass 2: a drop gives way to a switch of the same day.
pub fn cancel_drops_beside_switches(
    file: &mut File,
    calendar: &[u8],
    today: u16,
    notices: &mut NoticeWriter,
) {
    for place in 0..file.held().len() {
        let order = file.orders[place];
        if order.kind == kind::MASS_TRANSITION_DROP
            && order.is_scheduled()
            && in_window(calendar, today, file.window, order.scheduled_day)
            && has_switch_on(file, order.scheduled_day)
        {
            cancel(file, place, notices);
            tell_current_retailer(file, place, notices);
        }
    }
}

fn has_switch_on(file: &File, day: u16) -> bool {
    file.held()
        .iter()
        .any(|order| order.is_switch() && order.is_scheduled() && order.scheduled_day == day)
}

/// Pass 3: a move in still waiting for its permit gives way to one that was
/// requested for a later day and has begun. Permits go by requested days.
pub fn cancel_overtaken_permits(file: &mut File, today: u16, notices: &mut NoticeWriter) {
    for place in 0..file.held().len() {
        let order = file.orders[place];
        if order.kind == kind::MOVE_IN
            && order.status == status::PERMIT_PENDING
            && is_overtaken(file, today, order.requested_day)
        {
            cancel(file, place, notices);
            tell_submitter(file, place, notices);
        }
    }
}

/// Is there a Scheduled move in, requested for a later day, with its scheduled
/// day not after today?
fn is_overtaken(file: &File, today: u16, requested_day: u16) -> bool {
    file.held().iter().any(|order| {
        order.kind == kind::MOVE_IN
            && order.is_scheduled()
            && requested_day < order.requested_day
            && order.scheduled_day <= today
    })
}

/// Pass 4: the premise's retailer hears of the order that will replace it, and
/// the holder of the service agreement of the move out that will leave it the
/// premise. Without an agreement a move out stays untold.
pub fn tell_retailers(file: &mut File, calendar: &[u8], today: u16, notices: &mut NoticeWriter) {
    for place in 0..file.held().len() {
        let order = &mut file.orders[place];
        let is_due = order.is_scheduled()
            && in_window(calendar, today, file.window, order.scheduled_day)
            && order.told == 0;
        if is_due && order.kind != kind::MOVE_OUT {
            order.told = 1;
            if file.retailer != DE_ENERGIZED && file.retailer != order.retailer {
                notices.write(Code::LosingRetailer, file.premise, order, file.retailer);
            }
        } else if is_due && file.agreement != NO_AGREEMENT {
            order.told = 1;
            notices.write(Code::AgreementMoveOut, file.premise, order, file.agreement);
        }
    }
}

/// Cancelled, and the TDSP hears of it.
fn cancel(file: &mut File, place: usize, notices: &mut NoticeWriter) {
    let order = &mut file.orders[place];
    order.set_status(status::CANCELLED);
    notices.write(Code::Cancel, file.premise, order, TDSP);
}

/// The retailer that submitted the cancelled order hears of it too.
fn tell_submitter(file: &File, place: usize, notices: &mut NoticeWriter) {
    let order = &file.orders[place];
    notices.write(Code::Cancel, file.premise, order, order.retailer);
}

/// The premise's retailer, if it has one, hears of it too.
fn tell_current_retailer(file: &File, place: usize, notices: &mut NoticeWriter) {
    if file.retailer != DE_ENERGIZED {
        let order = &file.orders[place];
        notices.write(Code::Cancel, file.premise, order, file.retailer);
    }
}
