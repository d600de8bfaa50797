//! The steps of one premise: what its own records and a day mark do to its file.
//!
//! Each step tests all its rows before it changes anything, so a refusal leaves
//! file and notices as they were. Nothing here knows of other premises.

use crate::answer::{refuse_if, Answer};
use crate::clock::{self, first_wait};
use crate::date_change;
use crate::days::{is_day, switch_date, BusinessDays, CalendarDays, NO_DAY};
use crate::evaluation;
use crate::file::{File, OPEN_ORDERS_A_RETAILER};
use crate::first_in::not_first_in;
use crate::notice::{Code, NoticeWriter, TDSP};
use crate::order::{kind, status, Order};
use crate::record::{Event, NewOrder, OrderEntry};

/// A requested day lies at most this many days ahead of today (001).
pub const DAYS_AHEAD: i32 = 90;

/// A requested day lies at most this many days back (001).
pub const DAYS_BACK: i32 = 270;

/// Row 7: a file with an open order is not retired.
pub fn may_retire(file: &File) -> Result<(), Answer> {
    refuse_if(file.has_open_order(), Answer::OpenOrderHeld)
}

/// Record kinds 3 to 9 and 11: rows 8 to 14, 16, 17 and 26, the record's step and, if it is accepted,
/// the file's evaluation.
pub fn order_record(
    file: &mut File,
    calendar: &[u8],
    today: u16,
    entry: OrderEntry,
    notices: &mut NoticeWriter,
) -> Result<(), Answer> {
    order_step(file, calendar, today, entry, notices)?;
    evaluation::run(file, calendar, today, notices);
    Ok(())
}

/// The same without the evaluation.
pub fn order_step(
    file: &mut File,
    calendar: &[u8],
    today: u16,
    entry: OrderEntry,
    notices: &mut NoticeWriter,
) -> Result<(), Answer> {
    match entry {
        OrderEntry::New(new) => new_order(file, calendar, today, &new, notices),
        OrderEntry::Event { reference, event } => {
            order_event(file, calendar, today, reference, event, notices)
        }
    }
}

/// Record kind 3, rows 8 to 11, 26 and 12, and then the step.
fn new_order(
    file: &mut File,
    calendar: &[u8],
    today: u16,
    new: &NewOrder,
    notices: &mut NoticeWriter,
) -> Result<(), Answer> {
    let order = admit(file, calendar, today, new)?;
    file.append(order);
    let code = match order.kind {
        kind::MOVE_OUT => Code::NewMoveOut,
        _ => Code::NewOrder,
    };
    notices.write(code, file.premise, &order, TDSP);
    Ok(())
}

/// The order that the file will hold, if rows 8 to 11, 26 and 12 let it in.
fn admit(file: &File, calendar: &[u8], today: u16, new: &NewOrder) -> Result<Order, Answer> {
    refuse_if(
        file.place_of(new.reference).is_some(),
        Answer::ReferenceHeld,
    )?;
    let requested_day = requested_day(calendar, today, new)?;
    refuse_if(
        not_first_in(file.held(), new.kind, requested_day),
        Answer::NotFirstIn,
    )?;
    refuse_if(
        file.open_orders_of(new.retailer) >= OPEN_ORDERS_A_RETAILER,
        Answer::FourOpenOrdersOfRetailer,
    )?;
    refuse_if(file.is_full_of_open_orders(), Answer::EightOpenOrders)?;
    Ok(Order {
        reference: new.reference,
        retailer: new.retailer,
        requested_day,
        scheduled_day: NO_DAY,
        kind: new.kind,
        status: status::IN_REVIEW,
        waited: first_wait(calendar, today),
        cancel_pending_for: CalendarDays(0),
        told: 0,
        counter: 0,
    })
}

/// RD of a new order, with rows 9 and 10.
fn requested_day(calendar: &[u8], today: u16, new: &NewOrder) -> Result<u16, Answer> {
    match new.kind {
        kind::STANDARD_SWITCH => switch_date(calendar, today).ok_or(Answer::NoSwitchDate),
        kind::MASS_TRANSITION_DROP => Ok(new.day),
        _ => {
            let ahead = i32::from(new.day) - i32::from(today);
            refuse_if(
                !(-DAYS_BACK..=DAYS_AHEAD).contains(&ahead),
                Answer::RequestedDayTooFar,
            )?;
            Ok(new.day)
        }
    }
}

/// Record kinds 4 to 9 and 11, rows 13 and 14 and then the step; a date change
/// has rows of its own after them.
fn order_event(
    file: &mut File,
    calendar: &[u8],
    today: u16,
    reference: u32,
    event: Event,
    notices: &mut NoticeWriter,
) -> Result<(), Answer> {
    let place = place_for(file, reference, event)?;
    refuse_if(!takes(&file.orders[place], event), Answer::NotTaken)?;
    match event {
        Event::Scheduled { day } => scheduled(file, place, day, notices),
        Event::PermitRequired => permit_required(file, place, notices),
        Event::Unexecutable => unexecutable(file, place, notices),
        Event::MeterRead { day } => meter_read(file, place, day),
        Event::Cancel { .. } => cancel(file, place, notices),
        Event::CancelAccepted => cancel_accepted(file, place, notices),
        Event::CancelRejected => cancel_rejected(file, place, notices),
        Event::DateChange { day, counter } => {
            date_change::may_change(file, place, calendar, today, counter)?;
            date_change::change(file, place, calendar, today, (day, counter), notices);
        }
    }
    Ok(())
}

/// Row 13: the place of the order; a cancel must come from its own retailer.
fn place_for(file: &File, reference: u32, event: Event) -> Result<usize, Answer> {
    let place = file.place_of(reference).ok_or(Answer::NoSuchOrder)?;
    match event {
        Event::Cancel { retailer } if retailer != file.orders[place].retailer => {
            Err(Answer::NoSuchOrder)
        }
        _ => Ok(place),
    }
}

/// Row 14: does the order's status, and its kind, take the event?
fn takes(order: &Order, event: Event) -> bool {
    use status::*;
    match event {
        Event::Scheduled { .. } => {
            matches!(order.status, IN_REVIEW | PERMIT_PENDING | CANCEL_PENDING)
        }
        Event::PermitRequired => order.kind == kind::MOVE_IN && order.status == IN_REVIEW,
        Event::Unexecutable => order.is_open(),
        Event::MeterRead { .. } => matches!(order.status, PERMIT_PENDING | SCHEDULED),
        Event::Cancel { .. } => matches!(order.status, IN_REVIEW | PERMIT_PENDING | SCHEDULED),
        Event::CancelAccepted | Event::CancelRejected => order.status == CANCEL_PENDING,
        Event::DateChange { .. } => date_change::takes(order),
    }
}

/// Kind 4.
fn scheduled(file: &mut File, place: usize, day: u16, notices: &mut NoticeWriter) {
    let order = &mut file.orders[place];
    order.set_status(status::SCHEDULED);
    order.scheduled_day = day;
    notices.write(Code::Scheduled, file.premise, order, order.retailer);
}

/// Kind 5. The wait for the permit starts anew.
fn permit_required(file: &mut File, place: usize, notices: &mut NoticeWriter) {
    let order = &mut file.orders[place];
    order.set_status(status::PERMIT_PENDING);
    order.waited = BusinessDays(0);
    notices.write(Code::PermitRequired, file.premise, order, order.retailer);
}

/// Kind 6. A retailer that was told of the order hears that it came to nothing.
fn unexecutable(file: &mut File, place: usize, notices: &mut NoticeWriter) {
    file.orders[place].set_status(status::UNEXECUTABLE);
    let order = &file.orders[place];
    notices.write(Code::Unexecutable, file.premise, order, order.retailer);
    let concerned = file.told_of(order).filter(|_| order.told == 1);
    if let Some(retailer) = concerned {
        notices.write(Code::Unexecutable, file.premise, order, retailer);
    }
}

/// Kind 7. A read on a day before the retailer's since comes too late to say
/// who holds the premise. A move out leaves it to the holder of the service
/// agreement, or dark. A read while the permit is pending only puts the
/// order back In Review (002, rule 10).
fn meter_read(file: &mut File, place: usize, day: u16) {
    let order = &mut file.orders[place];
    if !order.is_scheduled() {
        order.set_status(status::IN_REVIEW);
        return;
    }
    order.set_status(status::COMPLETE);
    order.scheduled_day = day;
    let order = file.orders[place];
    if day >= file.since && !is_held_off(file, &order, day) {
        file.since = day;
        file.retailer = match order.kind {
            kind::MOVE_OUT => file.agreement,
            _ => order.retailer,
        };
        file.moved_in = u8::from(order.kind == kind::MOVE_IN);
    }
}

/// Both reads on one day (02, change 4): the move out of the tenant before does
/// not take the premise from the tenant who has moved in.
fn is_held_off(file: &File, order: &Order, day: u16) -> bool {
    order.kind == kind::MOVE_OUT && day == file.since && file.moved_in == 1
}

/// Kind 8.
fn cancel(file: &mut File, place: usize, notices: &mut NoticeWriter) {
    let order = &mut file.orders[place];
    order.set_status(status::CANCEL_PENDING);
    notices.write(Code::Cancel, file.premise, order, TDSP);
}

/// Kind 9, accept.
fn cancel_accepted(file: &mut File, place: usize, notices: &mut NoticeWriter) {
    let order = &mut file.orders[place];
    order.set_status(status::CANCELLED);
    notices.write(Code::Cancel, file.premise, order, order.retailer);
}

/// Kind 9, reject: back to where the order was, as far as its day tells.
fn cancel_rejected(file: &mut File, place: usize, notices: &mut NoticeWriter) {
    let order = &mut file.orders[place];
    order.set_status(if is_day(order.scheduled_day) {
        status::SCHEDULED
    } else {
        status::IN_REVIEW
    });
    notices.write(Code::CancelRejected, file.premise, order, order.retailer);
}

/// Record kind 10 for one file, on the day that has just begun.
pub fn day_mark(file: &mut File, calendar: &[u8], today: u16, notices: &mut NoticeWriter) {
    clock::run(file, calendar, today, notices);
    evaluation::run(file, calendar, today, notices);
}

/// Row 15: a day mark brings the day after today.
pub fn is_next_day(today: u16, day: u16) -> Result<(), Answer> {
    refuse_if(
        u32::from(day) != u32::from(today) + 1,
        Answer::NotTheNextDay,
    )
}
