//! A tenant moves the date (02, change 1): record kind 11 on a held order.

use crate::answer::{refuse_if, Answer};
use crate::clock::first_wait;
use crate::days::{in_window, NO_DAY};
use crate::file::{File, DE_ENERGIZED};
use crate::notice::{Code, NoticeWriter, TDSP};
use crate::order::{kind, status, Order};

/// Row 14: only a move in or a move out, In Review or Scheduled, takes one.
pub fn takes(order: &Order) -> bool {
    matches!(order.kind, kind::MOVE_IN | kind::MOVE_OUT)
        && matches!(order.status, status::IN_REVIEW | status::SCHEDULED)
}

/// Row 16: an iteration that came before, or has come already. Row 17: an order
/// that is about to be carried out.
pub fn may_change(
    file: &File,
    place: usize,
    calendar: &[u8],
    today: u16,
    counter: u32,
) -> Result<(), Answer> {
    let order = &file.orders[place];
    refuse_if(counter <= order.counter, Answer::CounterNotAbove)?;
    refuse_if(
        order.is_scheduled() && in_window(calendar, today, file.window, order.scheduled_day),
        Answer::DateChangeInWindow,
    )
}

/// The order starts anew for the day given, and keeps the counter given with it.
/// A retailer that was told of a move in hears of its new date, and will be told
/// again.
pub fn change(
    file: &mut File,
    place: usize,
    calendar: &[u8],
    today: u16,
    (new_day, new_counter): (u16, u32),
    notices: &mut NoticeWriter,
) {
    let before = file.orders[place];
    let order = Order {
        requested_day: new_day,
        scheduled_day: NO_DAY,
        status: status::IN_REVIEW,
        waited: first_wait(calendar, today),
        told: 0,
        counter: new_counter,
        ..before
    };
    file.orders[place] = order;
    notices.write(Code::DateChange, file.premise, &order, TDSP);
    if order.kind == kind::MOVE_IN && before.told == 1 && file.retailer != DE_ENERGIZED {
        notices.write(Code::DateChange, file.premise, &order, file.retailer);
    }
}
