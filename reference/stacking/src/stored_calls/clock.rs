//! The clock: a mark for day 11 on a book of day 10.

use super::*;
use kind::*;

pub fn calls() -> Vec<Stored> {
    let review =
        |days, requested_day| requested(requested_day, waited(days, in_review(1, MOVE_IN)));
    let permit = |days, requested_day| requested(requested_day, waited(days, permit_pending(1)));
    vec![
        marked("In Review waits", review(1, 11)),
        marked("In Review ends by 3 on the requested day", review(2, 11)),
        marked("In Review ends by 3 after the requested day", review(2, 10)),
        marked("In Review waits on before the requested day", review(2, 12)),
        marked(
            "In Review waits on to 19 before the requested day",
            review(18, 12),
        ),
        marked(
            "In Review ends by 20 before the requested day",
            review(19, 12),
        ),
        marked("In Review's wait stays at 21", review(21, 12)),
        marked("In Review's wait grows to 21", review(20, 12)),
        marked(
            "a drop's wait ends",
            requested(11, in_review(1, MASS_TRANSITION_DROP)),
        ),
        marked("a move out's wait ends, told", told(in_review(1, MOVE_OUT))),
        on_holiday("In Review waits over a holiday", review(2, 10)),
        on_holiday("In Review ends on a holiday", review(3, 11)),
        on_holiday("In Review ends by 20 on a holiday", review(20, 12)),
        on_kind_1("a day of kind 1 does not count", review(2, 10)),
        marked("Permit Pending waits", permit(19, 11)),
        marked(
            "Permit Pending waits before the requested day",
            permit(20, 12),
        ),
        marked("Permit Pending ends by 21", permit(20, 11)),
        marked("Permit Pending ends by 21, grown before", permit(21, 12)),
        marked(
            "Permit Pending does not end when In Review would",
            permit(2, 10),
        ),
        on_holiday("Permit Pending waits over a holiday", permit(20, 10)),
        on_holiday("Permit Pending ends on a holiday", permit(21, 10)),
        marked(
            "Cancel Pending waits",
            pending_for(5, cancel_pending(1, MOVE_OUT, NO_DAY)),
        ),
        marked(
            "Cancel Pending ends by 7",
            told(pending_for(6, cancel_pending(1, MOVE_OUT, NO_DAY))),
        ),
        on_holiday(
            "Cancel Pending ends on a holiday",
            pending_for(6, cancel_pending(1, MASS_TRANSITION_DROP, 9)),
        ),
        marked(
            "Scheduled does not wait",
            waited(20, told(scheduled(1, MOVE_IN, 20))),
        ),
        stored("closed orders do not wait", &[file(&closed())], mark(11)),
        stored(
            "orders of one mark, oldest first",
            &[file(&one_of_each())],
            mark(11),
        ),
        stored("every file, in rising P", &street(), mark(11)),
    ]
}

fn marked(name: &'static str, held: Order) -> Stored {
    stored(name, &[file(&[held])], mark(11))
}

fn on_holiday(name: &'static str, held: Order) -> Stored {
    marked(name, held).with_calendar(calendar_with(&[(11, 2)]))
}

fn on_kind_1(name: &'static str, held: Order) -> Stored {
    marked(name, held).with_calendar(calendar_with(&[(11, 1)]))
}

fn closed() -> [Order; 3] {
    [
        waited(20, complete(1, MOVE_IN, 9)),
        waited(20, cancelled(2, MOVE_IN)),
        waited(20, order(3, MOVE_IN, status::UNEXECUTABLE, NO_DAY)),
    ]
}

fn one_of_each() -> [Order; 4] {
    [
        pending_for(6, cancel_pending(1, MOVE_IN, NO_DAY)),
        in_review(2, MOVE_OUT),
        waited(20, permit_pending(3)),
        pending_for(6, cancel_pending(4, MASS_TRANSITION_DROP, NO_DAY)),
    ]
}

/// The clock and the evaluation of a file come before the next file's clock.
fn street() -> [File; 3] {
    let orders = [scheduled(1, MOVE_IN, 12), in_review(2, MOVE_OUT)];
    [3, 7, u64::MAX].map(|premise| File {
        premise,
        ..file(&orders)
    })
}
