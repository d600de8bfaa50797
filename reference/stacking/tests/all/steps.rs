//! Each kind of record, the clock and the evaluation, sentence by sentence.

use crate::support::*;
use stacking::days::{in_window, is_business_day, switch_date, BusinessDays, CalendarDays};
use stacking::order::{kind, status, Order};

/// A desk on day 10 with one order in a status, scheduled for day 30 where the
/// status has a day.
fn desk_with(kind: u8, order_status: u8) -> Desk {
    let day = match order_status {
        status::IN_REVIEW | status::PERMIT_PENDING => NONE,
        _ => 30,
    };
    let mut held = order(1, kind, 25, day, order_status);
    held.waited = BusinessDays(2);
    if order_status == status::CANCEL_PENDING {
        held.cancel_pending_for = CalendarDays(4);
    }
    Desk::with_file(10, business_days(), file_with(&[held]))
}

#[test]
fn kinds_of_day() {
    let calendar = [0, 1, 2, 3, 255];
    assert!(is_business_day(&calendar, 0));
    for day in [1, 2, 3, 4, 5, 4_095, 4_096] {
        assert!(!is_business_day(&calendar, day));
    }
    assert_eq!(switch_date(&calendar, 1), Some(1));
    assert_eq!(switch_date(&calendar, 2), None);
    assert_eq!(switch_date(&[], 0), None);
}

#[test]
fn no_day_lies_past_4095_however_long_the_calendar() {
    let mut calendar = vec![2; 5_000];
    calendar[4_096..].fill(0);
    assert_eq!(switch_date(&calendar, 4_000), None);
    for width in 1..=5 {
        assert!(in_window(&calendar, 4_000, BusinessDays(width), 4_095));
        assert!(!in_window(&calendar, 4_000, BusinessDays(width), NONE));
    }
}

#[test]
fn the_window_is_what_the_document_says() {
    let calendar: Vec<u8> = (0..90u8)
        .map(|day| [0, 1, 0, 2, 2, 0, 7][usize::from(day) % 7])
        .collect();
    for (today, width) in (0..100).flat_map(|today| (1..=5).map(move |width| (today, width))) {
        let window = BusinessDays(width);
        let mut business_days_before = 0;
        for scheduled_day in (0..300).chain([4_095]) {
            let expected = business_days_before <= width;
            assert_eq!(
                in_window(&calendar, today, window, scheduled_day),
                expected,
                "{today} {width} {scheduled_day}"
            );
            if scheduled_day >= today && is_business_day(&calendar, scheduled_day) {
                business_days_before += 1;
            }
        }
        assert!(!in_window(&calendar, today, window, NONE));
    }
}

#[test]
fn create_makes_a_file_and_tells_nobody() {
    let mut desk = Desk::new(10);
    assert!(desk.notices.is_empty());
    assert_eq!(*desk.file(), file_with(&[]));
    desk.take(&[stacking::record::Entry::Retire]);
    assert!(desk.notices.is_empty());
    desk.take(&[create(4_095, 0)]);
    assert_eq!((desk.file().since, desk.file().retailer), (4_095, 0));
}

#[test]
fn a_new_order_starts_in_review() {
    for (order_kind, code) in [(1, 1), (2, 2), (4, 1), (5, 1)] {
        let mut desk = Desk::new(10);
        desk.take(&[new_order(order_kind, 15, 1)]);
        let expected = Order {
            waited: BusinessDays(1),
            ..order(1, order_kind, 15, NONE, status::IN_REVIEW)
        };
        assert_eq!(*desk.order(1), expected);
        assert_eq!(desk.notices, [(code, order_kind, 15, 1, TDSP)]);
    }
}

#[test]
fn its_own_day_counts_only_if_it_is_a_business_day() {
    for (day_kind, waited) in [(0, 1), (1, 0), (2, 0), (9, 0)] {
        let mut desk = Desk::with_calendar(10, calendar_with(&[(10, day_kind)]));
        desk.take(&[new_order(1, 15, 1)]);
        assert_eq!(desk.order(1).waited, BusinessDays(waited));
    }
}

#[test]
fn the_oldest_closed_order_is_dropped() {
    let mut orders: Vec<Order> = (1..=8)
        .map(|reference| order(reference, 4, 25, NONE, 1))
        .collect();
    for place in [2, 5] {
        orders[place].status = status::CANCELLED;
    }
    let mut desk = Desk::with_file(10, business_days(), file_with(&orders));
    desk.take(&[
        new_order_of(ANOTHER, 1, 25, 9),
        new_order_of(ANOTHER, 1, 25, 10),
    ]);
    let references: Vec<u32> = desk
        .file()
        .held()
        .iter()
        .map(|held| held.reference)
        .collect();
    assert_eq!(references, [1, 2, 4, 5, 7, 8, 9, 10]);
    assert_eq!(desk.send(new_order_of(ANOTHER, 1, 25, 11)), 12);
}

#[test]
fn a_closed_order_is_kept_while_there_is_room() {
    let mut desk = Desk::new(10);
    desk.take(&[new_order(1, 25, 1), unexecutable(1), new_order(1, 25, 2)]);
    assert_eq!(desk.file().held().len(), 2);
}

#[test]
fn scheduled_from_in_review_permit_pending_or_cancel_pending() {
    for from in [1, 2, 4] {
        let mut desk = desk_with(kind::MOVE_IN, from);
        desk.take(&[scheduled(1, 28)]);
        let held = desk.order(1);
        assert_eq!((held.status, held.scheduled_day), (3, 28));
        assert_eq!((held.waited.0, held.cancel_pending_for.0), (2, 0));
        assert_eq!(desk.notices, [(3, 1, 28, 1, SUBMITTER)]);
    }
}

#[test]
fn permit_required_restarts_the_wait() {
    let mut desk = desk_with(kind::MOVE_IN, status::IN_REVIEW);
    desk.take(&[permit(1)]);
    assert_eq!((desk.status(1), desk.order(1).waited.0), (2, 0));
    assert_eq!(desk.notices, [(6, 1, NONE, 1, SUBMITTER)]);
}

#[test]
fn unexecutable_tells_the_holder_only_if_it_was_told() {
    for (told, retailer, tells_holder) in [(0, HOLDER, false), (1, HOLDER, true), (1, 0, false)] {
        let mut held = order(1, 1, 25, 30, 4);
        held.told = told;
        held.cancel_pending_for = CalendarDays(3);
        let mut file = file_with(&[held]);
        file.retailer = retailer;
        let mut desk = Desk::with_file(10, business_days(), file);
        desk.take(&[unexecutable(1)]);
        assert_eq!((desk.status(1), desk.order(1).cancel_pending_for.0), (7, 0));
        let mut expected = vec![(7, 1, 30, 1, SUBMITTER)];
        expected.extend(tells_holder.then_some((7, 1, 30, 1, HOLDER)));
        assert_eq!(desk.notices, expected);
    }
}

#[test]
fn unexecutable_tells_one_retailer_twice_if_it_is_both() {
    let mut held = order(1, 1, 25, 30, 3);
    held.told = 1;
    let mut file = file_with(&[held]);
    file.retailer = SUBMITTER;
    let mut desk = Desk::with_file(10, business_days(), file);
    desk.take(&[unexecutable(1)]);
    assert_eq!(desk.notices, [(7, 1, 30, 1, SUBMITTER); 2]);
}

#[test]
fn a_read_hands_the_premise_over() {
    for (order_kind, retailer) in [
        (1, SUBMITTER),
        (2, 0),
        (3, SUBMITTER),
        (4, SUBMITTER),
        (5, SUBMITTER),
    ] {
        for (day, since, taken_over) in [(8, 8, true), (9, 8, true), (7, 8, false)] {
            let mut file = file_with(&[order(1, order_kind, 8, 8, 3)]);
            file.since = since;
            let mut desk = Desk::with_file(10, business_days(), file);
            desk.take(&[read(1, day)]);
            assert_eq!((desk.status(1), desk.order(1).scheduled_day), (5, day));
            let expected = if taken_over {
                (retailer, day)
            } else {
                (HOLDER, since)
            };
            assert_eq!((desk.file().retailer, desk.file().since), expected);
            assert!(desk.notices.is_empty());
        }
    }
}

#[test]
fn a_read_while_the_permit_is_pending_only_changes_the_status() {
    let mut desk = desk_with(kind::MOVE_IN, status::PERMIT_PENDING);
    let before = *desk.file();
    desk.take(&[read(1, 11)]);
    let mut expected = before;
    expected.orders[0].status = status::IN_REVIEW;
    assert_eq!(*desk.file(), expected);
    assert!(desk.notices.is_empty());
}

#[test]
fn cancel_asks_the_tdsp() {
    for from in [1, 2, 3] {
        let mut desk = desk_with(kind::MOVE_IN, from);
        let day = desk.order(1).scheduled_day;
        desk.take(&[cancel(1)]);
        assert_eq!((desk.status(1), desk.order(1).cancel_pending_for.0), (4, 0));
        assert_eq!(desk.notices, [(5, 1, day, 1, TDSP)]);
    }
}

#[test]
fn an_accepted_cancel_tells_the_submitter_only() {
    let mut desk = desk_with(kind::MOVE_OUT, status::CANCEL_PENDING);
    desk.take(&[accept(1)]);
    assert_eq!((desk.status(1), desk.order(1).cancel_pending_for.0), (6, 0));
    assert_eq!(desk.notices, [(5, 2, 30, 1, SUBMITTER)]);
}

#[test]
fn a_rejected_cancel_goes_back_by_the_scheduled_day() {
    for (day, back) in [(30, status::SCHEDULED), (NONE, status::IN_REVIEW)] {
        let mut held = order(1, 1, 25, day, 4);
        held.cancel_pending_for = CalendarDays(6);
        held.waited = BusinessDays(17);
        let mut desk = Desk::with_file(10, business_days(), file_with(&[held]));
        desk.take(&[reject(1)]);
        let held = desk.order(1);
        assert_eq!(
            (held.status, held.waited.0, held.cancel_pending_for.0),
            (back, 17, 0)
        );
        assert_eq!(desk.notices, [(8, 1, day, 1, SUBMITTER)]);
    }
}

/// One mark onto day 11 over one order.
fn marked(held: Order, calendar: Vec<u8>) -> Desk {
    let mut desk = Desk::with_file(10, calendar, file_with(&[held]));
    desk.mark_to(11);
    desk
}

#[test]
fn in_review_ends_by_20_or_by_3_when_due() {
    // waited before, requested day, kind of the new day, waited and status after
    for (before, requested, day_kind, after, ends) in [
        (18, 50, 0, 19, false),
        (19, 50, 0, 20, true),
        (20, 50, 0, 21, true),
        (21, 50, 0, 21, true),
        (19, 50, 1, 19, false),
        (20, 50, 2, 20, true),
        (1, 11, 0, 2, false),
        (2, 11, 0, 3, true),
        (2, 12, 0, 3, false),
        (3, 11, 2, 3, true),
        (2, 11, 1, 2, false),
    ] {
        for order_kind in 1..=5 {
            let mut held = order(1, order_kind, requested, NONE, 1);
            held.waited = BusinessDays(before);
            let desk = marked(held, calendar_with(&[(11, day_kind)]));
            let expected = if ends { 4 } else { 1 };
            assert_eq!((desk.order(1).waited.0, desk.status(1)), (after, expected));
            assert_eq!(desk.order(1).cancel_pending_for.0, 0);
            let notices = [(5, order_kind, NONE, 1, TDSP)];
            assert_eq!(desk.notices, notices[..usize::from(ends)]);
        }
    }
}

#[test]
fn permit_pending_waits_from_the_requested_day_on() {
    for (before, requested, day_kind, after, ends) in [
        (0, 11, 0, 1, false),
        (0, 12, 0, 0, false),
        (0, 5, 1, 0, false),
        (19, 11, 0, 20, false),
        (20, 11, 0, 21, true),
        (20, 12, 0, 20, false),
        (21, 12, 0, 21, true),
        (21, 11, 2, 21, true),
    ] {
        let mut held = order(1, 1, requested, NONE, 2);
        held.waited = BusinessDays(before);
        let desk = marked(held, calendar_with(&[(11, day_kind)]));
        let expected = if ends { 4 } else { 2 };
        assert_eq!((desk.order(1).waited.0, desk.status(1)), (after, expected));
        let notices = [(5, 1, NONE, 1, TDSP)];
        assert_eq!(desk.notices, notices[..usize::from(ends)]);
    }
}

#[test]
fn cancel_pending_counts_calendar_days() {
    for day_kind in 0..=2 {
        for (before, after, ends) in [(0, 1, false), (5, 6, false), (6, 0, true)] {
            let mut held = order(1, 4, 25, 30, 4);
            held.cancel_pending_for = CalendarDays(before);
            let desk = marked(held, calendar_with(&[(11, day_kind)]));
            let expected = if ends { 6 } else { 4 };
            assert_eq!(
                (desk.order(1).cancel_pending_for.0, desk.status(1)),
                (after, expected)
            );
            let notices = [(5, 4, 30, 1, TDSP), (5, 4, 30, 1, SUBMITTER)];
            assert_eq!(desk.notices, notices[..2 * usize::from(ends)]);
        }
    }
}

#[test]
fn an_order_takes_one_branch_of_the_clock() {
    let mut held = order(1, 1, 11, NONE, 1);
    held.waited = BusinessDays(20);
    let desk = marked(held, business_days());
    assert_eq!((desk.status(1), desk.order(1).cancel_pending_for.0), (4, 0));
}

/// What a mark onto day 11 leaves of these orders, by status.
fn statuses_after_mark(orders: &[Order]) -> (Vec<u8>, Vec<Notice>) {
    let mut desk = Desk::with_file(10, business_days(), file_with(orders));
    desk.mark_to(11);
    let statuses = desk.file().held().iter().map(|held| held.status).collect();
    (statuses, desk.notices)
}

#[test]
fn pass_1_goes_day_by_day_but_tells_order_by_order() {
    let (statuses, notices) = statuses_after_mark(&[
        order(1, 3, 11, 12, 3),
        order(2, 4, 11, 13, 3),
        order(3, 4, 11, 13, 3),
        order(4, 3, 11, 12, 3),
        order(5, 4, 11, 14, 3),
        order(6, 4, 11, 14, 3),
        order(7, 1, 11, 12, 3),
    ]);
    assert_eq!(statuses, [3, 3, 6, 6, 3, 3, 3]);
    assert_eq!(
        notices[..4],
        [
            (5, 4, 13, 3, TDSP),
            (5, 4, 13, 3, SUBMITTER),
            (5, 3, 12, 4, TDSP),
            (5, 3, 12, 4, SUBMITTER),
        ]
    );
}

#[test]
fn pass_1_keeps_the_oldest_if_none_is_scheduled() {
    let (statuses, _) = statuses_after_mark(&[order(1, 3, 11, 12, 4), order(2, 4, 11, 12, 4)]);
    assert_eq!(statuses, [4, 6]);
    // closed switches and Cancel Pending ones without a day do not count
    let (statuses, _) = statuses_after_mark(&[
        order(1, 3, 11, 12, 5),
        order(2, 4, 11, NONE, 4),
        order(3, 4, 11, 12, 4),
    ]);
    assert_eq!(statuses, [5, 4, 4]);
}

#[test]
fn pass_2_drops_beside_scheduled_switches() {
    for (switch_day, switch_status, drop_day, expected) in [
        (12, 3, 12, 6),
        (13, 3, 12, 3),
        (12, 4, 12, 3),
        (14, 3, 14, 3),
    ] {
        let (statuses, notices) = statuses_after_mark(&[
            order(1, 5, 11, drop_day, 3),
            order(2, 4, 11, switch_day, switch_status),
        ]);
        assert_eq!(statuses[0], expected);
        if expected == 6 {
            assert_eq!(notices[..2], [(5, 5, 12, 1, TDSP), (5, 5, 12, 1, HOLDER)]);
        }
    }
}

#[test]
fn pass_2_tells_only_the_tdsp_of_a_dark_flat() {
    let mut file = file_with(&[order(1, 5, 11, 12, 3), order(2, 4, 11, 12, 3)]);
    file.retailer = 0;
    let mut desk = Desk::with_file(10, business_days(), file);
    desk.mark_to(11);
    assert_eq!(desk.notices, [(5, 5, 12, 1, TDSP)]);
    assert_eq!(desk.order(2).told, 1);
}

#[test]
fn pass_2_sees_what_pass_1_left() {
    // the Scheduled switch that pass 1 keeps still displaces the drop
    let (statuses, _) = statuses_after_mark(&[
        order(1, 4, 11, 12, 4),
        order(2, 5, 11, 12, 3),
        order(3, 3, 11, 12, 3),
    ]);
    assert_eq!(statuses, [6, 6, 3]);
}

#[test]
fn pass_3_compares_requested_days() {
    for (permit_day, other_day, other_scheduled, other_kind, expected) in [
        (15, 16, 11, 1, 6),
        (15, 16, 3, 1, 6),
        (15, 16, 12, 1, 2),
        (16, 16, 11, 1, 2),
        (17, 16, 11, 1, 2),
        (15, 16, 11, 4, 2),
    ] {
        let (statuses, notices) = statuses_after_mark(&[
            order(1, 1, permit_day, NONE, 2),
            order(2, other_kind, other_day, other_scheduled, 3),
        ]);
        assert_eq!(statuses[0], expected);
        if expected == 6 {
            assert_eq!(
                notices[..2],
                [(5, 1, NONE, 1, TDSP), (5, 1, NONE, 1, SUBMITTER)]
            );
        }
    }
}

#[test]
fn pass_3_needs_one_move_in_with_both() {
    // one has the later requested day, another has begun
    let (statuses, _) = statuses_after_mark(&[
        order(1, 1, 15, NONE, 2),
        order(2, 1, 16, 12, 3),
        order(3, 1, 14, 11, 3),
    ]);
    assert_eq!(statuses, [2, 3, 3]);
}

#[test]
fn pass_4_tells_the_holder_once() {
    // kind, scheduled day, told before, holder; told after, notice
    for (order_kind, day, before, retailer, after, tells) in [
        (1, 13, 0, HOLDER, 1, true),
        (3, 13, 0, HOLDER, 1, true),
        (5, 5, 0, HOLDER, 1, true),
        (2, 13, 0, HOLDER, 0, false),
        (1, 14, 0, HOLDER, 0, false),
        (1, 13, 1, HOLDER, 1, false),
        (1, 13, 0, SUBMITTER, 1, false),
        (1, 13, 0, 0, 1, false),
    ] {
        let mut held = order(1, order_kind, 13, day, 3);
        held.told = before;
        let mut file = file_with(&[held]);
        file.retailer = retailer;
        let mut desk = Desk::with_file(10, business_days(), file);
        desk.mark_to(11);
        assert_eq!(desk.order(1).told, after);
        let notices = [(4, order_kind, day, 1, HOLDER)];
        assert_eq!(desk.notices, notices[..usize::from(tells)]);
    }
}

/// Every accepted record of kinds 3 to 9 and 11 ends with the evaluation, also on
/// a book that was handed in with something left to do.
#[test]
fn every_record_on_a_file_ends_with_its_evaluation() {
    for (held_status, entry) in [
        (1, new_order(1, 20, 9)),
        (1, scheduled(1, 40)),
        (1, permit(1)),
        (1, unexecutable(1)),
        (2, read(1, 10)),
        (3, read(1, 10)),
        (1, cancel(1)),
        (4, accept(1)),
        (4, reject(1)),
        (1, date_change(1, 20, 1)),
        (3, date_change(1, 20, 1)),
    ] {
        let day = match held_status {
            1 | 2 => NONE,
            _ => 40,
        };
        let orders = [order(1, 1, 15, day, held_status), order(2, 4, 10, 11, 3)];
        let mut file = file_with(&orders);
        file.since = 20;
        let mut desk = Desk::with_file(10, business_days(), file);
        desk.take(&[entry]);
        assert_eq!(desk.order(2).told, 1, "{entry:?}");
        assert_eq!(desk.notices.last(), Some(&(4, 4, 11, 2, HOLDER)));
    }
}

#[test]
fn a_retire_and_an_agreement_run_no_evaluation_and_a_refusal_neither() {
    let mut desk = Desk::with_file(10, business_days(), file_with(&[order(2, 4, 10, 11, 3)]));
    assert_eq!(desk.send(stacking::record::Entry::Retire), 7);
    assert_eq!(desk.send(cancel_by(HOLDER, 2)), 13);
    desk.take(&[establish(ANOTHER), delete(ANOTHER)]);
    assert_eq!(desk.order(2).told, 0);
}
