//! The set pieces a to j of document 01, e as document 02 has it. All days are
//! business days unless said.

use crate::support::*;
use stacking::days::switch_date;

#[test]
fn a_requested_day_90_ahead_to_270_back() {
    for kind in [1, 2, 4] {
        for (day, answer) in [(390, 0), (30, 0), (391, 9), (29, 9)] {
            let mut desk = Desk::new(300);
            assert_eq!(desk.send(new_order(kind, day, 1)), answer, "{kind} {day}");
        }
    }
}

#[test]
fn b_move_in_scheduled_for_the_day() {
    for (kind, day, answer) in [(1, 40, 11), (1, 41, 0), (2, 40, 0)] {
        let mut desk = Desk::new(30);
        desk.take(&[new_order(1, 40, 1), scheduled(1, 40)]);
        assert_eq!(desk.send(new_order(kind, day, 2)), answer, "{kind} {day}");
    }
}

#[test]
fn c_standard_switch_scheduled_at_or_after_the_switch_date() {
    for (today, answer) in [(40, 11), (41, 0)] {
        let mut desk = Desk::new(today);
        desk.take(&[new_order(3, 0, 1), scheduled(1, 40)]);
        assert_eq!(desk.send(new_order(3, 0, 2)), answer);
    }
}

#[test]
fn d_the_switch_date_passes_over_sundays_and_holidays() {
    let calendar = calendar_with(&[(20, 2), (21, 2), (22, 1)]);
    assert_eq!(switch_date(&calendar, 20), Some(22));
    let mut desk = Desk::with_calendar(20, calendar);
    desk.take(&[new_order(3, 0, 1)]);
    assert_eq!(desk.order(1).requested_day, 22);
}

#[test]
fn e_eight_open_orders_of_two_retailers_met_by_a_third() {
    let mut desk = Desk::new(10);
    for reference in 1..=8 {
        let retailer = if reference <= 4 { SUBMITTER } else { HOLDER };
        desk.take(&[new_order_of(retailer, 1, 20, reference)]);
    }
    assert_eq!(desk.send(new_order_of(ANOTHER, 1, 20, 9)), 12);
    desk.take(&[unexecutable(3), new_order_of(ANOTHER, 1, 20, 9)]);
    let references: Vec<u32> = desk
        .file()
        .held()
        .iter()
        .map(|held| held.reference)
        .collect();
    assert_eq!(references, [1, 2, 4, 5, 6, 7, 8, 9]);
}

#[test]
fn f_unanswered_move_in() {
    let mut desk = Desk::new(50);
    desk.take(&[new_order(1, 50, 1)]);
    desk.mark_to(51);
    assert_eq!(desk.status(1), 1);
    desk.mark_to(52);
    assert_eq!(desk.status(1), 4);
    assert_eq!(desk.notices, [(5, 1, NONE, 1, TDSP)]);
    desk.mark_to(58);
    assert_eq!(desk.status(1), 4);
    desk.mark_to(59);
    assert_eq!(desk.status(1), 6);
    assert_eq!(
        desk.notices,
        [(5, 1, NONE, 1, TDSP), (5, 1, NONE, 1, SUBMITTER)]
    );
}

#[test]
fn g_permit_pending_since_before_the_requested_day() {
    let mut desk = Desk::new(55);
    desk.take(&[new_order(1, 60, 1), permit(1)]);
    desk.mark_to(79);
    assert_eq!((desk.status(1), desk.order(1).waited.0), (2, 20));
    desk.mark_to(80);
    assert_eq!(desk.status(1), 4);
    assert_eq!(desk.notices, [(5, 1, NONE, 1, TDSP)]);
}

#[test]
fn h_same_day_switches() {
    let orders = [
        order(1, 4, 11, 11, 4),
        order(2, 3, 11, 11, 3),
        order(3, 4, 11, 11, 3),
    ];
    let mut desk = Desk::with_file(9, business_days(), file_with(&orders));
    desk.mark_to(10);
    assert_eq!([1, 2, 3].map(|reference| desk.status(reference)), [6, 3, 6]);
    assert_eq!(
        desk.notices,
        [
            (5, 4, 11, 1, TDSP),
            (5, 4, 11, 1, SUBMITTER),
            (5, 4, 11, 3, TDSP),
            (5, 4, 11, 3, SUBMITTER),
            (4, 3, 11, 2, HOLDER),
        ]
    );
}

/// The same piece, reached by records alone.
#[test]
fn h_same_day_switches_from_a_fresh_book() {
    let mut desk = Desk::new(5);
    for reference in 1..=3 {
        desk.take(&[new_order(4, 20, reference)]);
    }
    for reference in 1..=3 {
        desk.take(&[scheduled(reference, 12)]);
    }
    desk.mark_to(9);
    desk.take(&[cancel(1)]);
    desk.mark_to(10);
    assert_eq!([1, 2, 3].map(|reference| desk.status(reference)), [6, 3, 6]);
}

#[test]
fn i_two_business_days() {
    for (day, told) in [(12, 1), (13, 0)] {
        let mut desk = Desk::new(10);
        desk.take(&[new_order(4, 20, 1), scheduled(1, day)]);
        assert_eq!(desk.order(1).told, told);
        assert_eq!(desk.notices.len(), 1 + usize::from(told));
    }
}

#[test]
fn j_read_before_since() {
    let mut desk = Desk::with_file(10, business_days(), {
        let mut file = file_with(&[order(1, 4, 8, 8, 3)]);
        file.since = 8;
        file
    });
    desk.take(&[read(1, 7)]);
    assert_eq!((desk.status(1), desk.order(1).scheduled_day), (5, 7));
    assert_eq!((desk.file().retailer, desk.file().since), (HOLDER, 8));
}
