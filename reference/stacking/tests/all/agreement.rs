//! Document 02, change 3: landlords' service agreements.

use crate::support::*;
use stacking::order::status;
use stacking::record::Entry;

/// Holders of the service agreement, one after the other.
const LANDLORDS: u64 = 900;
const NEXT: u64 = 901;

/// A notice about the premise and none of its orders.
fn of_premise_only(code: u8, addressee: u64) -> Notice {
    (code, 0, 0, 0, addressee)
}

/// A move out of the premise's retailer.
fn move_out(reference: u32, day: u16) -> Entry {
    new_order_of(HOLDER, 2, day, reference)
}

/// On day 10, with an agreement.
fn agreed_desk() -> Desk {
    let mut desk = Desk::new(10);
    desk.take(&[establish(LANDLORDS)]);
    desk
}

#[test]
fn an_agreement_is_established_replaced_and_deleted() {
    let mut desk = Desk::new(10);
    let held = of_premise_only(11, LANDLORDS);
    let next = of_premise_only(11, NEXT);
    played(
        &mut desk,
        &[
            (Entry::Retire, 0, &[]),
            (establish(LANDLORDS), 4, &[]),
            (create(0, HOLDER), 0, &[]),
            (delete(LANDLORDS), 18, &[]),
            (establish(LANDLORDS), 0, &[held]),
            (establish(LANDLORDS), 0, &[held]),
            (establish(NEXT), 0, &[of_premise_only(10, LANDLORDS), next]),
            (delete(LANDLORDS), 18, &[]),
            (delete(NEXT), 0, &[next]),
            (delete(NEXT), 18, &[]),
        ],
    );
    assert_eq!(*desk.file(), file_with(&[]));
}

#[test]
fn the_holder_is_told_of_a_move_out_and_of_its_failure_and_gets_the_flat() {
    let mut desk = agreed_desk();
    played(
        &mut desk,
        &[
            (move_out(1, 12), 0, &[(2, 2, 12, 1, TDSP)]),
            (scheduled(1, 13), 0, &[(3, 2, 13, 1, HOLDER)]),
        ],
    );
    desk.mark_to(11);
    assert_eq!(desk.notices, [(12, 2, 13, 1, LANDLORDS)]);
    played(
        &mut desk,
        &[
            (
                unexecutable(1),
                0,
                &[(7, 2, 13, 1, HOLDER), (7, 2, 13, 1, LANDLORDS)],
            ),
            (move_out(2, 12), 0, &[(2, 2, 12, 2, TDSP)]),
            (
                scheduled(2, 12),
                0,
                &[(3, 2, 12, 2, HOLDER), (12, 2, 12, 2, LANDLORDS)],
            ),
            (read(2, 12), 0, &[]),
        ],
    );
    let file = desk.file();
    assert_eq!((file.retailer, file.since, file.agreement), (900, 12, 900));
}

/// A move out that was Scheduled before there was an agreement. The agreement
/// itself runs no evaluation.
fn desk_with_a_silent_move_out() -> Desk {
    let mut desk = Desk::new(10);
    desk.take(&[new_order(1, 60, 1), move_out(2, 12)]);
    played(
        &mut desk,
        &[
            (scheduled(2, 12), 0, &[(3, 2, 12, 2, HOLDER)]),
            (establish(LANDLORDS), 0, &[of_premise_only(11, LANDLORDS)]),
        ],
    );
    assert_eq!(desk.order(2).told, 0);
    desk
}

#[test]
fn the_next_evaluation_tells_of_a_silent_move_out() {
    let told: Notice = (12, 2, 12, 2, LANDLORDS);
    for (entry, notice) in [
        (new_order(1, 60, 3), (1, 1, 60, 3, TDSP)),
        (permit(1), (6, 1, NONE, 1, SUBMITTER)),
        (unexecutable(1), (7, 1, NONE, 1, SUBMITTER)),
        (cancel(1), (5, 1, NONE, 1, TDSP)),
        (date_change(1, 40, 1), (9, 1, 40, 1, TDSP)),
    ] {
        let mut desk = desk_with_a_silent_move_out();
        played(&mut desk, &[(entry, 0, &[notice, told])]);
    }
    let mut desk = desk_with_a_silent_move_out();
    desk.mark_to(11);
    assert_eq!(desk.notices, [told]);
}

#[test]
fn the_holder_of_now_hears_of_a_failure_whatever_r_is() {
    let mut desk = Desk::created_with(10, 0);
    let next = of_premise_only(11, NEXT);
    desk.take(&[establish(LANDLORDS), move_out(1, 12)]);
    played(
        &mut desk,
        &[
            (
                scheduled(1, 12),
                0,
                &[(3, 2, 12, 1, HOLDER), (12, 2, 12, 1, LANDLORDS)],
            ),
            (establish(NEXT), 0, &[of_premise_only(10, LANDLORDS), next]),
            (
                unexecutable(1),
                0,
                &[(7, 2, 12, 1, HOLDER), (7, 2, 12, 1, NEXT)],
            ),
            (move_out(2, 12), 0, &[(2, 2, 12, 2, TDSP)]),
            (
                scheduled(2, 12),
                0,
                &[(3, 2, 12, 2, HOLDER), (12, 2, 12, 2, NEXT)],
            ),
            (delete(NEXT), 0, &[next]),
            (unexecutable(2), 0, &[(7, 2, 12, 2, HOLDER)]),
        ],
    );
    assert_eq!(desk.order(2).told, 1);
}

/// R does not hear of a told move out's failure, nor C of a told move in's.
#[test]
fn each_told_order_has_its_retailer() {
    for (kind, retailer, agreement, hears) in [
        (1, HOLDER, LANDLORDS, Some(HOLDER)),
        (1, 0, LANDLORDS, None),
        (2, HOLDER, LANDLORDS, Some(LANDLORDS)),
        (2, 0, LANDLORDS, Some(LANDLORDS)),
        (2, HOLDER, 0, None),
        (5, HOLDER, LANDLORDS, Some(HOLDER)),
    ] {
        let mut held = order(1, kind, 25, 30, 3);
        held.told = 1;
        let mut file = file_with(&[held]);
        (file.retailer, file.agreement) = (retailer, agreement);
        let mut desk = Desk::with_file(10, business_days(), file);
        desk.take(&[unexecutable(1)]);
        let mut expected = vec![(7, kind, 30, 1, SUBMITTER)];
        expected.extend(hears.map(|retailer| (7, kind, 30, 1, retailer)));
        assert_eq!(desk.notices, expected);
    }
}

#[test]
fn pass_4_is_one_pass_oldest_first() {
    let mut desk = agreed_desk();
    desk.take(&[
        new_order_of(202, 1, 20, 1),
        move_out(2, 20),
        new_order_of(203, 1, 21, 3),
        scheduled(1, 16),
        scheduled(2, 16),
        scheduled(3, 16),
    ]);
    desk.mark_to(13);
    assert_eq!(desk.notices, []);
    desk.mark_to(14);
    let expected = [
        (4, 1, 16, 1, HOLDER),
        (12, 2, 16, 2, LANDLORDS),
        (4, 1, 16, 3, HOLDER),
    ];
    assert_eq!(desk.notices, expected);
}

/// No exception for a holder that has the flat, or asked for the move out.
#[test]
fn the_holder_is_told_whoever_it_is() {
    for holder in [HOLDER, SUBMITTER] {
        let mut desk = Desk::new(10);
        desk.take(&[establish(holder), new_order(2, 12, 1), scheduled(1, 12)]);
        let expected = [(3, 2, 12, 1, SUBMITTER), (12, 2, 12, 1, holder)];
        assert_eq!(desk.notices, expected);
    }
}

#[test]
fn told_stays_0_while_there_is_no_agreement() {
    let mut desk = Desk::new(10);
    desk.take(&[move_out(1, 12), scheduled(1, 12)]);
    desk.mark_to(15);
    assert_eq!((desk.order(1).told, desk.notices.len()), (0, 0));
}

#[test]
fn a_read_before_since_leaves_r_and_a_new_file_has_no_agreement() {
    let mut desk = Desk::new(10);
    desk.take(&[Entry::Retire, create(8, HOLDER), establish(LANDLORDS)]);
    desk.take(&[move_out(1, 5), scheduled(1, 5), read(1, 5)]);
    assert_eq!((desk.file().retailer, desk.file().since), (HOLDER, 8));
    played(
        &mut desk,
        &[
            (Entry::Retire, 0, &[]),
            (create(8, HOLDER), 0, &[]),
            (delete(LANDLORDS), 18, &[]),
        ],
    );
}

/// The holder hears nothing of a new date, and is told of the move out again.
#[test]
fn a_told_move_out_that_moves_its_date() {
    let mut desk = agreed_desk();
    desk.take(&[move_out(1, 12), scheduled(1, 12)]);
    assert_eq!(desk.order(1).told, 1);
    desk.take(&[cancel_by(HOLDER, 1), scheduled(1, 30)]);
    played(
        &mut desk,
        &[
            (date_change(1, 40, 1), 0, &[(9, 2, 40, 1, TDSP)]),
            (
                scheduled(1, 12),
                0,
                &[(3, 2, 12, 1, HOLDER), (12, 2, 12, 1, LANDLORDS)],
            ),
        ],
    );
}

/// Only a move out's read goes by the agreement.
#[test]
fn a_move_outs_read_hands_the_flat_to_the_holder() {
    for (kind, day, retailer) in [
        (1, 12, SUBMITTER),
        (2, 12, LANDLORDS),
        (2, 8, LANDLORDS),
        (2, 7, HOLDER),
        (3, 12, SUBMITTER),
        (4, 12, SUBMITTER),
        (5, 12, SUBMITTER),
    ] {
        let mut file = file_with(&[order(1, kind, 8, 12, status::SCHEDULED)]);
        (file.since, file.agreement) = (8, LANDLORDS);
        let mut desk = Desk::with_file(10, business_days(), file);
        desk.take(&[read(1, day)]);
        assert_eq!(desk.file().retailer, retailer, "{kind} {day}");
        assert_eq!(desk.file().agreement, LANDLORDS);
    }
}
