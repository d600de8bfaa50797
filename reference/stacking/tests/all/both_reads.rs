//! Document 02, change 4: move out and move in read on one day.

use crate::support::*;
use stacking::order::status;
use stacking::record::Entry;

/// The order kinds as they are read here.
const MOVE_IN: u8 = 1;
const MOVE_OUT: u8 = 2;
const SWITCH: u8 = 4;
const DROP: u8 = 5;

/// The premise's retailer, its since and the mark.
fn supply(desk: &Desk) -> (u64, u16, u8) {
    let file = desk.file();
    (file.retailer, file.since, file.moved_in)
}

/// A desk on day 10 whose premise a retailer holds since a day.
fn desk_since(since: u16, retailer: u64) -> Desk {
    let mut desk = Desk::new(10);
    desk.take(&[Entry::Retire, create(since, retailer)]);
    desk
}

/// Sends an order, schedules it and reads it, all for one day.
fn reads(desk: &mut Desk, reference: u32, kind: u8, retailer: u64, day: u16) {
    desk.take(&[
        new_order_of(retailer, kind, 40, reference),
        scheduled(reference, 12),
        read(reference, day),
    ]);
    let order = desk.order(reference);
    assert_eq!((order.status, order.scheduled_day), (status::COMPLETE, day));
}

#[test]
fn the_move_out_read_second_is_held_off() {
    let mut desk = Desk::new(10);
    reads(&mut desk, 1, MOVE_IN, 202, 12);
    reads(&mut desk, 2, MOVE_OUT, 101, 12);
    assert_eq!(supply(&desk), (202, 12, 1));
}

#[test]
fn the_move_in_read_second_takes_the_flat_as_before() {
    let mut desk = Desk::new(10);
    reads(&mut desk, 1, MOVE_OUT, 101, 12);
    assert_eq!(supply(&desk), (0, 12, 0));
    reads(&mut desk, 2, MOVE_IN, 202, 12);
    assert_eq!(supply(&desk), (202, 12, 1));
}

#[test]
fn every_move_out_of_the_day_is_held_off_and_none_of_a_later_day() {
    let mut desk = Desk::new(10);
    reads(&mut desk, 1, MOVE_IN, 202, 12);
    reads(&mut desk, 2, MOVE_OUT, 101, 12);
    reads(&mut desk, 3, MOVE_OUT, 303, 12);
    assert_eq!(supply(&desk), (202, 12, 1));
    reads(&mut desk, 4, MOVE_OUT, 202, 13);
    assert_eq!(supply(&desk), (0, 13, 0));
}

#[test]
fn held_off_the_flat_does_not_go_to_the_agreement_either() {
    let mut desk = Desk::new(10);
    desk.take(&[establish(900)]);
    reads(&mut desk, 1, MOVE_IN, 202, 12);
    reads(&mut desk, 2, MOVE_OUT, 101, 12);
    assert_eq!(supply(&desk), (202, 12, 1));
    reads(&mut desk, 3, MOVE_OUT, 202, 13);
    assert_eq!(supply(&desk), (900, 13, 0));
}

#[test]
fn a_switch_of_the_day_clears_the_mark() {
    let mut desk = Desk::new(10);
    reads(&mut desk, 1, MOVE_IN, 202, 12);
    reads(&mut desk, 2, SWITCH, 203, 12);
    assert_eq!(supply(&desk), (203, 12, 0));
    reads(&mut desk, 3, MOVE_OUT, 203, 12);
    assert_eq!(supply(&desk), (0, 12, 0));
}

#[test]
fn so_does_a_drop_even_of_the_retailer_that_has_the_flat() {
    let mut desk = Desk::new(10);
    reads(&mut desk, 1, MOVE_IN, 202, 12);
    reads(&mut desk, 2, DROP, 202, 12);
    assert_eq!(supply(&desk), (202, 12, 0));
}

/// Set though R was its retailer; left by a read before S, by a permit's read,
/// and by the move out that it holds off.
#[test]
fn what_leaves_the_mark() {
    let mut desk = desk_since(12, 202);
    reads(&mut desk, 1, MOVE_IN, 202, 12);
    assert_eq!(supply(&desk), (202, 12, 1));
    reads(&mut desk, 2, SWITCH, 303, 11);
    assert_eq!(supply(&desk), (202, 12, 1));
    desk.take(&[new_order_of(204, MOVE_IN, 40, 3), permit(3), read(3, 12)]);
    assert_eq!(supply(&desk), (202, 12, 1));
    reads(&mut desk, 4, MOVE_OUT, 101, 12);
    assert_eq!(supply(&desk), (202, 12, 1));
}

#[test]
fn a_create_sets_no_mark() {
    let mut desk = desk_since(12, 202);
    reads(&mut desk, 1, MOVE_OUT, 202, 12);
    assert_eq!(supply(&desk), (0, 12, 0));
}

#[test]
fn a_move_in_read_before_since_sets_no_mark() {
    let mut desk = desk_since(12, 202);
    reads(&mut desk, 1, MOVE_IN, 203, 11);
    assert_eq!(supply(&desk), (202, 12, 0));
    reads(&mut desk, 2, MOVE_OUT, 202, 12);
    assert_eq!(supply(&desk), (0, 12, 0));
}
