//! The evaluation made fast: one look at each order says which passes it may be
//! for.

use crate::window::Window;
use stacking::file::{File, DE_ENERGIZED, NO_AGREEMENT};
use stacking::notice::{Code, NoticeWriter, TDSP};
use stacking::order::{kind, status, Order};

/// A file's evaluation.
pub fn run(file: &mut File, window: &Window, notices: &mut NoticeWriter) {
    let candidates = Candidates::of(file, window);
    keep_one_switch_a_day(file, window, &candidates, notices);
    cancel_drops_beside_switches(file, window, &candidates, notices);
    cancel_overtaken_permits(file, window, &candidates, notices);
    tell_retailers(file, window, &candidates, notices);
}

/// The orders that each pass may be about. Most files give no pass anything to
/// do, and one look at each order shows it. Passes only ever take candidates
/// away, so those found at the start are all there can be; each pass tests its
/// own again, to see what the ones before left.
#[derive(Clone, Copy, Debug, Default)]
struct Candidates {
    switches: Places,
    drops: Places,
    permits: Places,
    begun_move_ins: Places,
    untold: Places,
}

impl Candidates {
    /// Most orders of a book are closed or In Review, and no pass is about them.
    fn of(file: &File, window: &Window) -> Candidates {
        let mut found = Candidates::default();
        for (place, order) in file.held().iter().enumerate() {
            if matches!(
                order.status,
                status::PERMIT_PENDING | status::SCHEDULED | status::CANCEL_PENDING
            ) {
                found.add(place, order, window);
            }
        }
        found
    }

    fn add(&mut self, place: usize, order: &Order, window: &Window) {
        self.switches
            .add_if(place, is_contested_switch(order, window));
        self.drops.add_if(place, is_drop_in_window(order, window));
        self.permits.add_if(place, is_pending_permit(order));
        self.begun_move_ins
            .add_if(place, is_begun_move_in(order, window));
        self.untold.add_if(place, is_untold(order, window));
    }
}

/// A set of places in a file, a bit for each, gone through oldest first.
#[derive(Clone, Copy, Debug, Default)]
struct Places(u32);

impl Places {
    fn add_if(&mut self, place: usize, condition: bool) {
        self.0 |= u32::from(condition) << place;
    }
}

impl Iterator for Places {
    type Item = usize;

    fn next(&mut self) -> Option<usize> {
        if self.0 == 0 {
            return None;
        }
        let place = self.0.trailing_zeros() as usize;
        self.0 &= self.0 - 1;
        Some(place)
    }
}

/// Pass 1: of the switches in window for one day, one is kept.
fn keep_one_switch_a_day(
    file: &mut File,
    window: &Window,
    candidates: &Candidates,
    notices: &mut NoticeWriter,
) {
    for place in candidates.switches {
        let order = &file.orders[place];
        if is_contested_switch(order, window)
            && kept_switch(file, window, candidates, order.scheduled_day) != Some(place)
        {
            cancel_and_tell_submitter(file, place, notices);
        }
    }
}

/// The switch kept for a day: the oldest Scheduled one, or the oldest if none is.
fn kept_switch(file: &File, window: &Window, candidates: &Candidates, day: u16) -> Option<usize> {
    let mut on_the_day = candidates.switches.filter(|&place| {
        let order = &file.orders[place];
        is_contested_switch(order, window) && order.scheduled_day == day
    });
    let oldest = on_the_day.next()?;
    let is_scheduled = |&place: &usize| file.orders[place].is_scheduled();
    std::iter::once(oldest)
        .chain(on_the_day)
        .find(is_scheduled)
        .or(Some(oldest))
}

/// Pass 2: a drop gives way to a switch of the same day.
fn cancel_drops_beside_switches(
    file: &mut File,
    window: &Window,
    candidates: &Candidates,
    notices: &mut NoticeWriter,
) {
    for place in candidates.drops {
        let order = &file.orders[place];
        if is_drop_in_window(order, window) && has_switch_on(file, candidates, order.scheduled_day)
        {
            let current_retailer = file.retailer;
            let order = cancel(file, place, notices);
            if current_retailer != DE_ENERGIZED {
                notices.write(Code::Cancel, file.premise, &order, current_retailer);
            }
        }
    }
}

/// The drop is in window, so a switch of its day is a candidate.
fn has_switch_on(file: &File, candidates: &Candidates, day: u16) -> bool {
    candidates.switches.into_iter().any(|place| {
        let order = &file.orders[place];
        order.is_switch() && order.is_scheduled() && order.scheduled_day == day
    })
}

/// Pass 3: a move in still waiting for its permit gives way to one that was
/// requested for a later day and has begun. Permits go by requested days.
fn cancel_overtaken_permits(
    file: &mut File,
    window: &Window,
    candidates: &Candidates,
    notices: &mut NoticeWriter,
) {
    for place in candidates.permits {
        let order = &file.orders[place];
        if is_pending_permit(order) && is_overtaken(file, window, candidates, order.requested_day) {
            cancel_and_tell_submitter(file, place, notices);
        }
    }
}

fn is_overtaken(file: &File, window: &Window, candidates: &Candidates, requested: u16) -> bool {
    candidates.begun_move_ins.into_iter().any(|place| {
        let order = &file.orders[place];
        is_begun_move_in(order, window) && requested < order.requested_day
    })
}

/// Pass 4: the premise's retailer hears of the order that will replace it, and the
/// holder of the service agreement of the move out that will leave it the premise.
fn tell_retailers(
    file: &mut File,
    window: &Window,
    candidates: &Candidates,
    notices: &mut NoticeWriter,
) {
    for place in candidates.untold {
        let order = &mut file.orders[place];
        if !is_untold(order, window) {
            continue;
        }
        if order.kind != kind::MOVE_OUT {
            order.told = 1;
            if file.retailer != DE_ENERGIZED && file.retailer != order.retailer {
                notices.write(Code::LosingRetailer, file.premise, order, file.retailer);
            }
        } else if file.agreement != NO_AGREEMENT {
            order.told = 1;
            notices.write(Code::AgreementMoveOut, file.premise, order, file.agreement);
        }
    }
}

// These tests are made for many orders at every day mark. They have no branches
// (`&`, not `&&`), because kinds and days come in no order that a processor could
// guess.

/// A switch in window that is Scheduled or Cancel Pending.
fn is_contested_switch(order: &Order, window: &Window) -> bool {
    order.is_switch()
        & (order.is_scheduled() | (order.status == status::CANCEL_PENDING))
        & window.holds(order.scheduled_day)
}

fn is_drop_in_window(order: &Order, window: &Window) -> bool {
    (order.kind == kind::MASS_TRANSITION_DROP)
        & order.is_scheduled()
        & window.holds(order.scheduled_day)
}

fn is_pending_permit(order: &Order) -> bool {
    (order.kind == kind::MOVE_IN) & (order.status == status::PERMIT_PENDING)
}

/// A Scheduled move in with its scheduled day not after today.
fn is_begun_move_in(order: &Order, window: &Window) -> bool {
    (order.kind == kind::MOVE_IN) & order.is_scheduled() & (order.scheduled_day <= window.today)
}

fn is_untold(order: &Order, window: &Window) -> bool {
    order.is_scheduled() & (order.told == 0) & window.holds(order.scheduled_day)
}

/// Cancelled, and the TDSP and the submitting retailer hear of it.
fn cancel_and_tell_submitter(file: &mut File, place: usize, notices: &mut NoticeWriter) {
    let order = cancel(file, place, notices);
    notices.write(Code::Cancel, file.premise, &order, order.retailer);
}

/// Cancelled, and the TDSP hears of it.
fn cancel(file: &mut File, place: usize, notices: &mut NoticeWriter) -> Order {
    let order = &mut file.orders[place];
    order.set_status(status::CANCELLED);
    notices.write(Code::Cancel, file.premise, order, TDSP);
    *order
}
