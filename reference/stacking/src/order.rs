//! An order for a premise.

use crate::days::{BusinessDays, CalendarDays};

/// The kinds of order (K).
pub mod kind {
    pub const MOVE_IN: u8 = 1;
    pub const MOVE_OUT: u8 = 2;
    pub const STANDARD_SWITCH: u8 = 3;
    pub const SELF_SELECTED_SWITCH: u8 = 4;
    pub const MASS_TRANSITION_DROP: u8 = 5;
}

/// The statuses. 1 to 4 are open, the others closed.
pub mod status {
    pub const IN_REVIEW: u8 = 1;
    pub const PERMIT_PENDING: u8 = 2;
    pub const SCHEDULED: u8 = 3;
    pub const CANCEL_PENDING: u8 = 4;
    pub const COMPLETE: u8 = 5;
    pub const CANCELLED: u8 = 6;
    pub const UNEXECUTABLE: u8 = 7;
}

/// Retailers are 1 to this number: nine digits and a suffix of four (02, change 7).
/// 0 stands for none.
pub const LARGEST_RETAILER: u64 = 9_999_999_999_999;

/// One order. Every field can hold any number, also one out of range: a book
/// that is handed in may be damaged, and row 2 has to be able to say so.
#[derive(Clone, Copy, Debug, Default, PartialEq, Eq)]
pub struct Order {
    /// F, the reference; not 0.
    pub reference: u32,
    /// Q, the submitting retailer; for a mass transition drop the gaining one.
    pub retailer: u64,
    /// RD.
    pub requested_day: u16,
    /// SD, or "no day".
    pub scheduled_day: u16,
    /// K, one of [`kind`].
    pub kind: u8,
    /// One of [`status`].
    pub status: u8,
    /// N, the business days waited.
    pub waited: BusinessDays,
    /// W, the calendar days in Cancel Pending.
    pub cancel_pending_for: CalendarDays,
    /// 1 once the retailer concerned has been told, or did not have to be.
    pub told: u8,
    /// The counter of the last date change that was taken, 0 before the first.
    pub counter: u32,
}

impl Order {
    /// A place without an order.
    pub const EMPTY: Order = Order {
        reference: 0,
        retailer: 0,
        requested_day: 0,
        scheduled_day: 0,
        kind: 0,
        status: 0,
        waited: BusinessDays(0),
        cancel_pending_for: CalendarDays(0),
        told: 0,
        counter: 0,
    };

    pub fn is_open(&self) -> bool {
        matches!(self.status, status::IN_REVIEW..=status::CANCEL_PENDING)
    }

    pub fn is_scheduled(&self) -> bool {
        self.status == status::SCHEDULED
    }

    pub fn is_switch(&self) -> bool {
        matches!(
            self.kind,
            kind::STANDARD_SWITCH | kind::SELF_SELECTED_SWITCH
        )
    }

    /// Takes a new status. Whichever it is, the wait in Cancel Pending starts
    /// anew or is over.
    pub fn set_status(&mut self, status: u8) {
        self.status = status;
        self.cancel_pending_for = CalendarDays(0);
    }
}
