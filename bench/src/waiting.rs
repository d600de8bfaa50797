//! The four totals made fast: 16 bits each of one number.

use stacking::file::File;
use stacking::order::status;
use stacking::waiting::Waiting;

/// What an order adds, by the low three bits of its status: every status of a
/// well-kept book is below 8, and that of an unused place is 0.
const UNITS: [u64; 8] = {
    let mut units = [0; 8];
    units[status::IN_REVIEW as usize] = 1;
    units[status::PERMIT_PENDING as usize] = 1 << 16;
    units[status::SCHEDULED as usize] = 1 << 32;
    units[status::CANCEL_PENDING as usize] = 1 << 48;
    units
};

/// What an order in this status adds to the totals.
pub fn unit(status: u8) -> u64 {
    UNITS[usize::from(status & 7)]
}

/// A file's part of the totals, over all its places.
pub fn of_file(file: &File) -> u64 {
    let units = file.orders.iter().map(|order| unit(order.status));
    units.fold(0, |sum, unit| sum + unit)
}

/// The totals as one number.
pub fn packed(waiting: &Waiting) -> u64 {
    let [in_review, permit_pending, scheduled, cancel_pending] = waiting.each().map(u64::from);
    in_review | permit_pending << 16 | scheduled << 32 | cancel_pending << 48
}

/// The totals from one number.
pub fn unpacked(packed: u64) -> Waiting {
    Waiting::new([0, 16, 32, 48].map(|place| (packed >> place) as u16))
}
