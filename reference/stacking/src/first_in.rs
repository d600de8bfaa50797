//! Not first in (002, table 11.1): which held orders keep a new one out.

use crate::order::{kind, Order};

const YES: bool = true;
const NO: bool = false;

/// Rows: the held order's kind, 1 to 5. Columns: the new order's kind, 1 to 4.
/// A yes refuses.
pub const TABLE: [[bool; 4]; 5] = [
    [YES, NO, NO, YES],
    [NO, YES, NO, YES],
    [NO, NO, NO, YES],
    [NO, NO, NO, YES],
    [NO, NO, NO, NO],
];

/// Row 11: does a held order keep out a new one of this kind and requested day?
pub fn not_first_in(held: &[Order], new_kind: u8, requested_day: u16) -> bool {
    new_kind != kind::MASS_TRANSITION_DROP
        && held
            .iter()
            .any(|order| order.is_scheduled() && keeps_out(order, new_kind, requested_day))
}

/// Does this Scheduled order keep the new one out? Beside the table, a standard
/// switch keeps out every standard switch that would not come after it.
fn keeps_out(order: &Order, new_kind: u8, requested_day: u16) -> bool {
    let both_standard = order.kind == kind::STANDARD_SWITCH && new_kind == kind::STANDARD_SWITCH;
    (order.scheduled_day == requested_day && table_refuses(order.kind, new_kind))
        || (both_standard && order.scheduled_day >= requested_day)
}

fn table_refuses(held_kind: u8, new_kind: u8) -> bool {
    TABLE[usize::from(held_kind) - 1][usize::from(new_kind) - 1]
}
