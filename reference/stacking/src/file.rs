//! The file of one premise.

use crate::days::{BusinessDays, USUAL_WINDOW};
use crate::order::{kind, Order};
use crate::record::NewFile;

/// A file holds up to this many orders.
pub const ORDERS_A_FILE: usize = 8;

/// A retailer with this many open orders in a file gets no further one (02, change 12).
pub const OPEN_ORDERS_A_RETAILER: usize = 4;

/// R of a premise without a retailer.
pub const DE_ENERGIZED: u64 = 0;

/// C of a premise without a service agreement.
pub const NO_AGREEMENT: u64 = 0;

/// One premise. Like [`Order`], any number fits in any field.
#[derive(Clone, Copy, Debug, Default, PartialEq, Eq)]
pub struct File {
    /// P, the premise number; not 0.
    pub premise: u64,
    /// R, the premise's retailer; 0 means de-energized.
    pub retailer: u64,
    /// S, the day since which the retailer holds.
    pub since: u16,
    /// How many of the places of `orders` are used.
    pub order_count: u8,
    /// How many business days wide the premise's window is.
    pub window: BusinessDays,
    /// C, the retailer of the owner's service agreement; 0 for none.
    pub agreement: u64,
    /// 1 if a move in read on the day of `since` set the retailer.
    pub moved_in: u8,
    /// The orders, oldest first; unused places are zero.
    pub orders: [Order; ORDERS_A_FILE],
}

impl File {
    /// A place without a file.
    pub const EMPTY: File = File {
        premise: 0,
        retailer: 0,
        since: 0,
        order_count: 0,
        window: BusinessDays(0),
        agreement: NO_AGREEMENT,
        moved_in: 0,
        orders: [Order::EMPTY; ORDERS_A_FILE],
    };

    /// A file without orders and agreement, with the usual window.
    pub fn new(premise: u64, retailer: u64, since: u16) -> File {
        File {
            premise,
            retailer,
            since,
            window: USUAL_WINDOW,
            ..File::EMPTY
        }
    }

    /// The file that a create makes.
    pub fn created(premise: u64, new: NewFile) -> File {
        let window = match new.window {
            0 => USUAL_WINDOW,
            width => BusinessDays(width),
        };
        File {
            window,
            ..File::new(premise, new.retailer, new.since)
        }
    }

    /// The held orders, oldest first. The count has to be in range.
    pub fn held(&self) -> &[Order] {
        &self.orders[..usize::from(self.order_count)]
    }

    /// The held orders, to be changed.
    pub fn held_mut(&mut self) -> &mut [Order] {
        &mut self.orders[..usize::from(self.order_count)]
    }

    /// The place of the order with this reference, closed ones included.
    pub fn place_of(&self, reference: u32) -> Option<usize> {
        self.held()
            .iter()
            .position(|order| order.reference == reference)
    }

    pub fn has_open_order(&self) -> bool {
        self.held().iter().any(Order::is_open)
    }

    /// How many open orders has this retailer submitted, or gains by, here?
    pub fn open_orders_of(&self, retailer: u64) -> usize {
        self.held()
            .iter()
            .filter(|order| order.is_open() && order.retailer == retailer)
            .count()
    }

    /// Who is told of an order: of a move out the holder of the service
    /// agreement, of any other the premise's retailer; nobody where there is none.
    pub fn told_of(&self, order: &Order) -> Option<u64> {
        let (retailer, nobody) = match order.kind {
            kind::MOVE_OUT => (self.agreement, NO_AGREEMENT),
            _ => (self.retailer, DE_ENERGIZED),
        };
        (retailer != nobody).then_some(retailer)
    }

    /// Do open orders take all places, so that none can be dropped?
    pub fn is_full_of_open_orders(&self) -> bool {
        self.held().len() == ORDERS_A_FILE && self.orders.iter().all(Order::is_open)
    }

    /// Puts a new order behind the others. If 8 are held, the oldest closed one
    /// is dropped; the caller has made sure that there is one.
    pub fn append(&mut self, order: Order) {
        let count = usize::from(self.order_count);
        if count < ORDERS_A_FILE {
            self.orders[count] = order;
            self.order_count += 1;
        } else if let Some(closed) = self.orders.iter().position(|held| !held.is_open()) {
            self.orders.copy_within(closed + 1.., closed);
            self.orders[ORDERS_A_FILE - 1] = order;
        }
    }
}
