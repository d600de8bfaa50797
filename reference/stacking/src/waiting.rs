//! Waiting orders at a glance (02, change 11): the four totals that the book
//! keeps, one an open status, and the question that hands them out.

use crate::book::Book;
use crate::file::File;
use crate::order::{status, Order};

/// How many orders are in each open status. Like the fields of [`Order`], each
/// takes any number: the totals of a damaged book may be off.
#[derive(Clone, Copy, Debug, Default, PartialEq, Eq)]
pub struct Waiting {
    pub in_review: u16,
    pub permit_pending: u16,
    pub scheduled: u16,
    pub cancel_pending: u16,
}

impl Waiting {
    /// In Review, Permit Pending, Scheduled, Cancel Pending, as they are stored
    /// and printed.
    pub fn new(totals: [u16; 4]) -> Waiting {
        let [in_review, permit_pending, scheduled, cancel_pending] = totals;
        Waiting {
            in_review,
            permit_pending,
            scheduled,
            cancel_pending,
        }
    }

    /// The four in the same order.
    pub fn each(&self) -> [u16; 4] {
        [
            self.in_review,
            self.permit_pending,
            self.scheduled,
            self.cancel_pending,
        ]
    }

    /// The count over files. It asks for no count in range, since it also says
    /// what the totals of a damaged book would be.
    pub fn count<'a>(files: impl IntoIterator<Item = &'a File>) -> Waiting {
        let mut counted = Waiting::default();
        for file in files {
            for order in file.orders.iter().take(usize::from(file.order_count)) {
                counted.come_in(order);
            }
        }
        counted
    }

    /// A file has changed: what it holds now comes in, what it held goes out. An
    /// order in the status that it had, and one that is closed, moves nothing.
    pub fn follow(&mut self, before: &File, after: &File) {
        for order in after.held() {
            self.come_in(order);
        }
        for order in before.held() {
            self.go_out(order);
        }
    }

    fn come_in(&mut self, order: &Order) {
        if let Some(total) = self.of_status(order.status) {
            *total += 1;
        }
    }

    fn go_out(&mut self, order: &Order) {
        if let Some(total) = self.of_status(order.status) {
            *total -= 1;
        }
    }

    /// The total of an open status; there is none of a closed one.
    fn of_status(&mut self, status: u8) -> Option<&mut u16> {
        match status {
            status::IN_REVIEW => Some(&mut self.in_review),
            status::PERMIT_PENDING => Some(&mut self.permit_pending),
            status::SCHEDULED => Some(&mut self.scheduled),
            status::CANCEL_PENDING => Some(&mut self.cancel_pending),
            _ => None,
        }
    }
}

/// The question: the stored four, from any book. It counts nothing and tests
/// nothing, so that a damaged book's totals come back as they are.
pub fn waiting_orders(book: &Book) -> Waiting {
    book.waiting
}
