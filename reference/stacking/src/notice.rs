//! Notices: what the book tells retailers and the TDSP.

use crate::order::Order;
use crate::record::{Fields, RECORD_BYTES};

/// The buffer lent for notices has at least this many bytes: two notices for
/// each order of a full book.
pub const NOTICE_BUFFER_BYTES: usize = 24_576;

/// The addressee that stands for the TDSP, the wires company.
pub const TDSP: u64 = 0;

/// A notice's code, with the transaction it stands for.
#[derive(Clone, Copy, Debug, PartialEq, Eq)]
#[repr(u8)]
pub enum Code {
    /// 814_03.
    NewOrder = 1,
    /// 814_24.
    NewMoveOut = 2,
    /// 814_05 or 814_25.
    Scheduled = 3,
    /// 814_06, to the retailer that is about to lose the premise.
    LosingRetailer = 4,
    /// 814_08.
    Cancel = 5,
    /// 814_28 permit.
    PermitRequired = 6,
    /// 814_28 unexecutable.
    Unexecutable = 7,
    /// 814_09 reject.
    CancelRejected = 8,
    /// 814_12.
    DateChange = 9,
    /// 814_18, to the retailer whose service agreement another one replaces.
    AgreementReplaced = 10,
    /// 814_19, to the retailer whose service agreement is established or deleted.
    Agreement = 11,
    /// 814_22, to the holder of the service agreement that a move out leaves the
    /// premise to.
    AgreementMoveOut = 12,
}

impl Code {
    /// The code's day: the requested one where that is what is told, else the
    /// scheduled one, which may be "no day".
    fn day(self, order: &Order) -> u16 {
        match self {
            Code::NewOrder | Code::NewMoveOut | Code::DateChange => order.requested_day,
            _ => order.scheduled_day,
        }
    }
}

/// Writes notices one after the other into the unwritten rest of a buffer.
pub struct NoticeWriter<'a> {
    rest: &'a mut [u8],
    count: usize,
}

impl<'a> NoticeWriter<'a> {
    pub fn new(buffer: &'a mut [u8]) -> NoticeWriter<'a> {
        NoticeWriter {
            rest: buffer,
            count: 0,
        }
    }

    /// How many have been written.
    pub fn count(&self) -> usize {
        self.count
    }

    /// Writes the next notice, about `order` as it now is.
    pub fn write(&mut self, code: Code, premise: u64, order: &Order, addressee: u64) {
        self.put(Fields {
            kind: code as u8,
            detail: order.kind,
            day: code.day(order),
            reference: order.reference,
            premise,
            retailer: addressee,
        });
    }

    /// Writes the next notice, about the premise and none of its orders.
    pub fn write_of_premise(&mut self, code: Code, premise: u64, addressee: u64) {
        self.put(Fields {
            kind: code as u8,
            premise,
            retailer: addressee,
            ..Fields::default()
        });
    }

    fn put(&mut self, notice: Fields) {
        let (place, rest) = std::mem::take(&mut self.rest).split_at_mut(RECORD_BYTES);
        place.copy_from_slice(&notice.to_bytes());
        self.rest = rest;
        self.count += 1;
    }
}
