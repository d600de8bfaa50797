//! The 24-byte layout of records and notices, and row 3: which bytes are a record.

use crate::days::{LAST_DAY, WIDEST_WINDOW};
use crate::order::{kind, LARGEST_RETAILER};
use std::ops::Range;

/// A record, and likewise a notice, is this long.
pub const RECORD_BYTES: usize = 24;

/// Where each field stands; numbers have their low byte first.
mod place {
    use std::ops::Range;

    pub const KIND: usize = 0;
    pub const DETAIL: usize = 1;
    pub const DAY: Range<usize> = 2..4;
    pub const REFERENCE: Range<usize> = 4..8;
    pub const PREMISE: Range<usize> = 8..16;
    pub const RETAILER: Range<usize> = 16..24;
}

/// The fields of a record, or of a notice with its code as the kind and its
/// addressee as the retailer, whatever their values.
#[derive(Clone, Copy, Debug, Default, PartialEq, Eq)]
pub struct Fields {
    pub kind: u8,
    pub detail: u8,
    pub day: u16,
    pub reference: u32,
    pub premise: u64,
    pub retailer: u64,
}

impl Fields {
    pub fn from_bytes(bytes: &[u8; RECORD_BYTES]) -> Fields {
        Fields {
            kind: bytes[place::KIND],
            detail: bytes[place::DETAIL],
            day: u16::from_le_bytes(part(bytes, place::DAY)),
            reference: u32::from_le_bytes(part(bytes, place::REFERENCE)),
            premise: u64::from_le_bytes(part(bytes, place::PREMISE)),
            retailer: u64::from_le_bytes(part(bytes, place::RETAILER)),
        }
    }

    pub fn to_bytes(self) -> [u8; RECORD_BYTES] {
        let mut bytes = [0; RECORD_BYTES];
        bytes[place::KIND] = self.kind;
        bytes[place::DETAIL] = self.detail;
        bytes[place::DAY].copy_from_slice(&self.day.to_le_bytes());
        bytes[place::REFERENCE].copy_from_slice(&self.reference.to_le_bytes());
        bytes[place::PREMISE].copy_from_slice(&self.premise.to_le_bytes());
        bytes[place::RETAILER].copy_from_slice(&self.retailer.to_le_bytes());
        bytes
    }
}

fn part<const WIDTH: usize>(bytes: &[u8; RECORD_BYTES], place: Range<usize>) -> [u8; WIDTH] {
    bytes[place]
        .try_into()
        .expect("the place is as wide as the field")
}

/// A well-formed record.
#[derive(Clone, Copy, Debug, PartialEq, Eq)]
pub enum Record {
    /// Kinds 1 to 9, 11 and 12: a premise's own record.
    OfPremise { premise: u64, entry: Entry },
    /// Kind 10.
    DayMark { day: u16 },
}

/// What a premise's own record says.
#[derive(Clone, Copy, Debug, PartialEq, Eq)]
pub enum Entry {
    /// Kind 1.
    Create(NewFile),
    /// Kind 2.
    Retire,
    /// Kinds 3 to 9 and 11.
    Order(OrderEntry),
    /// Kind 12 (02, change 3).
    Agreement(Agreement),
}

/// What becomes of the owner's service agreement.
#[derive(Clone, Copy, Debug, PartialEq, Eq)]
pub enum Agreement {
    /// Detail 1.
    Establish { retailer: u64 },
    /// Detail 2.
    Delete { retailer: u64 },
}

/// A new file as the record gives it.
#[derive(Clone, Copy, Debug, PartialEq, Eq)]
pub struct NewFile {
    /// S.
    pub since: u16,
    /// R, or 0.
    pub retailer: u64,
    /// The window in business days; 0 means the usual one (02, change 2).
    pub window: u8,
}

/// What a record says about a premise's orders.
#[derive(Clone, Copy, Debug, PartialEq, Eq)]
pub enum OrderEntry {
    /// Kind 3.
    New(NewOrder),
    /// Kinds 4 to 9 and 11: something happens to the order with this reference.
    Event { reference: u32, event: Event },
}

/// A new order as the record gives it.
#[derive(Clone, Copy, Debug, PartialEq, Eq)]
pub struct NewOrder {
    /// K.
    pub kind: u8,
    /// The record's day: 0 for a standard switch, whose day the calendar gives.
    pub day: u16,
    /// F.
    pub reference: u32,
    /// Q.
    pub retailer: u64,
}

/// What happens to a held order.
#[derive(Clone, Copy, Debug, PartialEq, Eq)]
pub enum Event {
    /// Kind 4.
    Scheduled { day: u16 },
    /// Kind 5.
    PermitRequired,
    /// Kind 6.
    Unexecutable,
    /// Kind 7.
    MeterRead { day: u16 },
    /// Kind 8.
    Cancel { retailer: u64 },
    /// Kind 9, detail 1.
    CancelAccepted,
    /// Kind 9, detail 2.
    CancelRejected,
    /// Kind 11 (02, change 1).
    DateChange { day: u16, counter: u32 },
}

/// The values a kind of record takes in each field, both ends included. A field
/// that the kind does not use takes 0 only.
struct Ranges {
    detail: (u8, u8),
    day: (u16, u16),
    reference: (u32, u32),
    premise: (u64, u64),
    retailer: (u64, u64),
}

const UNUSED: Ranges = Ranges {
    detail: (0, 0),
    day: (0, 0),
    reference: (0, 0),
    premise: (0, 0),
    retailer: (0, 0),
};

const ANY_DAY: (u16, u16) = (0, LAST_DAY);
const ANY_REFERENCE: (u32, u32) = (1, u32::MAX);
const ANY_RETAILER: (u64, u64) = (1, LARGEST_RETAILER);

/// A date change has its counter where other records have a retailer, but only in
/// the first four of the eight bytes; the others are zero.
const ANY_COUNTER: (u64, u64) = (1, LARGEST_COUNTER);
const LARGEST_COUNTER: u64 = u32::MAX as u64;

/// A record about a premise.
const PREMISE: Ranges = Ranges {
    premise: (1, u64::MAX),
    ..UNUSED
};

/// A record about an order.
const ORDER: Ranges = Ranges {
    reference: ANY_REFERENCE,
    ..PREMISE
};

/// The kinds of record 1 to 12, in that order.
const RANGES: [Ranges; 12] = [
    // create
    Ranges {
        detail: (0, WIDEST_WINDOW.0),
        day: ANY_DAY,
        retailer: (0, LARGEST_RETAILER),
        ..PREMISE
    },
    // retire
    PREMISE,
    // new order
    Ranges {
        detail: (kind::MOVE_IN, kind::MASS_TRANSITION_DROP),
        day: ANY_DAY,
        retailer: ANY_RETAILER,
        ..ORDER
    },
    // scheduled
    Ranges {
        day: ANY_DAY,
        ..ORDER
    },
    // permit required
    ORDER,
    // unexecutable
    ORDER,
    // meter read
    Ranges {
        day: ANY_DAY,
        ..ORDER
    },
    // cancel
    Ranges {
        retailer: ANY_RETAILER,
        ..ORDER
    },
    // cancel reply
    Ranges {
        detail: (CANCEL_ACCEPTED, CANCEL_REJECTED),
        ..ORDER
    },
    // day mark
    Ranges {
        day: ANY_DAY,
        ..UNUSED
    },
    // date change
    Ranges {
        day: ANY_DAY,
        retailer: ANY_COUNTER,
        ..ORDER
    },
    // agreement
    Ranges {
        detail: (ESTABLISHED, DELETED),
        retailer: ANY_RETAILER,
        ..PREMISE
    },
];

/// The details of a cancel reply.
const CANCEL_ACCEPTED: u8 = 1;
const CANCEL_REJECTED: u8 = 2;

/// The details of an agreement.
const ESTABLISHED: u8 = 1;
const DELETED: u8 = 2;

impl Ranges {
    fn take(&self, fields: &Fields) -> bool {
        within(self.detail, fields.detail)
            && within(self.day, fields.day)
            && within(self.reference, fields.reference)
            && within(self.premise, fields.premise)
            && within(self.retailer, fields.retailer)
    }
}

fn within<T: PartialOrd>(range: (T, T), value: T) -> bool {
    range.0 <= value && value <= range.1
}

/// Row 3, by the bytes alone: the record they are, or none.
pub fn decode(bytes: &[u8]) -> Option<Record> {
    let fields = Fields::from_bytes(bytes.try_into().ok()?);
    let ranges = RANGES.get(usize::from(fields.kind).checked_sub(1)?)?;
    if !ranges.take(&fields) {
        return None;
    }
    let on_order = |event| Entry::event(fields.reference, event);
    let entry = match fields.kind {
        1 => Entry::Create(NewFile {
            since: fields.day,
            retailer: fields.retailer,
            window: fields.detail,
        }),
        2 => Entry::Retire,
        3 => new_order(&fields)?,
        4 => on_order(Event::Scheduled { day: fields.day }),
        5 => on_order(Event::PermitRequired),
        6 => on_order(Event::Unexecutable),
        7 => on_order(Event::MeterRead { day: fields.day }),
        8 => on_order(Event::Cancel {
            retailer: fields.retailer,
        }),
        9 if fields.detail == CANCEL_ACCEPTED => on_order(Event::CancelAccepted),
        9 => on_order(Event::CancelRejected),
        10 => return Some(Record::DayMark { day: fields.day }),
        11 => on_order(Event::DateChange {
            day: fields.day,
            // in range, so that four bytes have all of it
            counter: fields.retailer as u32,
        }),
        _ => Entry::Agreement(agreement(&fields)),
    };
    Some(Record::OfPremise {
        premise: fields.premise,
        entry,
    })
}

/// A standard switch takes its day from the calendar and may not give one.
fn new_order(fields: &Fields) -> Option<Entry> {
    if fields.detail == kind::STANDARD_SWITCH && fields.day != 0 {
        return None;
    }
    Some(Entry::new_order(NewOrder {
        kind: fields.detail,
        day: fields.day,
        reference: fields.reference,
        retailer: fields.retailer,
    }))
}

fn agreement(fields: &Fields) -> Agreement {
    let retailer = fields.retailer;
    match fields.detail {
        ESTABLISHED => Agreement::Establish { retailer },
        _ => Agreement::Delete { retailer },
    }
}

impl Record {
    /// The record's 24 bytes.
    pub fn to_bytes(&self) -> [u8; RECORD_BYTES] {
        match *self {
            Record::OfPremise { premise, entry } => Fields {
                premise,
                ..entry.fields()
            },
            Record::DayMark { day } => Fields {
                kind: 10,
                day,
                ..Fields::default()
            },
        }
        .to_bytes()
    }
}

impl Entry {
    /// Kind 3.
    pub fn new_order(new: NewOrder) -> Entry {
        Entry::Order(OrderEntry::New(new))
    }

    /// Kinds 4 to 9 and 11.
    pub fn event(reference: u32, event: Event) -> Entry {
        Entry::Order(OrderEntry::Event { reference, event })
    }

    /// The entry's fields, the premise left open.
    fn fields(&self) -> Fields {
        match *self {
            Entry::Create(new) => Fields {
                kind: 1,
                detail: new.window,
                day: new.since,
                retailer: new.retailer,
                ..Fields::default()
            },
            Entry::Retire => Fields {
                kind: 2,
                ..Fields::default()
            },
            Entry::Order(OrderEntry::New(new)) => Fields {
                kind: 3,
                detail: new.kind,
                day: new.day,
                reference: new.reference,
                retailer: new.retailer,
                ..Fields::default()
            },
            Entry::Order(OrderEntry::Event { reference, event }) => Fields {
                reference,
                ..event.fields()
            },
            Entry::Agreement(agreement) => agreement.fields(),
        }
    }
}

impl Agreement {
    /// The record's fields, the premise left open.
    fn fields(&self) -> Fields {
        let (detail, retailer) = match *self {
            Agreement::Establish { retailer } => (ESTABLISHED, retailer),
            Agreement::Delete { retailer } => (DELETED, retailer),
        };
        Fields {
            kind: 12,
            detail,
            retailer,
            ..Fields::default()
        }
    }
}

impl Event {
    /// The event's fields, premise and reference left open. A counter stands in
    /// the retailer's place.
    fn fields(&self) -> Fields {
        let (kind, detail, day, retailer) = match *self {
            Event::Scheduled { day } => (4, 0, day, 0),
            Event::PermitRequired => (5, 0, 0, 0),
            Event::Unexecutable => (6, 0, 0, 0),
            Event::MeterRead { day } => (7, 0, day, 0),
            Event::Cancel { retailer } => (8, 0, 0, retailer),
            Event::CancelAccepted => (9, CANCEL_ACCEPTED, 0, 0),
            Event::CancelRejected => (9, CANCEL_REJECTED, 0, 0),
            Event::DateChange { day, counter } => (11, 0, day, u64::from(counter)),
        };
        Fields {
            kind,
            detail,
            day,
            retailer,
            ..Fields::default()
        }
    }
}
